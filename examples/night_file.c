/* Writes the night list of a report, and reads it back:
 *
 *     night_file REPORT LIST
 *
 * prints `accepted N`, writes LIST, a record of 40 bytes for each observation, and prints a line for each record as it is read back
 * from the file; or prints `refused K line L place P` and writes nothing, as for a report with a radar observation, which has no
 * record (23). Its exit status is 0 where the list was written and read back, 1 where the report, an observation or the list was
 * refused, 2 where a file could not be read or written. */
#include <stdio.h>

#include "kyrrbolda.h"

/* One byte more than a report or a list may have, so that one that is too long is refused and not cut off. */
static uint8_t report[KYRR_TEXT_LIMIT + 1];
static uint8_t list[KYRR_RECORD_SIZE * KYRR_ROW_LIMIT + 1];

/* Reads a file into so many bytes; its length, or -1 where it can't be read. */
static long read_file(const char *name, uint8_t *bytes, size_t room)
{
    FILE *file = fopen(name, "rb");
    size_t length;
    int failed;
    if (!file)
        return -1;
    length = fread(bytes, 1, room, file);
    failed = ferror(file);
    fclose(file);
    return failed ? -1 : (long)length;
}

/* Writes the list to a file; 0 where all of it was written. */
static int write_list(const char *name, size_t length)
{
    FILE *file = fopen(name, "wb");
    size_t written;
    if (!file)
        return 1;
    written = fwrite(list, 1, length, file);
    return fclose(file) != 0 || written != length;
}

/* Prints a refusal; the status that goes with it. */
static int refuse(uint64_t refused, uint64_t line, uint64_t place)
{
    printf("refused %llu line %llu place %llu\n", (unsigned long long)refused, (unsigned long long)line, (unsigned long long)place);
    return 1;
}

/* Prints the fields of a record. The bytes of the station are those of the number, low byte first. */
static void print_record(kyrr_night_record record)
{
    char station[5] = {0};
    int k;
    for (k = 0; k < 4; k++)
        station[k] = (char)(record.station >> 8 * k & 255);
    printf("record %llu: stn %s day %lld microseconds %llu ra %lld dec %lld\n", (unsigned long long)record.number, station,
           (long long)record.day, (unsigned long long)record.microseconds, (long long)record.ra, (long long)record.dec);
}

/* Writes the records of a report's observations into the list, one call each; 0, or the status of the refusal, which is printed. */
static int write_records(size_t report_length, uint64_t observations)
{
    uint64_t k;
    for (k = 1; k <= observations; k++) {
        kyrr_done done = kyrr_night_write(report, report_length, k, list, KYRR_RECORD_SIZE * (size_t)observations);
        if (done.refused)
            return refuse(done.refused, done.line, done.place);
    }
    return 0;
}

/* Checks a list and prints its records; 0, or the status of the refusal, which is printed. */
static int read_records(size_t list_length)
{
    kyrr_night_checked checked = kyrr_night_check(list, list_length);
    uint64_t k;
    if (checked.refused)
        return refuse(checked.refused, checked.line, checked.place);
    printf("records %llu\n", (unsigned long long)checked.records);
    for (k = 1; k <= checked.records; k++)
        print_record(kyrr_night_read(list, list_length, k));
    return 0;
}

int main(int words, char **word)
{
    kyrr_checked checked;
    long length;
    if (words != 3) {
        puts("error: night_file REPORT LIST");
        return 2;
    }
    length = read_file(word[1], report, sizeof report);
    if (length < 0) {
        printf("error: %s can't be read\n", word[1]);
        return 2;
    }
    checked = kyrr_check(report, (size_t)length);
    if (checked.refused)
        return refuse(checked.refused, checked.line, checked.place);
    if (write_records((size_t)length, checked.observations))
        return 1;
    printf("accepted %llu\n", (unsigned long long)checked.observations);
    if (write_list(word[2], KYRR_RECORD_SIZE * (size_t)checked.observations)) {
        printf("error: %s can't be written\n", word[2]);
        return 2;
    }
    length = read_file(word[2], list, sizeof list);
    if (length < 0) {
        printf("error: %s can't be read\n", word[2]);
        return 2;
    }
    return read_records((size_t)length);
}
