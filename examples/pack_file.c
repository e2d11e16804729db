/* Checks a report and packs it:
 *
 *     pack_file REPORT OUTPUT
 *
 * prints `accepted N` and `packed BYTES from BYTES`, and writes the packed report to OUTPUT; or prints `refused K line L place P`
 * and writes nothing. Its exit status is 0 where the report was packed, 1 where it was refused, 2 where a file could not be read
 * or written or there was no memory. */
#include <stdio.h>
#include <stdlib.h>

#include "kyrrbolda.h"

/* One byte more than a report may have, so that one that is too long is refused and not cut off. */
static uint8_t report[KYRR_TEXT_LIMIT + 1];
/* The cuts: how many observations each block has. No report has more blocks than observations. */
static uint16_t cuts[KYRR_ROW_LIMIT];

/* Reads a file into the report; its length, or -1 where it can't be read. */
static long read_report(const char *name)
{
    FILE *file = fopen(name, "rb");
    size_t length;
    int failed;
    if (!file)
        return -1;
    length = fread(report, 1, sizeof report, file);
    failed = ferror(file);
    fclose(file);
    return failed ? -1 : (long)length;
}

/* Writes the packed report to a file; 0 where all of it was written. */
static int write_output(const char *name, const uint8_t *output, size_t length)
{
    FILE *file = fopen(name, "wb");
    size_t written;
    if (!file)
        return 1;
    written = fwrite(output, 1, length, file);
    return fclose(file) != 0 || written != length;
}

/* Prints a refusal; the status that goes with it. */
static int refuse(uint64_t refused, uint64_t line, uint64_t place)
{
    printf("refused %llu line %llu place %llu\n", (unsigned long long)refused, (unsigned long long)line, (unsigned long long)place);
    return 1;
}

/* The second call: the packed report by its cuts, into an output of the length that the first call gave, and to a file; the status. */
static int write_packed(size_t length, kyrr_measured measured, uint8_t *output, const char *name)
{
    kyrr_written written = kyrr_write(report, length, cuts, (size_t)measured.blocks, output, (size_t)measured.length);
    if (written.refused)
        return refuse(written.refused, written.line, written.place);
    printf("packed %llu from %llu\n", (unsigned long long)written.length, (unsigned long long)length);
    if (write_output(name, output, (size_t)written.length)) {
        printf("error: %s can't be written\n", name);
        return 2;
    }
    return 0;
}

/* The first call: the length of the packed report and its cuts; then an output of that length is found. The status. */
static int pack(size_t length, const char *name)
{
    kyrr_measured measured = kyrr_length(report, length, cuts, KYRR_ROW_LIMIT);
    uint8_t *output;
    int status;
    if (measured.refused)
        return refuse(measured.refused, measured.line, measured.place);
    output = malloc(measured.length ? (size_t)measured.length : 1); /* malloc(0) may give null, which no call takes */
    if (!output) {
        puts("error: there is no memory for the packed report");
        return 2;
    }
    status = write_packed(length, measured, output, name);
    free(output);
    return status;
}

int main(int words, char **word)
{
    kyrr_checked checked;
    long length;
    if (words != 3) {
        puts("error: pack_file REPORT OUTPUT");
        return 2;
    }
    length = read_report(word[1]);
    if (length < 0) {
        printf("error: %s can't be read\n", word[1]);
        return 2;
    }
    checked = kyrr_check(report, (size_t)length);
    if (checked.refused)
        return refuse(checked.refused, checked.line, checked.place);
    printf("accepted %llu\n", (unsigned long long)checked.observations);
    return pack((size_t)length, word[2]);
}
