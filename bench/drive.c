/* Runs the proved box and the plain implementation on one report:
 *
 *     drive REPORT compare            both answers and all that is written are the same
 *     drive REPORT time CALL          the time of one call of the proved function of that name in the table `calls` and of the plain
 *                                     one after it, in nanoseconds
 *     drive REPORT CALL               one call only, to count its instructions: the function of that name in the table; after it
 *                                     comes the function finished
 *
 * Beside checking the calls ask the length of the packed report, with a list that has room for all cuts, and write it by its cuts,
 * which are asked before the call; value obsTime and posCov11 of the first observation; write the night list's record of the first
 * and of the last observation, which is refused where that is a radar one, and of all observations, each by its own call; check a
 * list of 256 records and read its last one.
 *
 * Declares the few functions of the C library that it needs, so that it can be built where only the linker's libraries of
 * x86-64 are. */

#include "kyrrbolda.h"
#include "plain.h"

typedef struct { int64_t seconds, nanoseconds; } moment;
int open(const char *name, int flags, ...);
int64_t read(int file, void *bytes, size_t count);
int printf(const char *format, ...);
int strcmp(const char *one, const char *other);
int memcmp(const void *one, const void *other, size_t count);
void *memset(void *bytes, int byte, size_t count);
void *memcpy(void *to, const void *from, size_t count);
int clock_gettime(int clock, moment *now);

enum { OBS_TIME = 15, POS_COV11 = 38, POS_COV33 = 43 }; /* numbers of elements */
enum { ROOM = 65536 + 64, CUTS = KYRR_ROW_LIMIT + 64, RECORD = 40, RECORDS = 256, LIST = RECORD * RECORDS, MONOTONIC = 1, ROUNDS = 31 };
#define ROUND_NANOSECONDS 3000000

static uint8_t report[ROOM], proved_output[ROOM], plain_output[ROOM], list[LIST + RECORD];
static uint16_t cuts[CUTS], proved_cuts[CUTS], plain_cuts[CUTS];
static size_t length;
static uint64_t rows, blocks;

typedef void call(void);
#define APART static __attribute__((noinline)) void /* a function that keeps its own name and place */
static volatile uint64_t sink;

APART check_proved(void) { sink = kyrr_check(report, length).observations; }
APART check_plain(void) { sink = plain_check(report, length).observations; }
APART length_proved(void) { sink = kyrr_length(report, length, proved_cuts, CUTS).length; }
APART length_plain(void) { sink = plain_length(report, length, plain_cuts, CUTS).length; }
APART write_proved(void) { sink = kyrr_write(report, length, cuts, blocks, proved_output, ROOM).length; }
APART write_plain(void) { sink = plain_write(report, length, cuts, blocks, plain_output, ROOM).length; }
APART time_proved(void) { sink = (uint64_t)kyrr_value(report, length, 1, OBS_TIME).whole; }
APART time_plain(void) { sink = (uint64_t)plain_obs_time(report, length, 1).day; }
APART covariance_proved(void) { sink = kyrr_value(report, length, 1, POS_COV11).low; }
APART covariance_plain(void) { sink = plain_covariance(report, length, 1, POS_COV11).low; }
APART night_first_proved(void) { sink = kyrr_night_write(report, length, 1, proved_output, LIST).refused; }
APART night_first_plain(void) { sink = plain_night_write(report, length, 1, plain_output, LIST).refused; }
APART night_last_proved(void) { sink = kyrr_night_write(report, length, rows, proved_output, LIST).refused; }
APART night_last_plain(void) { sink = plain_night_write(report, length, rows, plain_output, LIST).refused; }
APART night_all_proved(void)
{
    for (uint64_t row = 1; row <= rows; row++)
        sink = kyrr_night_write(report, length, row, proved_output, LIST).refused;
}
APART night_all_plain(void)
{
    for (uint64_t row = 1; row <= rows; row++)
        sink = plain_night_write(report, length, row, plain_output, LIST).refused;
}
APART list_check_proved(void) { sink = kyrr_night_check(list, LIST).records; }
APART list_check_plain(void) { sink = plain_night_check(list, LIST).records; }
APART list_read_proved(void) { sink = kyrr_night_read(list, LIST, RECORDS).number; }
APART list_read_plain(void) { sink = plain_night_read(list, LIST, RECORDS).number; }
APART finished(void) { sink = 0; }

enum { CALLS = 20 };
static struct { const char *name; call *call; } calls[CALLS] = {
    { "check_proved", check_proved }, { "check_plain", check_plain },
    { "length_proved", length_proved }, { "length_plain", length_plain },
    { "write_proved", write_proved }, { "write_plain", write_plain },
    { "time_proved", time_proved }, { "time_plain", time_plain },
    { "covariance_proved", covariance_proved }, { "covariance_plain", covariance_plain },
    { "night_first_proved", night_first_proved }, { "night_first_plain", night_first_plain },
    { "night_last_proved", night_last_proved }, { "night_last_plain", night_last_plain },
    { "night_all_proved", night_all_proved }, { "night_all_plain", night_all_plain },
    { "list_check_proved", list_check_proved }, { "list_check_plain", list_check_plain },
    { "list_read_proved", list_read_proved }, { "list_read_plain", list_read_plain }
};

/* Compares the answers of check on the first bytes of the report. */
static int same_check(size_t bytes)
{
    kyrr_checked proved = kyrr_check(report, bytes);
    plain_checked plain = plain_check(report, bytes);
    return memcmp(&proved, &plain, sizeof proved) == 0;
}

/* Compares the answers of length on the first bytes of the report and every number of the lists. */
static int same_length(size_t bytes, size_t room)
{
    kyrr_measured proved;
    plain_measured plain;
    memset(proved_cuts, 0xA5, sizeof proved_cuts);
    memset(plain_cuts, 0xA5, sizeof plain_cuts);
    proved = kyrr_length(report, bytes, proved_cuts, room);
    plain = plain_length(report, bytes, plain_cuts, room);
    return memcmp(&proved, &plain, sizeof proved) == 0 && memcmp(proved_cuts, plain_cuts, sizeof proved_cuts) == 0;
}

/* Compares the answers of write on the first bytes of the report, by the first numbers of the cuts, and every byte of the outputs. */
static int same_write(size_t bytes, size_t numbers, size_t room)
{
    kyrr_written proved;
    plain_written plain;
    memset(proved_output, 0xA5, ROOM);
    memset(plain_output, 0xA5, ROOM);
    proved = kyrr_write(report, bytes, cuts, numbers, proved_output, room);
    plain = plain_write(report, bytes, cuts, numbers, plain_output, room);
    return memcmp(&proved, &plain, sizeof proved) == 0 && memcmp(proved_output, plain_output, ROOM) == 0;
}

/* Asks the cuts of the first bytes of the report, and puts a 0 after them. */
static plain_measured ask_cuts(size_t bytes)
{
    plain_measured asked = plain_length(report, bytes, cuts, CUTS);
    cuts[asked.blocks] = 0;
    return asked;
}

/* Compares the answers of length and write on the first bytes of the report: lists with room and without, its cuts and a 0 too many. */
static int same_pair(size_t bytes)
{
    size_t numbers = ask_cuts(bytes).blocks;
    return same_length(bytes, CUTS) && same_length(bytes, 0) && same_write(bytes, numbers, ROOM)
        && same_write(bytes, numbers + 1, ROOM);
}

/* Compares the values of obsTime on the first bytes of the report. */
static int same_time(size_t bytes, uint64_t observation)
{
    kyrr_valued proved = kyrr_value(report, bytes, observation, OBS_TIME);
    plain_timed plain = plain_obs_time(report, bytes, observation);
    return proved.refused == plain.refused && proved.line == plain.line && proved.place == plain.place
        && proved.kind == (plain.refused ? 0 : KYRR_TIME) && proved.whole == plain.day && proved.part == plain.microseconds
        && proved.negative == 0 && proved.high == 0 && proved.low == 0 && proved.power == 0;
}

/* Compares the values of the six covariances on the first bytes of the report. */
static int same_covariances(size_t bytes, uint64_t observation)
{
    int same = 1;
    for (uint64_t element = POS_COV11; element <= POS_COV33; element++) {
        kyrr_valued proved = kyrr_value(report, bytes, observation, element);
        plain_scaled plain = plain_covariance(report, bytes, observation, element);
        uint64_t kind = plain.refused ? 0 : plain.absent ? KYRR_ABSENT : KYRR_SCALED;
        same = same && proved.refused == plain.refused && proved.line == plain.line && proved.place == plain.place
            && proved.kind == kind && proved.whole == 0 && proved.part == 0 && proved.negative == plain.negative
            && proved.high == plain.high && proved.low == plain.low && proved.power == plain.power;
    }
    return same;
}

/* Compares the answers of a record's writing on the first bytes of the report and every byte of the outputs. */
static int same_night_write(size_t bytes, uint64_t observation, size_t room)
{
    kyrr_done proved;
    plain_done plain;
    memset(proved_output, 0xA5, ROOM);
    memset(plain_output, 0xA5, ROOM);
    proved = kyrr_night_write(report, bytes, observation, proved_output, room);
    plain = plain_night_write(report, bytes, observation, plain_output, room);
    return memcmp(&proved, &plain, sizeof proved) == 0 && memcmp(proved_output, plain_output, ROOM) == 0;
}

/* Compares all answers on the first bytes of the report. */
static int same_report(size_t bytes)
{
    return same_check(bytes) && same_pair(bytes) && same_time(bytes, 1) && same_time(bytes, rows)
        && same_covariances(bytes, 1) && same_covariances(bytes, rows) && same_night_write(bytes, 1, LIST)
        && same_night_write(bytes, rows, LIST);
}

/* Compares the answers of a check and a reading of the first bytes of the list. */
static int same_list(size_t bytes, uint64_t record)
{
    kyrr_night_checked proved = kyrr_night_check(list, bytes);
    plain_night_checked plain = plain_night_check(list, bytes);
    kyrr_night_record proved_record = kyrr_night_read(list, bytes, record);
    plain_night_record plain_record = plain_night_read(list, bytes, record);
    return memcmp(&proved, &plain, sizeof proved) == 0 && memcmp(&proved_record, &plain_record, sizeof proved_record) == 0;
}

/* Compares the answers of write by the first numbers of the cuts, with an output that is long enough, exactly so, one byte too short, and
 * empty. */
static int same_rooms(size_t numbers, size_t needed)
{
    return same_write(length, numbers, ROOM) && same_write(length, numbers, needed) && same_write(length, numbers, needed - 1)
        && same_write(length, numbers, 0);
}

/* The report whole: lists with room for exactly its cuts and for one too few; its cuts, the last left out, a 0 too many, and each number
 * one off. */
static int compare_pair(void)
{
    plain_measured asked = ask_cuts(length);
    int same = same_length(length, blocks) && same_length(length, blocks - 1) && same_rooms(blocks, asked.length)
        && same_rooms(blocks - 1, asked.length) && same_rooms(blocks + 1, asked.length);
    for (size_t place = 0; same && place < blocks; place++) {
        cuts[place]++;
        same = same_write(length, blocks, ROOM) && same_write(length, blocks, 0);
        cuts[place] -= 2;
        same = same && same_write(length, blocks, ROOM) && same_write(length, blocks, 0);
        cuts[place]++;
    }
    return same;
}

/* The report whole, cut off at 64 places, and with one byte changed at 64 places; lists that are too short. */
static int compare_reports(void)
{
    static const uint8_t bytes[8] = { '|', '\n', ' ', '0', '#', 'A', '-', 0x7F };
    int same = same_report(length) && (blocks == 0 || compare_pair()) && same_night_write(length, rows + 1, LIST)
        && same_night_write(length, rows, RECORD * rows) && same_night_write(length, rows, RECORD * rows - 1);
    for (size_t turn = 0; same && turn < 64; turn++) {
        size_t place = turn * length / 64;
        uint8_t kept = report[place];
        same = same_report(place);
        report[place] = bytes[turn % 8];
        same = same && same_report(length);
        report[place] = kept;
    }
    return same;
}

/* The list whole, with a record more, cut off, and with each byte of a record changed, in another record each time. */
static int compare_lists(void)
{
    int same = same_list(LIST, RECORDS) && same_list(LIST, 0) && same_list(LIST + RECORD, 1);
    for (size_t turn = 0; same && turn < RECORD; turn++) {
        size_t place = (RECORDS - 1 - turn) * RECORD + turn;
        same = same_list(place, RECORDS - 1 - turn);
        list[place] ^= 0x81;
        same = same && same_list(LIST, 1);
        list[place] ^= 0x81;
    }
    return same;
}

/* Both answers on the report and on the list; 1 where they differ, which is printed. */
static int compare(void)
{
    int same = compare_reports() && compare_lists();
    if (!same)
        printf("the answers differ\n");
    return !same;
}

/* Makes a list of 256 records and one more: the specimen's, each with its own number. */
static void make_list(void)
{
    static const char specimen[] = "# version=2022\ntrkSub|mode|stn|obsTime|ra|dec|astCat\n"
        "a1|CCD|W84|2024-03-01T04:05:06.5Z|10.5|-0.25|Gaia2\n";
    plain_night_write((const uint8_t *)specimen, sizeof specimen - 1, 1, list, LIST);
    for (size_t record = 1; record <= RECORDS; record++) {
        memcpy(list + RECORD * record, list, RECORD);
        list[RECORD * record] = (uint8_t)record;
        list[RECORD * record + 1] = (uint8_t)(record >> 8);
    }
}

static int usage(void)
{
    printf("usage: drive REPORT compare|time CALL|CALL\n");
    return 2;
}

static int64_t now(void)
{
    moment read;
    clock_gettime(MONOTONIC, &read);
    return read.seconds * 1000000000 + read.nanoseconds;
}

static double per_call(call *call, int64_t times)
{
    int64_t start = now();
    for (int64_t turn = 0; turn < times; turn++)
        call();
    return (double)(now() - start) / (double)times;
}

/* The least of the rounds: what other programs do to the machine only ever adds. */
static double least(const double *rounds)
{
    double found = rounds[0];
    for (int round = 1; round < ROUNDS; round++)
        if (rounds[round] < found)
            found = rounds[round];
    return found;
}

/* The place of the call of that name in the table; past the last where there is none. */
static int place_of(const char *name)
{
    int which = 0;
    while (which < CALLS && strcmp(name, calls[which].name) != 0)
        which++;
    return which;
}

/* The call and the one after it take turns, round by round, so that both meet the same load of the machine. */
static int time_calls(int first)
{
    static double rounds[2][ROUNDS];
    int64_t times[2];
    if (first + 1 >= CALLS)
        return usage();
    for (int which = 0; which < 2; which++)
        times[which] = 1 + (int64_t)(ROUND_NANOSECONDS / (1 + per_call(calls[first + which].call, 3)));
    for (int round = 0; round < ROUNDS; round++)
        for (int which = 0; which < 2; which++)
            rounds[which][round] = per_call(calls[first + which].call, times[which]);
    for (int which = 0; which < 2; which++)
        printf("%.0f\n", least(rounds[which]));
    return 0;
}

int main(int words, char **word)
{
    int file = words == 3 || words == 4 ? open(word[1], 0) : -1;
    if (file < 0)
        return usage();
    length = (size_t)read(file, report, ROOM);
    rows = plain_check(report, length).observations;
    blocks = ask_cuts(length).blocks;
    make_list();
    if (words == 4)
        return strcmp(word[2], "time") == 0 ? time_calls(place_of(word[3])) : usage();
    if (strcmp(word[2], "compare") == 0)
        return compare();
    if (place_of(word[2]) == CALLS)
        return usage();
    calls[place_of(word[2])].call();
    finished();
    return 0;
}
