/* kyrrbolda.h: the proved reporting box, as C and C++ see it.
 *
 * The library checks a report of ADES observations, optical and radar (pipe-separated text, edition 2022), shows and values each
 * element, packs a report into the shortest one that holds the same observations, by two calls (the length first), writes and
 * reads night lists, and names the elements. docs/PROMISES.md says what is proved of each function.
 *
 * Link crates/kyrrbolda/out/libkyrrbolda.a, which `rt lib` in crates/kyrrbolda writes for x86-64.
 *
 * For every call:
 *  - Any bytes of any length may be handed in. A pointer is never null: an empty report, list or output is a valid pointer with
 *    length 0.
 *  - A report or a name is only read, and so are a list that is checked or read and the cuts that are handed to kyrr_write. What is
 *    written to, an output or the list of kyrr_length or kyrr_night_write, must overlap neither the report nor the cuts.
 *  - No memory is kept, allocated or freed; calls from several threads at once do not disturb one another.
 *  - Stack, the return address included: 2,048 bytes are enough for kyrr_check, kyrr_show, kyrr_value and kyrr_night_write, 76,800
 *    for kyrr_length and for kyrr_write, of one row as of 256, and 512 for kyrr_night_check, kyrr_night_read, kyrr_name and
 *    kyrr_element. Measured and not proved, with the library as `rt lib` builds it with LLVM 22.1.8; docs/SPEED.md has the
 *    exact figures. A program that binds memcpy and memset only at their first call needs 4,096 more for that.
 *  - `refused` is 0, or the number of the refusal (kyrr_refusal below); `line` and `place` say where it is. Where a call is refused
 *    the other fields are 0 and no lent byte has changed. Where it is not, `line` and `place` are 0. kyrr_name and kyrr_element
 *    refuse nothing: they answer 0 where there is no such element.
 *  - Lines, observations and records count from 1. `place` is the column's position from 1 for refusals 6 to 10, the element number
 *    for 11, 12, 13 and 22, the record's number for 20, and else 0. `line` is 0 for a fault of the whole text, of the request or of
 *    a list (1, 15, 16, 17, 19, 20, 23, 24).
 */
#ifndef KYRRBOLDA_H
#define KYRRBOLDA_H

#include <stddef.h>
#include <stdint.h>

#ifdef __cplusplus
extern "C" {
#endif

/* The longest report that is accepted, in bytes. No packed report is longer than the report it was made from, so an output of this
 * length is always long enough. */
#define KYRR_TEXT_LIMIT 65536

/* The most observations of a report. No packed report has more blocks, so a list of this many numbers always has room for its
 * cuts. */
#define KYRR_ROW_LIMIT 256

/* The elements, numbered from 1 in this order: permID, provID, artSat, trkSub, obsID, obsSubID, mode, stn, sys, ctr, pos1, pos2,
 * pos3, prog, obsTime, rmsTime, ra, dec, rmsRA, rmsDec, rmsCorr, astCat, mag, rmsMag, band, photCat, photAp, notes, remarks,
 * trx, rcv, delay, rmsDelay, doppler, rmsDoppler, frq, com, posCov11, posCov12, posCov13, posCov22, posCov23, posCov33. kyrr_name
 * gives these names, kyrr_element these numbers. An observation is radar where any of trx to com is present, and else optical. delay
 * is in seconds, rmsDelay in microseconds, doppler and rmsDoppler in Hz, frq in MHz; com is 0 or 1, and has no value. posCov11 to
 * posCov33 are the covariances of the station's position: they stand only beside all of sys, ctr, pos1, pos2 and pos3, and in the
 * columns of a packed report they follow pos3. */
#define KYRR_ELEMENTS 43

/* The bytes of the longest name of an element. */
#define KYRR_NAME_LIMIT 10

/* The bytes of a record of a night list. A list is records one after another, that of observation 1 first; it has no header and at
 * most KYRR_ROW_LIMIT records. In a record byte 0 is the observation's number less one; 1 to 3 are zero; 4 to 7 stn, a blank after
 * a three-letter one; 8 to 11 the day, 0 on 1858-11-17; 12 to 19 the microseconds of the day; 20 to 27 ra and 28 to 35 dec, in
 * units of 0.000000001 degree; 36 to 39 zero. Numbers stand low byte first, in two's complement. A radar observation has no
 * record. */
#define KYRR_RECORD_SIZE 40

/* Why a call is refused: always the first fault, in the order of the rules. */
enum kyrr_refusal {
    KYRR_TEXT_TOO_LONG = 1,        /* the text is over 65,536 bytes */
    KYRR_NO_LINE_END = 2,          /* the line has no LF */
    KYRR_WRONG_BYTE = 3,           /* a byte outside 0x20 to 0x7E */
    KYRR_VERSION_EXPECTED = 4,     /* a version line is expected, or a line starts with # and is none */
    KYRR_BLOCK_UNFINISHED = 5,     /* a block without a column line or without a data line */
    KYRR_UNKNOWN_COLUMN = 6,       /* unknown column name */
    KYRR_COLUMN_TWICE = 7,         /* a column named twice */
    KYRR_TOO_WIDE = 8,             /* a value is too wide */
    KYRR_WRONG_FORM = 9,           /* a value has the wrong form */
    KYRR_OUT_OF_RANGE = 10,        /* a value is out of its range or vocabulary */
    KYRR_ELEMENT_MISSING = 11,     /* a needed element is missing; place 1 where permID, provID, artSat and trkSub all are, of a radar
                                    * observation permID and provID; in a radar one 32 stands for delay and doppler, both missing */
    KYRR_GROUP_INCOMPLETE = 12,    /* a group is incomplete; place is its lowest missing element, of a covariance one of 9 to 13 */
    KYRR_CENTRE_NOT_EARTH = 13,    /* sys is WGS84 and ctr is not 399 */
    KYRR_TOO_MANY_ROWS = 14,       /* the 257th data line */
    KYRR_OUTPUT_TOO_SHORT = 15,    /* the output is shorter than the packed report */
    KYRR_NO_OBSERVATION = 16,      /* no observation of the report, or no record of the list, has that number */
    KYRR_NO_ELEMENT = 17,          /* no element has that number */
    KYRR_FIELD_COUNT_DIFFERS = 18, /* a data line has not as many fields as there are columns */
    KYRR_LIST_TOO_SHORT = 19,      /* the list has no room for the record at its place */
    KYRR_BAD_RECORD = 20,          /* no accepted observation at that place could have written the record */
    KYRR_KINDS_MIXED = 21,         /* an observation of another kind, optical or radar, than those before it in its block */
    KYRR_ELEMENT_FOREIGN = 22,     /* an element that is foreign to its radar observation; place is the lowest such element */
    KYRR_NOT_OPTICAL = 23,         /* a radar observation, which has no record in a night list */
    KYRR_CUTS_DIFFER = 24          /* the cuts are not those that kyrr_length gives for the report */
};

/* What kind of value an element has. */
enum kyrr_kind {
    KYRR_NO_VALUE = 0, /* the element has no numeric value, present or not */
    KYRR_ABSENT = 1,   /* the element has one and is absent from the observation */
    KYRR_WHOLE = 2,    /* ctr: the number is `whole` */
    KYRR_DECIMAL = 3,  /* the number is `whole` with the last `part` digits after the point: 10.50 is 1050 with 2 places,
                        * 12. is 12 with 0, .5 is 5 with 1 */
    KYRR_TIME = 4,     /* obsTime: `whole` is the day, 0 on 1858-11-17; `part` the microseconds of the day */
    KYRR_ANGLE = 5,    /* ra and dec: `whole` is in units of 0.000000001 degree */
    KYRR_SCALED = 6    /* posCov11 to posCov33: (`high` * KYRR_PART_BASE + `low`) times ten to `power`, below zero where `negative` is 1:
                        * 1.50e3 is 150 with power 1, -0e5 is 0 with power 5 and not negative. high and low are below KYRR_PART_BASE,
                        * power is from -1,013 to 999. `whole` and `part` are 0 */
};

/* What the two parts of a covariance's whole number are by. */
#define KYRR_PART_BASE 10000000000u

typedef struct { uint64_t refused, line, place, observations; } kyrr_checked;

typedef struct { uint64_t refused, line, place, absent, start, length; } kyrr_shown;

/* `negative`, `high`, `low` and `power` are 0 for every kind but KYRR_SCALED. */
typedef struct {
    uint64_t refused, line, place, kind;
    int64_t whole;
    uint64_t part, negative, high, low;
    int64_t power;
} kyrr_valued;

/* `length` is that of the packed report in bytes, `blocks` how many blocks, and so how many cuts, it has. */
typedef struct { uint64_t refused, line, place, length, blocks; } kyrr_measured;

typedef struct { uint64_t refused, line, place, length; } kyrr_written;

typedef struct { uint64_t refused, line, place; } kyrr_done;

typedef struct { uint64_t refused, line, place, records; } kyrr_night_checked;

/* The fields of a record: `number` is the observation's number, from 1; `station` bytes 4 to 7 as a number, low byte first. */
typedef struct { uint64_t refused, line, place, number, station; int64_t day; uint64_t microseconds; int64_t ra, dec; } kyrr_night_record;

/* Checks a report: how many observations it holds, or the first fault. Refusals 1 to 14, 18, 21 and 22. */
kyrr_checked kyrr_check(const uint8_t *report, size_t report_length);

/* Where the value of an element of an observation lies: the `length` bytes of the report from `start` on are the value as it was
 * written. `absent` is 1, and start and length 0, where the observation lacks the element. Refusals of kyrr_check, then 16, then 17. */
kyrr_shown kyrr_show(const uint8_t *report, size_t report_length, uint64_t observation, uint64_t element);

/* The exact value of an element of an observation, by its kind (kyrr_kind). Refusals of kyrr_check, then 16, then 17. */
kyrr_valued kyrr_value(const uint8_t *report, size_t report_length, uint64_t observation, uint64_t element);

/* Packing, the first call: how long the packed report is, how many blocks it has, and its cuts, the numbers of rows of its blocks in
 * order. The packed report reads as the same observations in the same order, and no report that does is shorter; of several cuttings
 * as short it is the one with most rows in its first block, then in its second, and so on. The cuts are written over the start of the
 * list where that has room for all of them, and the numbers after them stay as they were. Where it has none, no number of it changes
 * and the answer is the same: ask with length 0 for the length alone. Refusals of kyrr_check. The empty report has length 0 and no
 * block. */
kyrr_measured kyrr_length(const uint8_t *report, size_t report_length, uint16_t *cuts, size_t cuts_length);

/* Packing, the second call: writes the packed report over the start of the output, and gives its length; the bytes of the output after
 * it stay as they were. Hand in the cuts that kyrr_length gave for that report, `cuts_length` being its `blocks`, no more and no fewer.
 * Refusals of kyrr_check; then 24, exactly where the numbers handed in are not those cuts, another cutting as short among them; then
 * 15, exactly where the output is shorter than the length that kyrr_length gives. */
kyrr_written kyrr_write(const uint8_t *report, size_t report_length, const uint16_t *cuts, size_t cuts_length, uint8_t *output,
                        size_t output_length);

/* Writes the record of an observation over the 40 bytes at its place in the list; every other byte of the list stays as it was.
 * Refusals of kyrr_check; then 16; then 23, exactly for a radar observation; then 19, exactly where the list is shorter than 40
 * bytes for each observation up to that one. */
kyrr_done kyrr_night_write(const uint8_t *report, size_t report_length, uint64_t observation, uint8_t *list, size_t list_length);

/* Checks a list: how many records it has, or 20 at the first bad one. A record is bad exactly where no accepted observation at its
 * place could have written it; so are a short last record and a 257th. The empty list has no records and no bad one. */
kyrr_night_checked kyrr_night_check(const uint8_t *list, size_t list_length);

/* The fields of a record of a list. Refusals of kyrr_night_check, whichever record is asked for; then 16, where the list has no
 * record of that number. */
kyrr_night_record kyrr_night_read(const uint8_t *list, size_t list_length, uint64_t record);

/* The length of the name of an element, 0 where no element has that number. Writes the name over the start of the output, with no
 * byte 0 after it, where there is room for all of it; the bytes of the output after it stay as they were. Where the output is
 * shorter than the name no byte of it changes, and the length is given all the same: ask with length 0 for the length alone. */
uint64_t kyrr_name(uint64_t element, uint8_t *output, size_t output_length);

/* The number of the element of a name, from 1; 0 where no element has that name. A name is exactly the bytes of the list above:
 * another case, a blank, or a byte 0 at its end makes it none. */
uint64_t kyrr_element(const uint8_t *name, size_t name_length);

#ifdef __cplusplus
}
#endif

#endif
