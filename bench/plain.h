/* A plain C implementation of checking, packing, the values of obsTime and of covariances, and the night list, written for speed
 * and not proved. */
#ifndef PLAIN_H
#define PLAIN_H

#include <stddef.h>
#include <stdint.h>

/* refused is 0 or the refusal number; the other members are 0 where they do not apply. */
typedef struct { uint64_t refused, line, place, observations; } plain_checked;
typedef struct { uint64_t refused, line, place, length, blocks; } plain_measured;
typedef struct { uint64_t refused, line, place, length; } plain_written;
typedef struct { uint64_t refused, line, place; int64_t day; uint64_t microseconds; } plain_timed;
typedef struct { uint64_t refused, line, place, absent, negative, high, low; int64_t power; } plain_scaled;
typedef struct { uint64_t refused, line, place; } plain_done;
typedef struct { uint64_t refused, line, place, records; } plain_night_checked;
typedef struct {
    uint64_t refused, line, place, number, station;
    int64_t day;
    uint64_t microseconds;
    int64_t ra, dec;
} plain_night_record;

plain_checked plain_check(const uint8_t *report, size_t length);

/* The length of the packed report and the number of its blocks; the cuts, which are the blocks' numbers of rows, are
 * written over the start of the list where it has room for all of them. The list must not overlap the report. */
plain_measured plain_length(const uint8_t *report, size_t length, uint16_t *cuts, size_t cuts_length);

/* Writes the packed report. 24 where the cuts are not those that plain_length gives for the report, then 15. The output
 * must overlap neither the report nor the cuts. */
plain_written plain_write(const uint8_t *report, size_t length, const uint16_t *cuts, size_t cuts_length,
                          uint8_t *output, size_t output_length);

/* The day number and the microseconds of the day of an observation's obsTime. */
plain_timed plain_obs_time(const uint8_t *report, size_t length, uint64_t observation);

/* The value of a covariance of an observation, element 38 to 43: high times 10,000,000,000 and low, times ten
 * to the power, below zero where negative is 1. absent is 1 where the observation lacks it. */
plain_scaled plain_covariance(const uint8_t *report, size_t length, uint64_t observation, uint64_t element);

/* The list must not overlap the report. 23 for a radar observation. */
plain_done plain_night_write(const uint8_t *report, size_t length, uint64_t observation, uint8_t *list,
                             size_t list_length);
plain_night_checked plain_night_check(const uint8_t *list, size_t length);
plain_night_record plain_night_read(const uint8_t *list, size_t length, uint64_t record);

#endif
