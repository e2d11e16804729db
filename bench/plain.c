/* Checking, packing and a few values of ADES reports and the night list in plain C, written for speed and not
 * proved: the measure for the proved code. The report is read once, eight bytes at a time; where each value lies
 * is kept; the cuts are searched over runs of rows with the same elements, in each stretch of one kind.
 * Needs gcc or clang. No memory is allocated; asking the length and writing each use about 60 kB of stack. */

#include "plain.h"

#include <string.h>

enum { TEXT_LIMIT = 65536, ROW_LIMIT = 256, ELEMENTS = 43, VERSION_LENGTH = 14, RECORD_LENGTH = 40 };

/* The elements in the order of packed columns, which is not that of their numbers: number_of has these. */
enum {
    PERM_ID = 1, PROV_ID, ART_SAT, TRK_SUB, OBS_ID, OBS_SUB_ID, MODE, STN, SYS, CTR, POS1, POS2, POS3, POS_COV11,
    POS_COV12, POS_COV13, POS_COV22, POS_COV23, POS_COV33, PROG, OBS_TIME, RMS_TIME, RA, DEC, RMS_RA, RMS_DEC,
    RMS_CORR, AST_CAT, MAG, RMS_MAG, BAND, PHOT_CAT, PHOT_AP, NOTES, REMARKS, TRX, RCV, DELAY, RMS_DELAY, DOPPLER,
    RMS_DOPPLER, FRQ, COM
};

enum { FIRST_COVARIANCE = 38 }; /* the number of posCov11; those of the others follow it */

/* A set of elements: bit e stands for element e. */
#define ONE(element) (UINT64_C(1) << (element))
#define IDENTIFICATION (ONE(PERM_ID) | ONE(PROV_ID) | ONE(ART_SAT) | ONE(TRK_SUB))
#define NEEDED (ONE(MODE) | ONE(STN) | ONE(OBS_TIME) | ONE(RA) | ONE(DEC) | ONE(AST_CAT))
#define LOCATION (ONE(SYS) | ONE(CTR) | ONE(POS1) | ONE(POS2) | ONE(POS3))
#define COVARIANCES (ONE(POS_COV11) | ONE(POS_COV12) | ONE(POS_COV13) | ONE(POS_COV22) | ONE(POS_COV23) \
    | ONE(POS_COV33))
#define PHOTOMETRY (ONE(MAG) | ONE(RMS_MAG) | ONE(BAND) | ONE(PHOT_CAT) | ONE(PHOT_AP))

#define DELAY_PAIR (ONE(DELAY) | ONE(RMS_DELAY))
#define DOPPLER_PAIR (ONE(DOPPLER) | ONE(RMS_DOPPLER))
/* An observation with one of these is a radar one, any other an optical one. */
#define RADAR (ONE(TRX) | ONE(RCV) | DELAY_PAIR | DOPPLER_PAIR | ONE(FRQ) | ONE(COM))
#define RADAR_IDENTIFICATION (ONE(PERM_ID) | ONE(PROV_ID))
#define RADAR_NEEDED (ONE(OBS_TIME) | ONE(TRX) | ONE(RCV) | ONE(FRQ) | ONE(COM))
#define FOREIGN_TO_RADAR (ONE(ART_SAT) | ONE(TRK_SUB) | ONE(MODE) | ONE(STN) | LOCATION | COVARIANCES \
    | ONE(RMS_TIME) | ONE(RA) | ONE(DEC) | ONE(RMS_RA) | ONE(RMS_DEC) | ONE(RMS_CORR) | ONE(AST_CAT) | PHOTOMETRY)

static const char version_line[] = "# version=2022\n";

/* Each with zeros after it, so that sixteen bytes can be copied. */
static const char names[ELEMENTS + 1][16] = {
    "", "permID", "provID", "artSat", "trkSub", "obsID", "obsSubID", "mode", "stn", "sys", "ctr", "pos1", "pos2",
    "pos3", "posCov11", "posCov12", "posCov13", "posCov22", "posCov23", "posCov33", "prog", "obsTime", "rmsTime", "ra",
    "dec", "rmsRA", "rmsDec", "rmsCorr", "astCat", "mag", "rmsMag", "band", "photCat", "photAp", "notes", "remarks",
    "trx", "rcv", "delay", "rmsDelay", "doppler", "rmsDoppler", "frq", "com"
};

static const uint8_t name_lengths[ELEMENTS + 1] = {
    0, 6, 6, 6, 6, 5, 8, 4, 3, 3, 3, 4, 4, 4, 8, 8, 8, 8, 8, 8, 4, 7, 7, 2, 3, 5, 6, 7, 6, 3, 6, 4, 7, 6, 5, 7, 3, 3, 5,
    8, 7, 10, 3, 3
};

/* The shortest and longest value of an alphanumeric, the longest of a free value, a number's width. */
static const uint16_t shortest[ELEMENTS + 1] = { [TRK_SUB] = 1, [OBS_ID] = 1, [STN] = 3, [PROG] = 1, [AST_CAT] = 1,
    [BAND] = 1, [PHOT_CAT] = 1, [NOTES] = 1, [TRX] = 3, [RCV] = 3 };
static const uint16_t longest[ELEMENTS + 1] = { [TRK_SUB] = 8, [OBS_ID] = 25, [OBS_SUB_ID] = 25, [STN] = 4,
    [CTR] = 9, [POS1] = 13, [POS2] = 13, [POS3] = 13, [POS_COV11] = 20, [POS_COV12] = 20, [POS_COV13] = 20,
    [POS_COV22] = 20, [POS_COV23] = 20, [POS_COV33] = 20, [PROG] = 2, [RMS_TIME] = 8, [RMS_RA] = 7, [RMS_DEC] = 7,
    [RMS_CORR] = 13, [AST_CAT] = 8, [MAG] = 6, [RMS_MAG] = 6, [BAND] = 3, [PHOT_CAT] = 8, [PHOT_AP] = 6, [NOTES] = 6,
    [REMARKS] = 300, [TRX] = 4, [RCV] = 4, [DELAY] = 14, [RMS_DELAY] = 6, [DOPPLER] = 14, [RMS_DOPPLER] = 6,
    [FRQ] = 14 };

/* Each name of at most eight bytes falls into a slot of its own: the top six bits of its word times this
 * multiplier, which was found by trying. Only rmsDoppler is longer. */
#define NAME_MULTIPLIER UINT64_C(0x3f94465a8bebc579)
static const uint8_t name_slots[64] = {
    0, 32, 11, 0, 34, 37, 10, 31, 28, 0, 30, 15, 19, 3, 0, 9, 33, 0, 0, 0, 0, 21, 27, 0, 0, 12, 42, 18, 22, 38, 26, 23,
    40, 0, 24, 29, 7, 25, 0, 2, 35, 0, 16, 0, 0, 14, 1, 13, 0, 20, 39, 4, 36, 43, 0, 0, 0, 0, 5, 0, 6, 17, 8, 0
};

static inline unsigned lowest(uint64_t set) { return (unsigned)__builtin_ctzll(set); }

/* The number of an element: that of a covariance is above all others. */
static inline unsigned number_of(unsigned element)
{
    if (element <= POS3)
        return element;
    return element <= POS_COV33 ? element - POS_COV11 + FIRST_COVARIANCE : element - (POS_COV33 - POS3);
}

/* The lowest number of an element of the set. */
static inline unsigned lowest_number(uint64_t set)
{
    uint64_t others = set & ~COVARIANCES;
    return number_of(lowest(others ? others : set));
}

static inline int is_radar(uint64_t set) { return (set & RADAR) != 0; }

/* ---- eight bytes at a time */

static inline uint64_t load(const uint8_t *bytes)
{
    uint64_t word;
    memcpy(&word, bytes, 8);
#if defined(__BYTE_ORDER__) && __BYTE_ORDER__ == __ORDER_BIG_ENDIAN__
    word = __builtin_bswap64(word);
#endif
    return word;
}

static inline void store(uint8_t *bytes, uint64_t word)
{
#if defined(__BYTE_ORDER__) && __BYTE_ORDER__ == __ORDER_BIG_ENDIAN__
    word = __builtin_bswap64(word);
#endif
    memcpy(bytes, &word, 8);
}

/* The first count bytes, fewer than eight, and zeros after them. */
static inline uint64_t load_few(const uint8_t *bytes, size_t count)
{
    uint64_t word = 0;
    for (size_t i = 0; i < count; i++)
        word |= (uint64_t)bytes[i] << (8 * i);
    return word;
}

#define EACH(byte) (UINT64_C(0x0101010101010101) * (byte))

/* The top bit of each byte that is `|`, LF, or any other byte outside 0x20 to 0x7E. */
static inline uint64_t telling(uint64_t word)
{
    uint64_t low = word & EACH(0x7F);
    uint64_t printable = low + EACH(0x60);           /* top bit: 0x20 or above */
    uint64_t rubout = low + EACH(0x01);              /* top bit: 0x7F */
    uint64_t other = (low ^ EACH('|')) + EACH(0x7F); /* top bit: not `|` */
    return (word | ~printable | rubout | ~other) & EACH(0x80);
}

/* Eight bytes fit a pattern: a digit where the pattern has `0`, else the pattern's own byte. The limits
 * have 0x76 for a digit and 0x7F for another byte. All bytes are below 0x80. */
static inline int fits(const uint8_t *bytes, uint64_t pattern, uint64_t limits)
{
    return (((load(bytes) ^ pattern) + limits) & EACH(0x80)) == 0;
}

/* ---- bytes */

enum { DIGIT = 1, CAPITAL = 2, SMALL = 4, JOINT = 8, ALPHANUMERIC = DIGIT | CAPITAL | SMALL | JOINT };

static inline unsigned class_of(uint8_t byte)
{
    static const uint8_t classes[128] = {
        [' '] = JOINT, ['_'] = JOINT,
        ['0'] = DIGIT, DIGIT, DIGIT, DIGIT, DIGIT, DIGIT, DIGIT, DIGIT, DIGIT, DIGIT,
        ['A'] = CAPITAL, CAPITAL, CAPITAL, CAPITAL, CAPITAL, CAPITAL, CAPITAL, CAPITAL, CAPITAL, CAPITAL, CAPITAL,
        CAPITAL, CAPITAL, CAPITAL, CAPITAL, CAPITAL, CAPITAL, CAPITAL, CAPITAL, CAPITAL, CAPITAL, CAPITAL, CAPITAL,
        CAPITAL, CAPITAL, CAPITAL,
        ['a'] = SMALL, SMALL, SMALL, SMALL, SMALL, SMALL, SMALL, SMALL, SMALL, SMALL, SMALL, SMALL, SMALL, SMALL,
        SMALL, SMALL, SMALL, SMALL, SMALL, SMALL, SMALL, SMALL, SMALL, SMALL, SMALL, SMALL,
    };
    return classes[byte & 0x7F];
}

static inline int is_digit(uint8_t byte) { return (unsigned)byte - '0' < 10; }
static inline int is_capital(uint8_t byte) { return (unsigned)byte - 'A' < 26; }

/* The count of digits at the start of a value. */
static inline size_t digits(const uint8_t *value, size_t length)
{
    size_t count = 0;
    while (count < length && is_digit(value[count]))
        count++;
    return count;
}

static inline unsigned number(const uint8_t *value, size_t count)
{
    unsigned whole = 0;
    for (size_t i = 0; i < count; i++)
        whole = 10 * whole + (value[i] - '0');
    return whole;
}

static inline unsigned pair(const uint8_t *value) { return 10u * (value[0] - '0') + (value[1] - '0'); }

/* ---- the forms of values; each gives 0 or 8, 9, 10 */

static unsigned alphanumeric(const uint8_t *value, size_t length, size_t least, size_t most)
{
    for (size_t i = 0; i < length; i++)
        if (!class_of(value[i]))
            return 9;
    return length < least || length > most ? 8 : 0;
}

/* Nothing, or `-` and one or two capitals. */
static int is_fragment(const uint8_t *value, size_t length)
{
    if (length == 0)
        return 1;
    return value[0] == '-' && (length == 2 || length == 3) && is_capital(value[1]) && is_capital(value[length - 1]);
}

static unsigned permanent(const uint8_t *value, size_t length)
{
    size_t count = digits(value, length);
    if (count == 0 || value[0] == '0')
        return 9;
    if (count == length)
        return count > 8 ? 9 : number(value, count) > 61999999 ? 10 : 0;
    if (count > 6 || (value[count] != 'P' && value[count] != 'D'))
        return 9;
    return is_fragment(value + count + 1, length - count - 1) ? 0 : 9;
}

static unsigned provisional(const uint8_t *value, size_t length)
{
    size_t at, count;
    if (length < 7)
        return 9;
    if (value[1] != '/') {
        if (digits(value, 4) < 4 || value[4] != ' ' || !is_capital(value[5]) || !is_capital(value[6])
            || value[5] == 'I' || value[5] == 'Z' || value[6] == 'I')
            return 9;
        count = digits(value + 7, length - 7);
        if (count != length - 7 || count > 5 || (count && value[7] == '0'))
            return 9;
        return number(value + 7, count) > 61999 ? 10 : 0;
    }
    if (value[0] != 'C' && value[0] != 'P' && value[0] != 'D' && value[0] != 'X' && value[0] != 'A')
        return 9;
    if (digits(value + 2, 4) < 4 || value[6] != ' ' || length < 9 || !is_capital(value[7]))
        return 9;
    at = is_capital(value[8]) ? 9 : 8;
    count = digits(value + at, length - at);
    if (count == 0 || count > 3 || value[at] == '0')
        return 9;
    at += count;
    return at == length || (value[0] != 'A' && is_fragment(value + at, length - at)) ? 0 : 9;
}

static unsigned satellite(const uint8_t *value, size_t length)
{
    if (length < 9 || length > 11 || digits(value, 4) < 4 || value[4] != '-' || digits(value + 5, 3) < 3)
        return 9;
    for (size_t i = 8; i < length; i++)
        if (!is_capital(value[i]))
            return 9;
    return 0;
}

/* A word of three bytes as a number. */
#define WORD3(a, b, c) ((uint32_t)(a) | (uint32_t)(b) << 8 | (uint32_t)(c) << 16)

static unsigned mode(const uint8_t *value, size_t length)
{
    if (length != 3)
        return 10;
    switch (WORD3(value[0], value[1], value[2])) {
    case WORD3('P', 'H', 'O'): case WORD3('E', 'N', 'C'): case WORD3('C', 'C', 'D'): case WORD3('M', 'E', 'R'):
    case WORD3('M', 'I', 'C'): case WORD3('N', 'O', 'R'): case WORD3('V', 'I', 'D'): case WORD3('P', 'M', 'T'):
        return 0;
    }
    return 10;
}

static inline int is_wgs84(const uint8_t *value, size_t length) { return length == 5 && !memcmp(value, "WGS84", 5); }

static unsigned frame(const uint8_t *value, size_t length)
{
    switch (length) {
    case 3: return memcmp(value, "IAU", 3) ? 10 : 0;
    case 4: return memcmp(value, "ITRF", 4) ? 10 : 0;
    case 5: return is_wgs84(value, length) ? 0 : 10;
    case 7: return memcmp(value, "ICRF_AU", 7) && memcmp(value, "ICRF_KM", 7) ? 10 : 0;
    }
    return 10;
}

static unsigned centre(const uint8_t *value, size_t length)
{
    size_t sign = value[0] == '-';
    if (length > longest[CTR])
        return 8;
    if (sign == length || digits(value + sign, length - sign) != length - sign)
        return 9;
    return value[sign] == '0' && length > 1 ? 9 : 0;
}

#define NO_DECIMAL SIZE_MAX

/* One or more digits, optionally with one point before, between or after them. Gives the digits before
 * the point, or NO_DECIMAL for another form, and the digits' bytes all or-ed together. */
static inline size_t decimal(const uint8_t *value, size_t length, unsigned *bits)
{
    size_t before = 0, at;
    *bits = 0;
    while (before < length && is_digit(value[before]))
        *bits |= value[before++];
    if (before == length)
        return length ? before : NO_DECIMAL;
    if (value[before] != '.' || length == 1)
        return NO_DECIMAL;
    for (at = before + 1; at < length; at++) {
        if (!is_digit(value[at]))
            return NO_DECIMAL;
        *bits |= value[at];
    }
    return before;
}

/* A digit other than 0 is among those or-ed together. */
static inline int above_zero(unsigned bits) { return (bits & 0x0F) != 0; }

static inline size_t sign_of(const uint8_t *value) { return value[0] == '-' || value[0] == '+'; }

static unsigned positive(const uint8_t *value, size_t length, size_t width)
{
    unsigned bits;
    if (length > width)
        return 8;
    if (decimal(value, length, &bits) == NO_DECIMAL)
        return 9;
    return above_zero(bits) ? 0 : 10;
}

static unsigned signed_decimal(const uint8_t *value, size_t length, size_t width)
{
    unsigned bits;
    size_t sign = sign_of(value);
    if (length - sign > width)
        return 8;
    return decimal(value + sign, length - sign, &bits) == NO_DECIMAL ? 9 : 0;
}

/* A signed decimal, optionally with `e` or `E`, an optional sign and one to three digits. After a value stands
 * a blank, a bar or an LF, at which each search stops. */
static unsigned scaled(const uint8_t *value, size_t length, size_t width)
{
    const uint8_t *end = value + length, *at = value + sign_of(value), *start = at;
    size_t count;
    if ((size_t)(end - start) > width)
        return 8;
    while (is_digit(*at))
        at++;
    count = (size_t)(at - start);
    if (*at == '.') {
        start = ++at;
        while (is_digit(*at))
            at++;
        count += (size_t)(at - start);
    }
    if (count == 0)
        return 9;
    if (at == end)
        return 0;
    if ((*at | 0x20) != 'e')
        return 9;
    at++;
    at += sign_of(at);
    count = (size_t)(end - at);
    return count - 1 < 3 && digits(at, count) == count ? 0 : 9;
}

static unsigned correlation(const uint8_t *value, size_t length)
{
    unsigned bits, units;
    size_t sign = sign_of(value), before, i;
    if (length - sign > longest[RMS_CORR])
        return 8;
    value += sign;
    length -= sign;
    before = decimal(value, length, &bits);
    if (before == NO_DECIMAL)
        return 9;
    for (i = 0; i + 1 < before; i++)
        if (value[i] != '0')
            return 10;
    units = before == 0 ? 0 : value[before - 1] - '0';
    if (units == 0)
        return 0;
    for (i = before + 1; i < length; i++)
        if (value[i] != '0')
            return 10;
    return units > 1 ? 10 : 0;
}

static unsigned right_ascension(const uint8_t *value, size_t length)
{
    unsigned bits;
    size_t before = decimal(value, length, &bits);
    if (before > 3 || length - before > 10)
        return 9;
    if ((value[0] == '0' && before > 1) || (before == 3 && value[0] > '3'))
        return 9;
    return number(value, before) < 360 ? 0 : 10;
}

static unsigned declination(const uint8_t *value, size_t length)
{
    unsigned bits, degrees;
    size_t sign = sign_of(value), before, i;
    value += sign;
    length -= sign;
    before = decimal(value, length, &bits);
    if (before > 2 || length - before > 10 || (value[0] == '0' && before > 1))
        return 9;
    degrees = number(value, before);
    if (degrees < 90)
        return 0;
    for (i = before + 1; i < length; i++)
        if (value[i] != '0')
            return 10;
    return degrees > 90 ? 10 : 0;
}

static inline int is_leap(unsigned year) { return year % 4 == 0 && (year % 100 != 0 || year % 400 == 0); }

/* yyyy-mm-ddThh:mm:ss, optionally a point and 1 to 6 digits, then Z. */
static unsigned time_of_day(const uint8_t *value, size_t length)
{
    static const uint8_t month_days[13] = { 0, 31, 28, 31, 30, 31, 30, 31, 31, 30, 31, 30, 31 };
    unsigned year, month, day, leap;
    if (length < 20 || length > 27 || length == 21 || value[length - 1] != 'Z')
        return 9;
    /* "0000-00-", "00T00:00" and "00:00:00", the last eight overlapping the second. */
    if (!fits(value, UINT64_C(0x2D30302D30303030), UINT64_C(0x7F76767F76767676))
        || !fits(value + 8, UINT64_C(0x30303A3030543030), UINT64_C(0x76767F76767F7676))
        || !fits(value + 11, UINT64_C(0x30303A30303A3030), UINT64_C(0x76767F76767F7676)))
        return 9;
    if (length > 20 && (value[19] != '.' || digits(value + 20, length - 21) != length - 21))
        return 9;
    year = 100 * pair(value) + pair(value + 2);
    month = pair(value + 5);
    day = pair(value + 8);
    if (year == 0 || month == 0 || month > 12 || day == 0)
        return 10;
    leap = month == 2 && is_leap(year);
    if (day > month_days[month] + leap || pair(value + 11) > 23 || pair(value + 14) > 59 || pair(value + 17) > 59)
        return 10;
    return 0;
}

/* 0 or 1. */
static unsigned flag(const uint8_t *value, size_t length)
{
    return length == 1 && (value[0] == '0' || value[0] == '1') ? 0 : 10;
}

/* The fault of one value, which is not empty. */
static inline unsigned fault_of(unsigned element, const uint8_t *value, size_t length)
{
    switch (element) {
    case PERM_ID: return permanent(value, length);
    case PROV_ID: return provisional(value, length);
    case ART_SAT: return satellite(value, length);
    case MODE: return mode(value, length);
    case SYS: return frame(value, length);
    case CTR: return centre(value, length);
    case OBS_TIME: return time_of_day(value, length);
    case RA: return right_ascension(value, length);
    case DEC: return declination(value, length);
    case RMS_CORR: return correlation(value, length);
    case COM: return flag(value, length);
    case POS1: case POS2: case POS3: case MAG: case DOPPLER: return signed_decimal(value, length, longest[element]);
    case POS_COV11: case POS_COV12: case POS_COV13: case POS_COV22: case POS_COV23: case POS_COV33:
        return scaled(value, length, longest[element]);
    case RMS_TIME: case RMS_RA: case RMS_DEC: case RMS_MAG: case PHOT_AP: case DELAY: case RMS_DELAY: case RMS_DOPPLER:
    case FRQ:
        return positive(value, length, longest[element]);
    case OBS_SUB_ID: case REMARKS: return length > longest[element] ? 8 : 0;
    default: return alphanumeric(value, length, shortest[element], longest[element]);
    }
}

/* ---- reading */

typedef struct {
    uint64_t set;     /* the elements present */
    uint64_t as_is;   /* the columns under which this line can be copied as it is, or 0 */
    uint32_t start;   /* where the line starts */
    uint32_t length;  /* of the line with its LF */
} row;

typedef struct {
    uint32_t contents;                            /* bytes of all values, and one for each */
    row rows[ROW_LIMIT];
    uint32_t values[ROW_LIMIT][ELEMENTS + 1];     /* start * 512 + length, where present */
} kept;

/* The observation of that number alone. */
typedef struct { uint64_t number, set; uint32_t values[ELEMENTS + 1]; } single;

typedef struct { uint32_t refused, line, place, observations; } outcome;

/* One line parted at its bars: ends[f] is where field f ends. Of more fields than are noted only the first
 * ones are, which is enough: the 44th column name must be unknown or a repetition. */
enum { NOTED = ELEMENTS + 1 };
typedef struct { size_t end; uint32_t fields; uint32_t ends[NOTED + 1]; } line;

/* Finds the line's end and its fields. 0, or 2 for no LF, or 3 for a byte outside 0x20 to 0x7E. */
static inline unsigned part(const uint8_t *report, size_t length, size_t start, line *found)
{
    uint32_t fields = 0;
    for (size_t at = start; at < length; at += 8) {
        uint64_t word = length - at >= 8 ? load(report + at) : load_few(report + at, length - at);
        for (uint64_t marks = telling(word); marks; marks &= marks - 1) {
            size_t place = at + ((unsigned)__builtin_ctzll(marks) >> 3);
            if (place == length)
                return 2;
            found->ends[fields < NOTED ? fields : NOTED] = (uint32_t)place;
            fields++;
            if (report[place] == '|')
                continue;
            found->end = place;
            found->fields = fields;
            if (report[place] == '\n')
                return 0;
            return memchr(report + place, '\n', length - place) ? 3 : 2;
        }
    }
    return 2;
}

/* The element of that name, or 0. */
static inline unsigned element_of(const uint8_t *name, size_t length, size_t readable)
{
    uint64_t word;
    unsigned element;
    if (length > 8)
        return length == name_lengths[RMS_DOPPLER] && !memcmp(name, names[RMS_DOPPLER], length) ? RMS_DOPPLER : 0;
    if (length == 8)
        word = load(name);
    else
        word = readable >= 8 ? load(name) & (ONE(8 * length) - 1) : load_few(name, length);
    element = name_slots[word * NAME_MULTIPLIER >> 58];
    return load((const uint8_t *)names[element]) == word ? element : 0;
}

/* The kinds of rows that a block may hold: optical ones alone where no column is radar's; else any until
 * the first row settles it. */
enum { NO_RADAR_COLUMNS, ANY_ROWS, OPTICAL_ROWS, RADAR_ROWS };

typedef struct { uint64_t set; uint32_t count; int in_order, kind; uint8_t elements[ELEMENTS]; } column_list;

/* Reads a column line; 0, or 6 or 7 at the place. */
static unsigned read_columns(const uint8_t *report, size_t length, size_t start, const line *found,
                             column_list *columns, uint32_t *place)
{
    unsigned before = 0;
    columns->set = 0;
    columns->in_order = 1;
    columns->count = found->fields;
    for (uint32_t field = 0; field < found->fields; field++) {
        size_t end = found->ends[field], at = start;
        unsigned element;
        *place = field + 1;
        start = end + 1;
        while (at < end && report[at] == ' ')
            at++;
        while (at < end && report[end - 1] == ' ')
            end--;
        element = element_of(report + at, end - at, length - at);
        if (element == 0)
            return 6;
        if (columns->set & ONE(element))
            return 7;
        columns->set |= ONE(element);
        columns->elements[field] = (uint8_t)element;
        columns->in_order &= element > before;
        before = element;
    }
    columns->kind = is_radar(columns->set) ? ANY_ROWS : NO_RADAR_COLUMNS;
    return 0;
}

/* What one radar observation must hold and what is foreign to it; 0, or 11 or 22 at the place. */
static unsigned radar_lack(uint64_t set, uint32_t *place)
{
    int doppler = (set & ONE(DOPPLER)) != 0;
    uint64_t foreign = set & (FOREIGN_TO_RADAR | (doppler ? DELAY_PAIR : DOPPLER_PAIR));
    uint64_t missing = (RADAR_NEEDED | (doppler ? DOPPLER_PAIR : DELAY_PAIR)) & ~set;
    if (foreign) {
        *place = lowest_number(foreign);
        return 22;
    }
    if (!(set & RADAR_IDENTIFICATION)) {
        *place = 1;
        return 11;
    }
    if (!missing)
        return 0;
    *place = lowest_number(missing);
    return 11;
}

/* Marks beside the elements of a row: its sys is WGS84, its ctr is not 399. */
enum { WGS84 = ELEMENTS + 1, OTHER_CENTRE };
#define EARTH (ONE(WGS84) | ONE(OTHER_CENTRE))

/* What one optical observation must hold, its centre among it; 0, or 11 to 13 at the place. */
static inline unsigned optical_lack(uint64_t set, uint32_t *place)
{
    uint64_t missing;
    if (!(set & IDENTIFICATION)) {
        *place = 1;
        return 11;
    }
    if ((missing = NEEDED & ~set)) {
        *place = lowest_number(missing);
        return 11;
    }
    missing = set & (LOCATION | COVARIANCES) ? LOCATION & ~set : 0;
    if (!missing && set & PHOTOMETRY)
        missing = (ONE(MAG) | ONE(BAND)) & ~set;
    if (!missing && set & ONE(RMS_CORR))
        missing = (ONE(RMS_RA) | ONE(RMS_DEC)) & ~set;
    if (missing) {
        *place = lowest_number(missing);
        return 12;
    }
    if ((set & EARTH) != EARTH)
        return 0;
    *place = number_of(CTR);
    return 13;
}

/* What one observation of a block with radar columns must hold by its kind, which the block's first row
 * settles for the others; 0, or 11 to 13, 21 or 22 at the place. */
static __attribute__((noinline)) unsigned lack(uint64_t set, column_list *columns, uint32_t *place)
{
    int kind = is_radar(set) ? RADAR_ROWS : OPTICAL_ROWS;
    unsigned refused = kind == RADAR_ROWS ? radar_lack(set, place) : optical_lack(set, place);
    if (refused)
        return refused;
    if (columns->kind == ANY_ROWS)
        columns->kind = kind;
    return columns->kind == kind ? 0 : 21;
}

/* Reads a data line of the right number of fields; 0, or 8 to 13, 21 or 22 at the place. */
static inline unsigned read_row(const uint8_t *report, size_t start, const line *found, column_list *columns,
                                uint32_t *place, uint64_t *set, int *padded, uint32_t *contents, uint32_t *values)
{
    uint64_t present = 0;
    *padded = 0;
    for (uint32_t field = 0; field < columns->count; field++) {
        size_t end = found->ends[field], at = start;
        unsigned element = columns->elements[field], fault;
        start = end + 1;
        while (at < end && report[at] == ' ') {
            at++;
            *padded = 1;
        }
        if (at == end)
            continue;
        while (report[end - 1] == ' ') {
            end--;
            *padded = 1;
        }
        fault = fault_of(element, report + at, end - at);
        if (fault) {
            *place = field + 1;
            return fault;
        }
        present |= ONE(element);
        if (element == SYS && is_wgs84(report + at, end - at))
            present |= ONE(WGS84);
        if (element == CTR && (end - at != 3 || memcmp(report + at, "399", 3)))
            present |= ONE(OTHER_CENTRE);
        if (values) {
            values[element] = (uint32_t)(at << 9 | (end - at));
            *contents += (uint32_t)(end - at) + 1;
        }
    }
    *set = present & ~EARTH;
    return columns->kind == NO_RADAR_COLUMNS ? optical_lack(present, place) : lack(present, columns, place);
}

enum { VERSION_DUE, COLUMNS_DUE, FIRST_ROW_DUE, ROW_DUE };

/* A fault of a line that has a place in it. */
static inline int is_placed(uint32_t refused) { return (refused >= 6 && refused <= 13) || refused == 22; }

/* Reads the whole report, and keeps where the values lie: all of them unless table is null, those of one
 * observation unless that is null. */
static inline __attribute__((always_inline)) outcome read_report(const uint8_t *report, size_t length, kept *table,
                                                                 single *one)
{
    outcome result = { 0, 0, 0, 0 };
    column_list columns;
    line found;
    int due = VERSION_DUE;
    if (length > TEXT_LIMIT) {
        result.refused = 1;
        return result;
    }
    for (size_t start = 0; start < length && !result.refused; start = found.end + 1) {
        result.line++;
        result.refused = part(report, length, start, &found);
        if (result.refused)
            break;
        if (report[start] == '#' || due == VERSION_DUE) {
            if (found.end - start != VERSION_LENGTH || memcmp(report + start, version_line, VERSION_LENGTH))
                result.refused = 4;
            else if (due == COLUMNS_DUE || due == FIRST_ROW_DUE)
                result.refused = 5;
            due = COLUMNS_DUE;
        } else if (due == COLUMNS_DUE) {
            result.refused = read_columns(report, length, start, &found, &columns, &result.place);
            due = FIRST_ROW_DUE;
        } else if (result.observations == ROW_LIMIT) {
            result.refused = 14;
        } else if (found.fields != columns.count) {
            result.refused = 18;
        } else {
            uint64_t set;
            uint32_t contents = 0, *values = table ? table->values[result.observations] : NULL;
            int padded;
            if (one && one->number == result.observations + UINT64_C(1))
                values = one->values;
            result.refused = read_row(report, start, &found, &columns, &result.place, &set, &padded, &contents, values);
            if (one && values && !result.refused)
                one->set = set;
            if (table && !result.refused) {
                row *each = &table->rows[result.observations];
                each->set = set;
                each->as_is = columns.in_order && !padded ? columns.set : 0;
                each->start = (uint32_t)start;
                each->length = (uint32_t)(found.end + 1 - start);
                table->contents += contents;
            }
            result.observations++;
            due = ROW_DUE;
        }
    }
    if (!result.refused && (due == COLUMNS_DUE || due == FIRST_ROW_DUE)) {
        result.refused = 5;
        result.line++;
    }
    if (!is_placed(result.refused))
        result.place = 0;
    return result;
}

plain_checked plain_check(const uint8_t *report, size_t length)
{
    outcome read = read_report(report, length, NULL, NULL);
    plain_checked answer = { read.refused, 0, 0, 0 };
    if (read.refused) {
        answer.line = read.line;
        answer.place = read.place;
    } else {
        answer.observations = read.observations;
    }
    return answer;
}

/* ---- the search for the cuts */

typedef struct { uint64_t set; uint32_t rows, own; } run; /* own: the rows times the elements present */
typedef struct { uint32_t least, last; } best;            /* from a run on: the bytes, and the block's last run */

/* The lengths of the names and one for each. */
static inline uint32_t name_bytes(uint64_t set)
{
    uint32_t bytes = 0;
    for (; set; set &= set - 1)
        bytes += name_lengths[lowest(set)] + 1u;
    return bytes;
}

/* Parts the rows into runs of the same elements. A cut inside a run is never chosen: the run's rows
 * cost no more in the block with fewer columns, and with as many the first block would get them. */
static uint32_t runs_of(const row *rows, uint32_t count, run *runs)
{
    uint32_t made = 0;
    for (uint32_t i = 0; i < count; i++) {
        uint32_t present = (uint32_t)__builtin_popcountll(rows[i].set);
        if (made && runs[made - 1].set == rows[i].set) {
            runs[made - 1].rows++;
            runs[made - 1].own += present;
        } else {
            runs[made++] = (run){ rows[i].set, 1, present };
        }
    }
    return made;
}

/* The shortest cutting of a stretch from each of its runs on; of equals the one whose first block is
 * longest. What is counted for a block is what it costs beyond its rows' own values and one byte for
 * each. That grows with the block, so a block that alone costs more than the best needs no further look. */
static void search(const run *runs, uint32_t start, uint32_t end, best *bests)
{
    bests[end] = (best){ 0, 0 };
    for (uint32_t first = end; first-- > start;) {
        uint64_t set = 0;
        uint32_t names_and_line = 15, columns = 0, rows = 0, own = 0;
        best chosen = { UINT32_MAX, first };
        for (uint32_t last = first; last < end; last++) {
            uint64_t fresh = runs[last].set & ~set;
            uint32_t block;
            if (fresh) {
                set |= fresh;
                names_and_line += name_bytes(fresh);
                columns = (uint32_t)__builtin_popcountll(set);
            }
            rows += runs[last].rows;
            own += runs[last].own;
            block = names_and_line + rows * columns - own;
            if (block > chosen.least)
                break;
            if (block + bests[last + 1].least <= chosen.least)
                chosen = (best){ block + bests[last + 1].least, last };
        }
        bests[first] = chosen;
    }
}

/* The shortest cutting of all runs into blocks of one kind each: stretch by stretch, since a cut stands
 * wherever the kind changes. Gives the bytes of all stretches together. */
static uint32_t search_stretches(const run *runs, uint32_t count, best *bests)
{
    uint32_t bytes = 0, start = 0;
    while (start < count) {
        int radar = is_radar(runs[start].set);
        uint32_t end = start + 1;
        while (end < count && is_radar(runs[end].set) == radar)
            end++;
        search(runs, start, end, bests);
        bytes += bests[start].least;
        start = end;
    }
    return bytes;
}

/* What a report packs to: where its values lie, and the rows and columns of each block. */
typedef struct {
    kept table;
    uint32_t blocks, bytes;
    uint16_t cuts[ROW_LIMIT];
    uint64_t columns[ROW_LIMIT];
} plan;

/* Notes the blocks of the shortest cutting. */
static void note_blocks(const run *runs, uint32_t count, const best *bests, plan *made)
{
    uint32_t blocks = 0;
    for (uint32_t first = 0; first < count; first = bests[first].last + 1) {
        uint64_t set = 0;
        uint32_t rows = 0;
        for (uint32_t i = first; i <= bests[first].last; i++) {
            set |= runs[i].set;
            rows += runs[i].rows;
        }
        made->columns[blocks] = set;
        made->cuts[blocks++] = (uint16_t)rows;
    }
    made->blocks = blocks;
}

/* Reads a report and, unless it is refused, searches its cuts. */
static outcome plan_of(const uint8_t *report, size_t length, plan *made)
{
    run runs[ROW_LIMIT];
    best bests[ROW_LIMIT + 1];
    outcome read;
    made->table.contents = 0;
    read = read_report(report, length, &made->table, NULL);
    if (!read.refused) {
        uint32_t count = runs_of(made->table.rows, read.observations, runs);
        made->bytes = made->table.contents + search_stretches(runs, count, bests);
        note_blocks(runs, count, bests, made);
    }
    return read;
}

plain_measured plain_length(const uint8_t *report, size_t length, uint16_t *cuts, size_t cuts_length)
{
    plan made;
    outcome read = plan_of(report, length, &made);
    if (read.refused)
        return (plain_measured){ read.refused, read.line, read.place, 0, 0 };
    if (made.blocks <= cuts_length)
        memcpy(cuts, made.cuts, made.blocks * sizeof *cuts);
    return (plain_measured){ 0, 0, 0, made.bytes, made.blocks };
}

/* ---- writing */

/* Where the next byte goes and where the packed report will end, and the report's end. Copies of
 * sixteen bytes may run past a value's end but never past these. */
typedef struct { uint8_t *at, *end; const uint8_t *report_end; } writer;

static inline void copy(writer *out, const uint8_t *value, size_t length)
{
    if (length <= 16 && out->end - out->at >= 16 && out->report_end - value >= 16)
        memcpy(out->at, value, 16);
    else
        memcpy(out->at, value, length);
    out->at += length;
}

/* A name's sixteen bytes never run past the end: a row follows, and its obsTime alone has more. */
static void write_columns(writer *out, uint64_t set)
{
    memcpy(out->at, version_line, VERSION_LENGTH + 1);
    out->at += VERSION_LENGTH + 1;
    for (; set; set &= set - 1) {
        unsigned element = lowest(set);
        memcpy(out->at, names[element], 16);
        out->at += name_lengths[element];
        *out->at++ = '|';
    }
    out->at[-1] = '\n';
}

static void write_row(writer *out, const uint8_t *report, uint64_t columns, uint64_t set, const uint32_t *values)
{
    for (; columns; columns &= columns - 1) {
        unsigned element = lowest(columns);
        if (set & ONE(element))
            copy(out, report + (values[element] >> 9), values[element] & 511);
        *out->at++ = '|';
    }
    out->at[-1] = '\n';
}

/* Writes rows under these columns; lines that stand in the report as they are to be written, one
 * after another, are copied together. */
static void write_rows(writer *out, const uint8_t *report, uint64_t columns, const kept *table, uint32_t first,
                       uint32_t end)
{
    while (first < end) {
        const row *rows = table->rows;
        if (rows[first].as_is == columns) {
            uint32_t start = rows[first].start, length = 0;
            while (first < end && rows[first].as_is == columns && rows[first].start == start + length)
                length += rows[first++].length;
            memcpy(out->at, report + start, length);
            out->at += length;
        } else {
            write_row(out, report, columns, rows[first].set, table->values[first]);
            first++;
        }
    }
}

/* The handed cuts are compared with those found, and what is written goes by those found. */
plain_written plain_write(const uint8_t *report, size_t length, const uint16_t *cuts, size_t cuts_length,
                          uint8_t *output, size_t output_length)
{
    plan made;
    outcome read = plan_of(report, length, &made);
    writer out;
    uint32_t first = 0;
    if (read.refused)
        return (plain_written){ read.refused, read.line, read.place, 0 };
    if (cuts_length != made.blocks || memcmp(cuts, made.cuts, made.blocks * sizeof *cuts))
        return (plain_written){ 24, 0, 0, 0 };
    if (output_length < made.bytes)
        return (plain_written){ 15, 0, 0, 0 };
    out = (writer){ output, output + made.bytes, report + length };
    for (uint32_t block = 0; block < made.blocks; block++) {
        write_columns(&out, made.columns[block]);
        write_rows(&out, report, made.columns[block], &made.table, first, first + made.cuts[block]);
        first += made.cuts[block];
    }
    return (plain_written){ 0, 0, 0, made.bytes };
}

/* ---- the value of a covariance */

/* A right value. Its last digit is held back from the others' whole number: nineteen digits fit into 64 bits. */
static plain_scaled scale_of(const uint8_t *value)
{
    const uint8_t *at = value + sign_of(value), *places;
    uint64_t whole = 0, last = 0;
    plain_scaled answer = { 0, 0, 0, 0, 0, 0, 0, 0 };
    while (is_digit(*at)) {
        whole = 10 * whole + last;
        last = *at++ - '0';
    }
    if (*at == '.') {
        places = ++at;
        while (is_digit(*at)) {
            whole = 10 * whole + last;
            last = *at++ - '0';
        }
        answer.power = places - at;
    }
    if ((*at | 0x20) == 'e') {
        size_t sign = sign_of(at + 1);
        int exponent = (int)number(at + 1 + sign, digits(at + 1 + sign, 3));
        answer.power += at[1] == '-' ? -exponent : exponent;
    }
    answer.high = whole / 1000000000;
    answer.low = 10 * (whole % 1000000000) + last;
    answer.negative = value[0] == '-' && (answer.high | answer.low) != 0;
    return answer;
}

plain_scaled plain_covariance(const uint8_t *report, size_t length, uint64_t observation, uint64_t element)
{
    single asked;
    outcome read;
    uint64_t place = element - FIRST_COVARIANCE + POS_COV11;
    asked.number = observation;
    read = read_report(report, length, NULL, &asked);
    if (read.refused)
        return (plain_scaled){ read.refused, read.line, read.place, 0, 0, 0, 0, 0 };
    if (observation == 0 || observation > read.observations)
        return (plain_scaled){ 16, 0, 0, 0, 0, 0, 0, 0 };
    if (!(asked.set & ONE(place)))
        return (plain_scaled){ 0, 0, 0, 1, 0, 0, 0, 0 };
    return scale_of(report + (asked.values[place] >> 9));
}

/* ---- the night list */

#define DEGREE INT64_C(1000000000)
#define SECOND UINT64_C(1000000)
#define FIRST_DAY (-678575) /* 0001-01-01 */
#define LAST_DAY 2973483    /* 9999-12-31 */

/* What the digits after a point are multiplied by, for the places that they leave out. */
static const uint32_t powers[10] = { 1, 10, 100, 1000, 10000, 100000, 1000000, 10000000, 100000000, 1000000000 };

/* A right value of ra or dec in units of 0.000000001 degree. */
static int64_t angle(const uint8_t *value, size_t length)
{
    size_t sign = sign_of(value), before = sign + digits(value + sign, length - sign);
    int64_t units = number(value + sign, before - sign) * DEGREE;
    if (before < length)
        units += (int64_t)number(value + before + 1, length - before - 1) * powers[10 + before - length];
    return value[0] == '-' ? -units : units;
}

/* The days from 1858-11-17 to the date of a right obsTime. */
static int32_t day_number(const uint8_t *value)
{
    static const uint16_t days_before[13] = { 0, 0, 31, 59, 90, 120, 151, 181, 212, 243, 273, 304, 334 };
    unsigned year = 100 * pair(value) + pair(value + 2), month = pair(value + 5), past = year - 1;
    unsigned leaps = past / 4 - past / 100 + past / 400 + (month > 2 && is_leap(year));
    return (int32_t)(365 * past + leaps + days_before[month] + pair(value + 8) - 1) + FIRST_DAY;
}

/* The microseconds of the day of a right obsTime. */
static uint64_t microseconds(const uint8_t *value, size_t length)
{
    unsigned seconds = 3600 * pair(value + 11) + 60 * pair(value + 14) + pair(value + 17);
    uint64_t part = length > 20 ? (uint64_t)number(value + 20, length - 21) * powers[27 - length] : 0;
    return seconds * SECOND + part;
}

plain_timed plain_obs_time(const uint8_t *report, size_t length, uint64_t observation)
{
    single asked;
    outcome read;
    const uint8_t *time;
    asked.number = observation;
    read = read_report(report, length, NULL, &asked);
    if (read.refused)
        return (plain_timed){ read.refused, read.line, read.place, 0, 0 };
    if (observation == 0 || observation > read.observations)
        return (plain_timed){ 16, 0, 0, 0, 0 };
    time = report + (asked.values[OBS_TIME] >> 9);
    return (plain_timed){ 0, 0, 0, day_number(time), microseconds(time, asked.values[OBS_TIME] & 511) };
}

/* The four bytes of a right stn as a number, low byte first. */
static uint32_t station(const uint8_t *value, size_t length)
{
    return WORD3(value[0], value[1], value[2]) | (uint32_t)(length == 4 ? value[3] : ' ') << 24;
}

/* Writes the record of the observation whose number less one is the index. */
static void write_record(uint8_t *record, const uint8_t *report, uint64_t index, const uint32_t *values)
{
    const uint8_t *time = report + (values[OBS_TIME] >> 9);
    uint64_t dec = (uint64_t)angle(report + (values[DEC] >> 9), values[DEC] & 511);
    store(record, index | (uint64_t)station(report + (values[STN] >> 9), values[STN] & 511) << 32);
    store(record + 8, (uint32_t)day_number(time));
    store(record + 12, microseconds(time, values[OBS_TIME] & 511));
    store(record + 20, (uint64_t)angle(report + (values[RA] >> 9), values[RA] & 511));
    store(record + 28, dec);
    store(record + 32, dec >> 32);
}

plain_done plain_night_write(const uint8_t *report, size_t length, uint64_t observation, uint8_t *list,
                             size_t list_length)
{
    single asked;
    outcome read;
    asked.number = observation;
    read = read_report(report, length, NULL, &asked);
    if (read.refused)
        return (plain_done){ read.refused, read.line, read.place };
    if (observation == 0 || observation > read.observations)
        return (plain_done){ 16, 0, 0 };
    if (is_radar(asked.set))
        return (plain_done){ 23, 0, 0 };
    if (list_length / RECORD_LENGTH < observation)
        return (plain_done){ 19, 0, 0 };
    write_record(list + RECORD_LENGTH * (observation - 1), report, observation - 1, asked.values);
    return (plain_done){ 0, 0, 0 };
}

/* Four alphanumerics as a number: no blank first, and not two last, since a blank stands after three letters alone. */
static inline int is_station(uint32_t bytes)
{
    uint8_t first = (uint8_t)bytes, second = (uint8_t)(bytes >> 8), third = (uint8_t)(bytes >> 16);
    uint8_t last = (uint8_t)(bytes >> 24);
    return (bytes & 0x80808080) == 0 && class_of(first) && class_of(second) && class_of(third) && class_of(last)
        && first != ' ' && (last != ' ' || third != ' ');
}

/* An observation whose number less one is the index could have written the record. */
static inline int is_record(const uint8_t *record, uint64_t index)
{
    uint64_t head = load(record);
    return (uint32_t)head == index && is_station((uint32_t)(head >> 32))
        && (uint32_t)load(record + 8) - (uint32_t)FIRST_DAY <= LAST_DAY - FIRST_DAY
        && load(record + 12) < 86400 * SECOND && load(record + 20) < 360 * DEGREE
        && load(record + 28) + 90 * DEGREE <= 180 * DEGREE && load(record + 32) >> 32 == 0;
}

/* The number of the first bad record, or 0. */
static uint64_t first_bad(const uint8_t *list, size_t length)
{
    uint64_t whole = length / RECORD_LENGTH < ROW_LIMIT ? length / RECORD_LENGTH : ROW_LIMIT;
    for (uint64_t index = 0; index < whole; index++)
        if (!is_record(list + RECORD_LENGTH * index, index))
            return index + 1;
    return RECORD_LENGTH * whole == length ? 0 : whole + 1;
}

plain_night_checked plain_night_check(const uint8_t *list, size_t length)
{
    uint64_t bad = first_bad(list, length);
    return bad ? (plain_night_checked){ 20, 0, bad, 0 } : (plain_night_checked){ 0, 0, 0, length / RECORD_LENGTH };
}

plain_night_record plain_night_read(const uint8_t *list, size_t length, uint64_t record)
{
    plain_night_record answer = { 0, 0, first_bad(list, length), 0, 0, 0, 0, 0, 0 };
    if (answer.place) {
        answer.refused = 20;
        return answer;
    }
    if (record == 0 || record > length / RECORD_LENGTH) {
        answer.refused = 16;
        return answer;
    }
    list += RECORD_LENGTH * (record - 1);
    answer.number = record;
    answer.station = load(list) >> 32;
    answer.day = (int32_t)load(list + 8);
    answer.microseconds = load(list + 12);
    answer.ra = (int64_t)load(list + 20);
    answer.dec = (int64_t)load(list + 28);
    return answer;
}
