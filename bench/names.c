/* Tries kyrr_name and kyrr_element from C against the list of elements:
 *
 *     names
 *
 * asks for the name of each element and of numbers that no element has, with every output up to longer than the longest name, and
 * looks that no byte around the output changed; and for the number of each name, of its starts, of it with one byte changed or
 * added, in another case, and of long texts. It prints how many calls it tried, or the first that answered otherwise.
 *
 * Declares the few functions of the C library that it needs, as drive.c does. */

#include "kyrrbolda.h"

int printf(const char *format, ...);
int memcmp(const void *one, const void *other, size_t count);
void *memcpy(void *to, const void *from, size_t count);
void *memset(void *bytes, int byte, size_t count);
size_t strlen(const char *text);

enum { AROUND = 16, ROOM = AROUND + KYRR_NAME_LIMIT + AROUND };

static const char *const names[KYRR_ELEMENTS] = {
    "permID", "provID", "artSat", "trkSub", "obsID", "obsSubID", "mode", "stn", "sys", "ctr", "pos1", "pos2", "pos3", "prog", "obsTime",
    "rmsTime", "ra", "dec", "rmsRA", "rmsDec", "rmsCorr", "astCat", "mag", "rmsMag", "band", "photCat", "photAp", "notes",
    "remarks", "trx", "rcv", "delay", "rmsDelay", "doppler", "rmsDoppler", "frq", "com", "posCov11", "posCov12",
    "posCov13", "posCov22", "posCov23", "posCov33"
};
static unsigned long calls, wrong;

/* Counts a call, and prints the first that answered otherwise. */
static void tried(int right, const char *what, uint64_t number, size_t length)
{
    calls++;
    if (!right && wrong++ == 0)
        printf("%s %llu, length %llu: wrong\n", what, (unsigned long long)number, (unsigned long long)length);
}

/* The name of an element in an output of a length: its length, and every byte in and around the output. */
static void try_name(uint64_t element, size_t length, int paint)
{
    uint8_t output[ROOM], expected[ROOM];
    const char *name = element >= 1 && element <= KYRR_ELEMENTS ? names[element - 1] : "";
    uint64_t answer;
    memset(output, paint, ROOM);
    memset(expected, paint, ROOM);
    if (strlen(name) <= length)
        memcpy(expected + AROUND, name, strlen(name));
    answer = kyrr_name(element, output + AROUND, length);
    tried(answer == strlen(name) && memcmp(output, expected, ROOM) == 0, "kyrr_name", element, length);
}

/* The number of a text: that of the name with the same bytes. */
static void try_element(const uint8_t *text, size_t length)
{
    uint64_t expected = 0;
    for (uint64_t element = 1; element <= KYRR_ELEMENTS; element++)
        if (strlen(names[element - 1]) == length && memcmp(text, names[element - 1], length) == 0)
            expected = element;
    tried(kyrr_element(text, length) == expected, "kyrr_element", expected, length);
}

/* A name, every start of it, and it with each byte changed to any other or any byte added at its end. */
static void try_near(const char *name)
{
    uint8_t text[KYRR_NAME_LIMIT + 1] = { 0 };
    size_t length = strlen(name);
    memcpy(text, name, length);
    for (size_t start = 0; start <= length; start++)
        try_element(text, start);
    for (size_t place = 0; place <= length; place++) {
        uint8_t kept = text[place];
        for (int byte = 0; byte < 256; byte++) {
            text[place] = (uint8_t)byte;
            try_element(text, length);
            try_element(text, place + 1);
        }
        text[place] = kept;
    }
    for (size_t place = 0; place < length; place++) {
        text[place] ^= 0x20;
        try_element(text, length);
    }
}

/* A long text that starts with a name, at every length up to the longest report and a byte more. */
static void try_long(const char *name)
{
    static uint8_t text[KYRR_TEXT_LIMIT + 1];
    memset(text, ' ', sizeof text);
    memcpy(text, name, strlen(name));
    for (size_t length = 0; length <= sizeof text; length += length < 512 ? 1 : 5003)
        try_element(text, length);
    try_element(text, sizeof text);
}

int main(void)
{
    static const uint64_t others[] = { 1ull << 8, (1ull << 8) + 1, 1ull << 32, (1ull << 32) + 1, 1ull << 63, UINT64_MAX - 1, UINT64_MAX };
    for (size_t length = 0; length <= KYRR_NAME_LIMIT + 2; length++)
        for (int paint = 0; paint < 256; paint += 51) {
            for (uint64_t element = 0; element <= 2 * KYRR_ELEMENTS; element++)
                try_name(element, length, paint);
            for (size_t which = 0; which < sizeof others / sizeof *others; which++)
                try_name(others[which], length, paint);
        }
    for (int which = 0; which < KYRR_ELEMENTS; which++) {
        try_near(names[which]);
        try_long(names[which]);
    }
    printf("names: %lu calls, %lu wrong\n", calls, wrong);
    return wrong != 0;
}
