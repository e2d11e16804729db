/* Measures the stack that a call takes:
 *
 *     stack REPORT..
 *
 * calls each function on a painted stack of its own, and prints for each report the most bytes of it that a call changed: on the
 * report whole, cut off at 64 places and with one byte changed at 64 places; show and value of each element; length, write and the
 * night list's writing also into no list and no output; write by the report's cuts and by others; the list that a report writes, up
 * to its first radar observation, whole, cut off and changed in the same way. Counted from the return address that the call pushes
 * down to the lowest byte that changed; kyrr_write's last argument, which its caller lays above that, is not counted.
 *
 * For x86-64, by its calling convention. Declares the few functions of the C library that it needs, as drive.c does. */

#include "kyrrbolda.h"

int open(const char *name, int flags, ...);
int close(int file);
int64_t read(int file, void *bytes, size_t count);
int printf(const char *format, ...);
void *memset(void *bytes, int byte, size_t count);

enum { ROOM = KYRR_TEXT_LIMIT + 64, RECORD = 40, LIST = RECORD * KYRR_ROW_LIMIT, STACK = 1 << 18, PLACES = 64 };

static uint8_t report[ROOM], output[ROOM], list[LIST];
static uint16_t cuts[KYRR_ROW_LIMIT + 1];
static size_t length;

/* A seventh argument stands where the stack pointer is at the call, which is at a multiple of 16: just past the painted bytes. */
static struct { uint8_t painted[STACK]; uint64_t seventh; } stack __attribute__((aligned(16)));

typedef struct { uint64_t first, second, third, fourth, fifth, sixth, seventh; } arguments;

/* Calls a function with its stack pointer at the end of the painted stack. */
static void call_there(uintptr_t function, arguments given)
{
    register uint64_t first __asm__("rdi") = given.first;
    register uint64_t second __asm__("rsi") = given.second;
    register uint64_t third __asm__("rdx") = given.third;
    register uint64_t fourth __asm__("rcx") = given.fourth;
    register uint64_t fifth __asm__("r8") = given.fifth;
    register uint64_t sixth __asm__("r9") = given.sixth;
    stack.seventh = given.seventh;
    __asm__ volatile("movq %%rsp, %%rbx\n\tmovq %[end], %%rsp\n\tcall *%[function]\n\tmovq %%rbx, %%rsp"
        : "+r"(first), "+r"(second), "+r"(third), "+r"(fourth), "+r"(fifth), "+r"(sixth)
        : [end] "r"(&stack.seventh), [function] "r"(function)
        : "rax", "rbx", "r10", "r11", "xmm0", "xmm1", "xmm2", "xmm3", "xmm4", "xmm5", "xmm6", "xmm7", "xmm8", "xmm9", "xmm10", "xmm11",
          "xmm12", "xmm13", "xmm14", "xmm15", "cc", "memory");
}

/* The bytes of stack that a call changes; painted twice, since it may write a byte of the paint. */
static size_t changed(uintptr_t function, arguments given)
{
    size_t most = 0;
    for (int paint = 0x5A; paint <= 0xA5; paint += 0xA5 - 0x5A) {
        size_t place = 0;
        memset(stack.painted, paint, STACK);
        call_there(function, given);
        while (place < STACK && stack.painted[place] == paint)
            place++;
        if (STACK - place > most)
            most = STACK - place;
    }
    return most;
}

enum { CHECK, SHOW, VALUE, LENGTH, WRITE, NIGHT_WRITE, NIGHT_CHECK, NIGHT_READ, CALLS };
static size_t most[CALLS];

static void note(int call, size_t bytes)
{
    if (bytes > most[call])
        most[call] = bytes;
}

/* An answer of more than two words goes where the first argument says. */
static uint64_t answer[10];

/* Asks the length of the first bytes of the report, into a list with room and into none. */
static void try_length(size_t bytes)
{
    uint64_t there = (uintptr_t)answer, from = (uintptr_t)report, to = (uintptr_t)cuts;
    note(LENGTH, changed((uintptr_t)kyrr_length, (arguments){ there, from, bytes, to, KYRR_ROW_LIMIT, 0, 0 }));
    note(LENGTH, changed((uintptr_t)kyrr_length, (arguments){ there, from, bytes, to, 0, 0, 0 }));
}

/* Writes the first bytes of the report by the first numbers of the cuts, into an output with room and into none. */
static void try_write(size_t bytes, uint64_t numbers)
{
    uint64_t there = (uintptr_t)answer, from = (uintptr_t)report, by = (uintptr_t)cuts, to = (uintptr_t)output;
    note(WRITE, changed((uintptr_t)kyrr_write, (arguments){ there, from, bytes, by, numbers, to, ROOM }));
    note(WRITE, changed((uintptr_t)kyrr_write, (arguments){ there, from, bytes, by, numbers, to, 0 }));
}

/* Both calls of packing on the first bytes of the report: by its cuts, by one too many, and by a last one that is another. */
static void try_packing(size_t bytes)
{
    uint64_t blocks = kyrr_length(report, bytes, cuts, KYRR_ROW_LIMIT).blocks;
    try_length(bytes);
    try_write(bytes, blocks);
    try_write(bytes, blocks + 1);
    if (blocks) {
        cuts[blocks - 1]++;
        try_write(bytes, blocks);
    }
}

/* Each other function that takes a report, on the first bytes of the report. */
static void try_calls(size_t bytes, uint64_t observation, uint64_t element)
{
    uint64_t there = (uintptr_t)answer, from = (uintptr_t)report, to = (uintptr_t)output;
    note(CHECK, changed((uintptr_t)kyrr_check, (arguments){ there, from, bytes, 0, 0, 0, 0 }));
    note(SHOW, changed((uintptr_t)kyrr_show, (arguments){ there, from, bytes, observation, element, 0, 0 }));
    note(VALUE, changed((uintptr_t)kyrr_value, (arguments){ there, from, bytes, observation, element, 0, 0 }));
    note(NIGHT_WRITE, changed((uintptr_t)kyrr_night_write, (arguments){ there, from, bytes, observation, to, LIST, 0 }));
    note(NIGHT_WRITE, changed((uintptr_t)kyrr_night_write, (arguments){ there, from, bytes, observation, to, 0, 0 }));
}

/* Each function that takes a list, on the first bytes of the list. */
static void try_list_calls(size_t bytes, uint64_t record)
{
    uint64_t there = (uintptr_t)answer, from = (uintptr_t)list;
    note(NIGHT_CHECK, changed((uintptr_t)kyrr_night_check, (arguments){ there, from, bytes, 0, 0, 0, 0 }));
    note(NIGHT_READ, changed((uintptr_t)kyrr_night_read, (arguments){ there, from, bytes, record, 0, 0, 0 }));
}

/* The report whole, for each element of its first and last observation; cut off; with one byte changed. */
static void try_report(void)
{
    static const uint8_t bytes[8] = { '|', '\n', ' ', '0', '#', 'A', '-', 0x7F };
    uint64_t rows = kyrr_check(report, length).observations;
    for (uint64_t element = 0; element <= KYRR_ELEMENTS + 1; element++) {
        try_calls(length, 1, element);
        try_calls(length, rows, element);
    }
    try_packing(length);
    for (size_t turn = 0; turn < PLACES; turn++) {
        size_t place = turn * length / PLACES;
        uint8_t kept = report[place];
        try_calls(place, 1, 1 + turn % KYRR_ELEMENTS);
        try_packing(place);
        report[place] = bytes[turn % 8];
        try_calls(length, rows, 1 + turn % KYRR_ELEMENTS);
        try_packing(length);
        report[place] = kept;
    }
}

/* The list that the report writes up to its first radar observation, for its first and last record and one past; cut off; with one
 * byte changed. */
static void try_list(void)
{
    uint64_t records = 0;
    size_t bytes;
    while (kyrr_night_write(report, length, records + 1, list, LIST).refused == 0)
        records++;
    bytes = RECORD * records;
    try_list_calls(bytes, 1);
    try_list_calls(bytes, records);
    try_list_calls(bytes, records + 1);
    for (size_t turn = 0; turn < PLACES; turn++) {
        size_t place = turn * bytes / PLACES;
        try_list_calls(place, 1);
        list[place] ^= 0x81;
        try_list_calls(bytes, records);
        list[place] ^= 0x81;
    }
}

/* The names of all elements, and the numbers of all names. */
static void try_names(void)
{
    uint64_t name = 0, element = 0;
    for (uint64_t number = 0; number <= KYRR_ELEMENTS + 1; number++) {
        size_t size = kyrr_name(number, output, ROOM);
        size_t asked = changed((uintptr_t)kyrr_name, (arguments){ number, (uintptr_t)output, ROOM, 0, 0, 0, 0 });
        size_t found = changed((uintptr_t)kyrr_element, (arguments){ (uintptr_t)output, size, 0, 0, 0, 0, 0 });
        name = asked > name ? asked : name;
        element = found > element ? found : element;
    }
    printf("kyrr_name: %llu bytes of stack; kyrr_element: %llu\n", (unsigned long long)name, (unsigned long long)element);
}

int main(int words, char **word)
{
    printf("| Report | Stack of kyrr_check | kyrr_show | kyrr_value | kyrr_length | kyrr_write | kyrr_night_write | kyrr_night_check "
        "| kyrr_night_read |\n|---|---|---|---|---|---|---|---|---|\n");
    for (int which = 1; which < words; which++) {
        int file = open(word[which], 0);
        if (file < 0) {
            printf("stack: %s can't be read\n", word[which]);
            return 2;
        }
        length = (size_t)read(file, report, ROOM);
        close(file);
        for (int call = 0; call < CALLS; call++)
            most[call] = 0;
        try_report();
        try_list();
        printf("| %s |", word[which]);
        for (int call = 0; call < CALLS; call++)
            printf(" %zu |", most[call]);
        printf("\n");
    }
    try_names();
    return 0;
}
