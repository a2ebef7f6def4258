/* Instruction counts of rofteluvi_patch and rofteluvi_run, and stack use of rofteluvi_patch, beside plain C, on calls that are all
   accepted.

       bench list      prints a line for each region, in the order in which `bench count` runs them
       bench count     runs each region once, between count_on and count_off inside counted, for a counter of instructions
       bench stack     prints the bytes of stack that each function touches at most
   Plain C must leave the same section, and the same registers, or it ends with status 1. */
#define _XOPEN_SOURCE 700
#include "counted.h"
#include "plain.h"
#include "rofteluvi.h"

#include <inttypes.h>
#include <stdio.h>
#include <stdlib.h>
#include <string.h>
#include <ucontext.h>

typedef rofteluvi_answer patch_function(uint8_t *, size_t, const uint8_t *, size_t, const uint8_t *, size_t, uint64_t, uint64_t);
typedef rofteluvi_ran run_function(const uint8_t *, size_t, uint64_t, uint64_t *);

/* The cost of the call itself, which is taken off the others. */
__attribute__((noinline)) static rofteluvi_answer nothing(uint8_t *section, size_t section_len, const uint8_t *records,
                                                          size_t records_len, const uint8_t *values, size_t values_len,
                                                          uint64_t address, uint64_t gp) {
    rofteluvi_answer a = {0, 0, 0};
    (void)section, (void)section_len, (void)records, (void)records_len, (void)values, (void)values_len, (void)address, (void)gp;
    __asm__ volatile("");
    return a;
}

__attribute__((noinline)) static rofteluvi_ran run_nothing(const uint8_t *run, size_t run_len, uint64_t start, uint64_t *registers) {
    rofteluvi_ran r = {0, 0};
    (void)run, (void)run_len, (void)start, (void)registers;
    __asm__ volatile("");
    return r;
}

/* ---- The four mixes ---- */

static const uint64_t address = 0x120000000, gp = 0x120080000;
static uint8_t section[65536], records[49152], values[57344], after_plain[65536];
static size_t record_count, row_count;
static unsigned direct_turn, data_turn, stack_turn; /* types and programs are taken in turn */

static uint64_t random_state;
static uint64_t random_below(uint64_t n) {
    random_state = random_state * 6364136223846793005u + 1442695040888963407u;
    return (random_state >> 33) % n;
}

static void put(uint8_t *to, uint64_t x, unsigned n) {
    for (unsigned i = 0; i < n; i++)
        to[i] = (uint8_t)(x >> (8 * i));
}

static void record(uint64_t offset, uint32_t type, uint32_t symbol, uint64_t addend) {
    uint8_t *to = records + 24 * record_count++;
    put(to, offset, 8);
    put(to + 8, type, 4);
    put(to + 12, symbol, 4);
    put(to + 16, addend, 8);
}

static uint64_t word_offset(void) { return 4 * random_below(16384); }
static uint64_t any_offset(void) { return random_below(65536 - 7); }
static uint32_t any_symbol(void) { return 1 + (uint32_t)random_below(row_count); }

/* Symbols lie in the section, so that every branch in it reaches them. */
static void make_rows(size_t rows) {
    for (row_count = 0; row_count < rows; row_count++) {
        uint8_t *row = values + 56 * row_count;
        put(row, 63, 8);
        put(row + 8, address + 4 * random_below(15000), 8);
        for (unsigned i = 1; i < 6; i++)
            put(row + 8 + 8 * i, 1 + random_below(1 << 20), 8);
    }
}

static void direct_word(void) {
    record(word_offset(), 64 + direct_turn++ % 35, any_symbol(), 4 * random_below(1000));
}

static void data(void) {
    static const uint32_t types[] = {47, 48, 49, 50, 51, 52, 53, 54, 55, 56, 1, 2, 99};
    record(any_offset(), types[data_turn++ % 13], any_symbol(), random_below(1 << 20));
}

static void constant(uint64_t x) { record(0, 23, 0, x); }
static void operation(uint32_t type) { record(0, type, 0, 0); }
static void pop(uint32_t type) { record(word_offset(), type, 0, 0); }

/* Stack programs as an assembler writes them; each leaves the stack as it found it. Those of two records fill a list up. */
static void stack_program(size_t room) {
    switch (room < 8 ? 0 : stack_turn++ % 8) {
    case 0: /* a branch */
        record(word_offset(), 22, any_symbol(), 4 * random_below(1000));
        pop(42);
        break;
    case 1: /* the high part of an address */
        record(0, 23, any_symbol(), 0);
        constant(12);
        operation(34);
        constant(0x7ffff);
        operation(36);
        pop(43);
        break;
    case 2: /* the low part */
        record(0, 25, any_symbol(), 0);
        constant(0xfff);
        operation(36);
        pop(39);
        break;
    case 3: /* an assertion on the way */
        record(0, 23, any_symbol(), 1);
        operation(24);
        operation(30);
        constant(0x7ff);
        operation(36);
        pop(40);
        break;
    case 4: /* shifted out at both ends */
        record(word_offset(), 29, any_symbol(), 0);
        constant(16);
        operation(33);
        constant(16);
        operation(34);
        constant(0x7fff);
        operation(36);
        pop(41);
        break;
    case 5: /* a choice */
        record(0, 26, any_symbol(), 0);
        record(0, 27, any_symbol(), 0);
        record(0, 28, any_symbol(), 0);
        operation(37);
        constant(15);
        operation(36);
        operation(31);
        pop(38);
        break;
    case 6: /* a difference of addresses */
        record(0, 23, any_symbol(), 4);
        record(0, 23, any_symbol(), 0);
        operation(32);
        constant(4 * 65536);
        operation(35);
        pop(stack_turn % 3 == 0 ? 44 : stack_turn % 3 == 1 ? 45 : 46);
        break;
    default: /* truth values */
        constant(5);
        operation(31);
        operation(31);
        constant(7);
        operation(35);
        pop(46);
        break;
    }
}

static const char *const mix_name[] = {"direct word types", "stack programs", "data adds and stores", "all mixed"};
enum { MIXES = 4, SIZES = 4, FUNCTIONS = 3 };
static const size_t sizes[SIZES] = {64, 256, 1024, 2048};

/* A full-sized section, `count` records, and one value row for each two of them. */
static void make(unsigned mix, size_t count) {
    random_state = 1000 * mix + count;
    direct_turn = data_turn = stack_turn = 0;
    for (size_t i = 0; i < sizeof section; i++)
        section[i] = (uint8_t)random_below(256);
    make_rows(count / 2);
    record_count = 0;
    for (size_t i = 0; record_count < count; i++) {
        size_t room = count - record_count;
        if (mix == 0)
            direct_word();
        else if (mix == 1)
            stack_program(room);
        else if (mix == 2)
            data();
        else if (room < 8 || i % 10 < 4)
            direct_word();
        else if (i % 10 < 7)
            data();
        else if (i % 10 < 9)
            stack_program(room);
        else
            record(any_offset(), 100, 0, 0);
    }
}

/* ---- Runs: the two sequences over and over, all six, and each instruction alone ---- */

enum { LU12I_W = 0x14000000, LU32I_D = 0x16000000, PCALAU12I = 0x1a000000, LU52I_D = 0x03000000, ADDI_D = 0x02c00000, ORI = 0x03800000 };
static const struct {
    const char *name;
    size_t words;
    uint32_t word[6];
} run_mix[] = {
    {"lu12i.w, ori, lu32i.d, lu52i.d", 4, {LU12I_W, ORI, LU32I_D, LU52I_D}},
    {"pcalau12i, addi.d", 2, {PCALAU12I, ADDI_D}},
    {"all six in turn", 6, {LU12I_W, ORI, LU32I_D, LU52I_D, PCALAU12I, ADDI_D}},
    {"lu12i.w alone", 1, {LU12I_W}},
    {"lu32i.d alone", 1, {LU32I_D}},
    {"pcalau12i alone", 1, {PCALAU12I}},
    {"lu52i.d alone", 1, {LU52I_D}},
    {"addi.d alone", 1, {ADDI_D}},
    {"ori alone", 1, {ORI}},
};
enum { RUN_MIXES = sizeof run_mix / sizeof *run_mix, RUN_SIZES = 2 };
static const size_t run_sizes[RUN_SIZES] = {256, 4096};
static uint8_t words[16384];
static size_t word_count;
static uint64_t registers[32], registers_after_plain[32];

/* Random immediates and registers, the first of them too; a sequence is on one register. */
static void make_run(unsigned mix, size_t count) {
    uint32_t rd = 0;
    random_state = 1000 * mix + count;
    for (word_count = 0; word_count < count; word_count++) {
        uint32_t word = run_mix[mix].word[word_count % run_mix[mix].words];
        if (word_count % run_mix[mix].words == 0)
            rd = (uint32_t)random_below(32);
        uint32_t immediate = (uint32_t)random_below(1 << 20);
        word |= word < LU12I_W ? (immediate & 0xfff) << 10 | rd << 5 | rd : immediate << 5 | rd;
        put(words + 4 * word_count, word, 4);
    }
    for (size_t k = 0; k < 32; k++)
        registers[k] = random_below(UINT32_MAX) << 32 | random_below(UINT32_MAX);
}

/* ---- Counting ---- */

static const char *const function_name[FUNCTIONS] = {"nothing", "plain C", "rofteluvi_patch"};
static patch_function *const function[FUNCTIONS] = {nothing, plain_patch, rofteluvi_patch};
static patch_function *volatile chosen;
static rofteluvi_answer result;

static const char *const run_name[FUNCTIONS] = {"nothing", "plain C", "rofteluvi_run"};
static run_function *const run_choice[FUNCTIONS] = {run_nothing, plain_run, rofteluvi_run};
static run_function *volatile chosen_run; /* NULL: a call of patch is counted */
static rofteluvi_ran run_result;

void counted(void);
__attribute__((noinline)) void counted(void) {
    count_on();
    if (chosen_run != NULL)
        run_result = chosen_run(words, 4 * word_count, address, registers);
    else
        result = chosen(section, sizeof section, records, 24 * record_count, values, 56 * row_count, address, gp);
    count_off();
}

static void on_this_stack(void) { counted(); }

static void on_painted_stack(void);

static void each(void (*run)(void), void (*report)(unsigned mix, size_t size, unsigned which)) {
    for (unsigned mix = 0; mix < MIXES; mix++)
        for (unsigned size = 0; size < SIZES; size++)
            for (unsigned which = 0; which < FUNCTIONS; which++) {
                make(mix, sizes[size]);
                chosen = function[which];
                if (run != NULL)
                    run();
                if (run != NULL && which > 0 && (result.number != 0 || result.place != record_count)) {
                    printf("%s, %s, %zu records: number %" PRIu32 ", place %" PRIu32 "\n", mix_name[mix], function_name[which],
                           record_count, result.number, result.place);
                    exit(1);
                }
                if (which == 1)
                    memcpy(after_plain, section, sizeof section);
                if (which == 2 && run != NULL && memcmp(after_plain, section, sizeof section) != 0) {
                    printf("%s, %zu records: the sections differ\n", mix_name[mix], record_count);
                    exit(1);
                }
                if (report != NULL)
                    report(mix, sizes[size], which);
            }
}

static void name_region(unsigned mix, size_t size, unsigned which) {
    printf("%s;%zu;%s\n", mix_name[mix], size, function_name[which]);
}

/* The same for runs: counted, or only named. */
static void each_run(int count) {
    for (unsigned mix = 0; mix < RUN_MIXES; mix++)
        for (unsigned size = 0; size < RUN_SIZES; size++)
            for (unsigned which = 0; which < FUNCTIONS; which++) {
                if (!count) {
                    printf("%s;%zu;%s\n", run_mix[mix].name, run_sizes[size], run_name[which]);
                    continue;
                }
                make_run(mix, run_sizes[size]);
                chosen_run = run_choice[which];
                counted();
                chosen_run = NULL;
                if (which > 0 && (run_result.number != 0 || run_result.place != word_count)) {
                    printf("%s, %s, %zu words: number %" PRIu32 ", place %" PRIu32 "\n", run_mix[mix].name, run_name[which], word_count,
                           run_result.number, run_result.place);
                    exit(1);
                }
                if (which == 1)
                    memcpy(registers_after_plain, registers, sizeof registers);
                if (which == 2 && memcmp(registers_after_plain, registers, sizeof registers) != 0) {
                    printf("%s, %zu words: the registers differ\n", run_mix[mix].name, word_count);
                    exit(1);
                }
            }
}

/* ---- Stack use: the call runs on a stack that was painted before, and the paint that is gone is looked for ---- */

enum { STACK_BYTES = 1 << 20, PAINT = 0xa5 };
static uint8_t painted[STACK_BYTES];
static ucontext_t here, there;
static size_t touched[FUNCTIONS];

static void on_painted_stack(void) {
    memset(painted, PAINT, sizeof painted);
    getcontext(&there);
    there.uc_stack.ss_sp = painted;
    there.uc_stack.ss_size = sizeof painted;
    there.uc_link = &here;
    makecontext(&there, on_this_stack, 0);
    swapcontext(&here, &there);
}

static void note_touched(unsigned mix, size_t size, unsigned which) {
    (void)mix, (void)size;
    size_t untouched = 0;
    while (untouched < sizeof painted && painted[untouched] == PAINT)
        untouched++;
    if (sizeof painted - untouched > touched[which])
        touched[which] = sizeof painted - untouched;
}

int main(int argc, char **argv) {
    const char *what = argc > 1 ? argv[1] : "";
    if (strcmp(what, "list") == 0) {
        each(NULL, name_region);
        each_run(0);
    } else if (strcmp(what, "count") == 0) {
        each(on_this_stack, NULL);
        each_run(1);
    } else if (strcmp(what, "stack") == 0) {
        each(on_painted_stack, note_touched);
        for (unsigned which = 1; which < FUNCTIONS; which++)
            printf("%s;%zu\n", function_name[which], touched[which] - touched[0]);
    } else {
        fprintf(stderr, "usage: bench list | count | stack\n");
        return 2;
    }
    return 0;
}
