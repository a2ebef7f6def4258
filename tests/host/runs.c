#include "runs.h"

#include "compare.h"
#include "coverage.h"
#include "generate.h"

#include <inttypes.h>
#include <stdio.h>
#include <stdlib.h>
#include <string.h>

enum { LU12I_W = 0x0a, LU32I_D = 0x0b, PCALAU12I = 0x0d }; /* bits 31..25 */
enum { LU52I_D = 0x0c, ADDI_D = 0x0b, ORI = 0x0e };        /* bits 31..22 */

static uint8_t run[ROFTELUVI_RUN_BYTES_MAX + 8];
static size_t run_len;
static uint64_t registers[ROFTELUVI_REGISTERS];

static uint32_t with_i20(uint32_t opcode, uint32_t rd, uint32_t i20) { return opcode << 25 | i20 << 5 | rd; }
static uint32_t with_i12(uint32_t opcode, uint32_t rd, uint32_t rj, uint32_t i12) { return opcode << 22 | i12 << 10 | rj << 5 | rd; }

static void word(uint32_t w) {
    put_number(run + run_len, w, 4);
    run_len += 4;
}

/* ---- Runs with the answers written down ---- */

/* The run so far, from registers that all hold 7: all hold 7 afterwards but the first, which holds 0, and $r4, which holds `value`. */
static void expect(const char *name, uint64_t start, uint32_t number, uint32_t place, uint64_t value) {
    for (size_t k = 0; k < ROFTELUVI_REGISTERS; k++)
        registers[k] = 7;
    rofteluvi_ran ran = compare_run(run, run_len, start, registers);
    int as_wanted = ran.number == number && ran.place == place;
    for (size_t k = 0; k < ROFTELUVI_REGISTERS; k++)
        as_wanted &= registers[k] == (k == 0 ? 0 : k == 4 ? value : 7);
    run_len = 0;
    if (!as_wanted) {
        printf("DIFFERENCE: run \"%s\": number %" PRIu32 ", place %" PRIu32 ", $r4 %" PRIx64 " wanted, both gave %" PRIu32 ", %" PRIu32
               ", %" PRIx64 "\n", name, number, place, value, ran.number, ran.place, registers[4]);
        exit(1);
    }
}

static void one(const char *name, uint32_t w, uint64_t start, uint64_t value) {
    word(w);
    expect(name, start, 0, 1, value);
}

static void fixed(void) {
    expect("no word", 0, 0, 0, 7);
    one("lu12i.w of 7ffffh", with_i20(LU12I_W, 4, 0x7ffff), 0, 0x7ffff000);
    one("lu12i.w of 80000h", with_i20(LU12I_W, 4, 0x80000), 0, 0xffffffff80000000);
    one("lu32i.d of 7ffffh", with_i20(LU32I_D, 4, 0x7ffff), 0, 0x0007ffff00000007);
    one("lu32i.d of 80000h", with_i20(LU32I_D, 4, 0x80000), 0, 0xfff8000000000007);
    one("pcalau12i of 1", with_i20(PCALAU12I, 4, 1), 0x1ffc, 0x2000);
    one("pcalau12i of 80000h", with_i20(PCALAU12I, 4, 0x80000), 0x1ffc, 0xffffffff80001000);
    one("pcalau12i past the last address", with_i20(PCALAU12I, 4, 1), 0xfffffffffffffffc, 0);
    one("lu52i.d of fffh", with_i12(LU52I_D, 4, 5, 0xfff), 0, 0xfff0000000000007);
    one("addi.d of 7ffh", with_i12(ADDI_D, 4, 5, 0x7ff), 0, 0x806);
    one("addi.d of -8", with_i12(ADDI_D, 4, 5, 0xff8), 0, 0xffffffffffffffff);
    one("ori of fffh", with_i12(ORI, 4, 5, 0xfff), 0, 0xfff);

    word(with_i20(LU32I_D, 4, 0x80000));
    word(with_i20(LU32I_D, 4, 0));
    expect("lu32i.d takes the upper half away", 0, 0, 2, 7);
    word(with_i20(LU12I_W, 0, 0x80000));
    word(with_i12(ADDI_D, 4, 0, 1));
    expect("a write to the first register is lost", 0, 0, 2, 1);
    word(with_i12(ORI, 4, 5, 0xff8));
    word(with_i20(PCALAU12I, 4, 1));
    expect("the PC of the second word", 0x1ffc, 0, 2, 0x3000);
    word(with_i12(ORI, 4, 5, 0xff8));
    word(with_i12(0x0a, 4, 4, 0)); /* addi.w */
    word(with_i20(LU12I_W, 4, 1));
    expect("none of the six", 0, 19, 1, 0xfff);
    for (size_t torn = 1; torn < 4; torn++) {
        word(with_i12(ORI, 4, 5, 0xff8));
        word(with_i20(LU12I_W, 4, 1));
        run_len -= 4 - torn;
        expect("a last piece", 0, 19, 1, 0xfff);
    }

    for (int more = -1; more < 5; more++) {
        while (run_len < ROFTELUVI_RUN_BYTES_MAX)
            word(with_i12(ADDI_D, 4, 4, 1));
        word(with_i12(ADDI_D, 4, 4, 1));
        run_len = (size_t)(ROFTELUVI_RUN_BYTES_MAX + more);
        if (more < 0)
            expect("4,095 words and a piece", 0, 19, 4095, 7 + 4095);
        else if (more == 0)
            expect("4,096 words", 0, 0, 4096, 7 + 4096);
        else
            expect("more than 4,096 words", 0, 1, 0, 7);
    }
}

/* ---- The ends of every field ---- */

static const uint64_t ends[] = {0, 1, 0x7ff, 0x800, 0xfff, 0x1000, 0x7fffffff, 0x80000000, 0xffffffff, 0x100000000, 0x7ffffffffffff,
                                0x8000000000000, 0xfffffffffffff, 0x10000000000000, 0x7fffffffffffffff, 0x8000000000000000,
                                0xfffffffffffff000, 0xffffffffffffffff};
enum { ENDS = sizeof ends / sizeof *ends };

static uint64_t an_end(void) { return random_below(2) == 0 ? ends[random_below(ENDS)] : random_next(); }

static void some_registers(void) {
    for (size_t k = 0; k < ROFTELUVI_REGISTERS; k++)
        registers[k] = an_end();
}

static void alone(uint32_t w, uint64_t start) {
    run_len = 0;
    word(w);
    some_registers();
    compare_run(run, run_len, start, registers);
}

static void systematic(void) {
    static const uint32_t registers_named[] = {0, 1, 4, 31};
    for (size_t rd = 0; rd < 4; rd++)
        for (size_t rj = 0; rj < 4; rj++)
            for (size_t end = 0; end < ENDS; end++)
                for (int bit = -1; bit < 20; bit++) {
                    uint32_t d = registers_named[rd], j = registers_named[rj], i = bit < 0 ? 0 : (uint32_t)1 << bit;
                    static const uint32_t long_opcode[] = {LU52I_D, ADDI_D, ORI}, short_opcode[] = {LU12I_W, LU32I_D, PCALAU12I};
                    for (size_t which = 0; which < 3; which++) {
                        if (rj == 0)
                            alone(with_i20(short_opcode[which], d, i ^ (bit % 2 == 0 ? 0xfffff : 0)), ends[end]);
                        if (bit < 12)
                            alone(with_i12(long_opcode[which], d, j, i ^ (bit % 2 == 0 ? 0xfff : 0)), ends[end]);
                    }
                }
    /* every opcode, by its ten bits */
    for (uint32_t opcode = 0; opcode < 1024; opcode++)
        alone(with_i12(opcode, 4, 5, 0x801), 0x1000);
}

void runs_not_left_to_chance(void) {
    fixed();
    systematic();
}

/* ---- Random runs ---- */

static uint32_t random_word(void) {
    uint32_t rd = (uint32_t)random_below(32), rj = random_below(2) == 0 ? rd : (uint32_t)random_below(32);
    uint32_t immediate = (uint32_t)random_next() & 0xfffff;
    switch (random_below(6)) {
    case 0: return with_i20(LU12I_W, rd, immediate);
    case 1: return with_i20(LU32I_D, rd, immediate);
    case 2: return with_i20(PCALAU12I, rd, immediate);
    case 3: return with_i12(LU52I_D, rd, rj, immediate & 0xfff);
    case 4: return with_i12(ADDI_D, rd, rj, immediate & 0xfff);
    default: return with_i12(ORI, rd, rj, immediate & 0xfff);
    }
}

/* Mostly short, with a bit of an opcode turned over here and there; some as long as can be, and then with none, so that all is run. */
void runs_random(void) {
    int whole = random_below(500) == 0;
    size_t words = whole ? ROFTELUVI_RUN_WORDS_MAX - random_below(2) : random_below(30);
    run_len = 0;
    for (size_t i = 0; i < words; i++)
        word(random_word() ^ (!whole && random_below(60) == 0 ? (uint32_t)1 << (22 + random_below(10)) : 0));
    if (random_below(8) == 0) {
        word(random_word());
        run_len -= 1 + random_below(3);
    }
    some_registers();
    compare_run(run, run_len, an_end(), registers);
}

/* ---- Patched, then run ---- */

static struct draft d, before;

/* A word with this opcode, whatever its immediate holds before. */
static void unpatched(uint32_t w, uint32_t immediate) { draft_word(&d, w | ((uint32_t)random_next() & immediate)); }

/* A record of the sequence, and before it perhaps one that puts another target into the same word. */
static void patch(uint64_t offset, uint32_t type, uint64_t addend) {
    if (random_below(3) == 0)
        draft_record(&d, offset, type, random_below(2) == 0, random_next());
    draft_record(&d, offset, type, 1, addend);
}

/* Makes the call and runs what it left, on registers that hold anything: answers what register k then holds. */
static uint64_t points(uint32_t k) {
    uint64_t held[ROFTELUVI_REGISTERS];
    before = d;
    if (compare_patch(&d).number != ROFTELUVI_ACCEPTED)
        compare_fail(&before, "a sequence is refused");
    some_registers();
    memcpy(held, registers, sizeof held);
    rofteluvi_ran ran = compare_run(d.section, d.section_len, d.address, registers);
    if (ran.number != 0 || ran.place != d.section_len / 4)
        compare_fail(&before, "a patched sequence does not run");
    for (size_t i = 0; i < ROFTELUVI_REGISTERS; i++)
        if (i != k && registers[i] != (i == 0 ? 0 : held[i]))
            compare_fail(&before, "a sequence on one register writes to another");
    return registers[k];
}

static void load(uint32_t k, uint64_t target, uint64_t addend) {
    unpatched(with_i20(LU12I_W, k, 0), 0x1ffffe0);
    unpatched(with_i12(ORI, k, k, 0), 0x3ffc00);
    unpatched(with_i20(LU32I_D, k, 0), 0x1ffffe0);
    unpatched(with_i12(LU52I_D, k, k, 0), 0x3ffc00);
    unsigned order[4] = {0, 1, 2, 3}; /* of the records: any */
    for (unsigned i = 3; i > 0; i--) {
        unsigned j = (unsigned)random_below(i + 1), other = order[j];
        order[j] = order[i];
        order[i] = other;
    }
    for (unsigned i = 0; i < 4; i++)
        patch(4 * order[i], 67 + order[i], addend);
    coverage_sequence(LOADED);
    if (points(k) != target)
        compare_fail(&before, "the four instructions do not load S+A");
}

static void pair(uint32_t k, uint64_t target, uint64_t addend) {
    unpatched(with_i20(PCALAU12I, k, 0), 0x1ffffe0);
    unpatched(with_i12(ADDI_D, k, k, 0), 0x3ffc00);
    if (random_below(2) == 0) {
        patch(0, 71, addend);
        patch(4, 72, addend);
    } else {
        patch(4, 72, addend);
        patch(0, 71, addend);
    }
    uint64_t past = points(k) - target;
    int fits = reference_reaches(d.address, target);
    coverage_sequence(fits ? WITHIN_REACH : PAST_REACH);
    if (fits ? past != 0 : past == 0 || past % 0x100000000 != 0)
        compare_fail(&before, "pcalau12i and addi.d do not point where they should");
}

void runs_patched(void) {
    static const uint64_t low[] = {0, 1, 0x7fe, 0x7ff, 0x800, 0x801, 0xfff};
    uint32_t k = 1 + (uint32_t)random_below(31);
    draft_clear(&d);
    d.address = an_end() & ~(uint64_t)3;
    d.gp = random_next();
    /* near and far, and most of them around the ends of the reach: 80000h pages to either side */
    uint64_t page = d.address & ~(uint64_t)0xfff;
    uint64_t reach = random_below(2) == 0 ? 0x80000000 : -(uint64_t)0x80000000;
    uint64_t target = random_below(4) == 0 ? an_end() : page + (random_below(4) == 0 ? 0 : reach) + 0x1000 * random_below(4) - 0x2000;
    target = (target & ~(uint64_t)0xfff) | (random_below(2) == 0 ? low[random_below(7)] : random_next() & 0xfff);
    uint64_t addend = an_end(), value[6] = {0};
    value[0] = target - addend;
    draft_row(&d, ROFTELUVI_HAS_S, value);
    if (random_below(2) == 0)
        load(k, target, addend);
    else
        pair(k, target, addend);
}
