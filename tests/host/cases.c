#include "cases.h"

#include "compare.h"
#include "generate.h"

#include <inttypes.h>
#include <stdio.h>
#include <string.h>

static struct draft d;      /* the call in the making, and afterwards what it left */
static struct draft before; /* the last fixed call as it was made */

/* ---- Fixed cases ---- */

/* The offset of an answer to the last fixed call: 4 to 15 and 18 give the record's offset field, the others 0. */
static uint64_t offset_of(uint32_t number, uint32_t place) {
    int of_record = (number >= 4 && number <= 15) || number == 18;
    return of_record ? reference_record(before.records, place).offset : 0;
}

/* Makes the call; it must be answered like this. */
static void expect(const char *name, uint32_t number, uint32_t place) {
    before = d;
    uint64_t offset = offset_of(number, place);
    rofteluvi_answer answer = compare_patch(&d);
    if (answer.number != number || answer.place != place || answer.offset != offset) {
        printf("case \"%s\": number %" PRIu32 ", place %" PRIu32 ", offset %" PRIx64 " wanted, both gave %" PRIu32 ", %" PRIu32
               ", %" PRIx64 "\n", name, number, place, offset, answer.number, answer.place, answer.offset);
        compare_fail(&before, name);
    }
    if (number != 0 && memcmp(before.section, d.section, d.section_len) != 0)
        compare_fail(&before, "refused, and the section is not as it came");
}

/* The word at an offset must now be this. */
static void expect_word(const char *name, size_t offset, uint32_t word) {
    uint8_t bytes[4];
    put_number(bytes, word, 4);
    if (memcmp(d.section + offset, bytes, 4) != 0) {
        printf("case \"%s\": word %08" PRIx32 " wanted at %zu, both left", name, word, offset);
        for (size_t i = 0; i < 4; i++)
            printf(" %02x", d.section[offset + i]);
        printf("\n");
        compare_fail(&before, name);
    }
}

/* Begins a call with one word in the section. */
static void start(uint64_t address, uint32_t word) {
    draft_clear(&d);
    d.address = address;
    draft_word(&d, word);
}

/* Begins a call of no section. */
static void start_empty(void) {
    draft_clear(&d);
}

/* A push may name any offset: this one is no other record's. */
static void push(int64_t number) {
    draft_record(&d, 0x7ffffffffffffff7, 23, 0, (uint64_t)number);
}

static void record(uint64_t offset, uint32_t type, uint32_t symbol, uint64_t addend) {
    draft_record(&d, offset, type, symbol, addend);
}

/* A row of S and nothing else. */
static void row_of_s(uint64_t s) {
    uint64_t value[6] = {0, 0, 0, 0, 0, 0};
    value[0] = s;
    draft_row(&d, ROFTELUVI_HAS_S, value);
}

/* Type 64, 65 or 66 with this S+A-PC at address 1000h. */
static void branch(const char *name, uint32_t type, int64_t distance, uint32_t number, uint32_t word) {
    start(0x1000, 0);
    row_of_s(0x1000);
    record(0, type, 1, (uint64_t)distance);
    expect(name, number, number == 0 ? 1 : 0);
    if (number == 0)
        expect_word(name, 0, word);
}

/* One of the types 38 to 46 with this value from the stack. */
static void popped(const char *name, uint32_t type, int64_t value, uint32_t number, uint32_t word) {
    start(0x1000, 0);
    push(value);
    record(0, type, 0, 0);
    expect(name, number, number == 0 ? 2 : 1);
    if (number == 0)
        expect_word(name, 0, word);
}

/* Two pushes, an operation, and the result stored by type 46 (or, where it is negative, negated before). */
static void computed(const char *name, int64_t opr1, int64_t opr2, uint32_t operation, int negate, uint32_t word) {
    start(0x1000, 0);
    if (negate)
        push(0);
    push(opr1);
    push(opr2);
    record(0, operation, 0, 0);
    if (negate)
        record(0, 32, 0, 0);
    record(0, 46, 0, 0);
    expect(name, 0, negate ? 6 : 4);
    expect_word(name, 0, word);
}

/* Types 67 to 70: one S+A, four fields. */
static void absolute(uint32_t type, uint32_t word) {
    start(0x1000, 0);
    row_of_s(0x123456789abcdef0);
    record(0, type, 1, 0);
    expect("S+A = 123456789abcdef0h", 0, 1);
    expect_word("S+A = 123456789abcdef0h", 0, word);
}

/* Type 71 from a PC to a target. */
static void upper_part(const char *name, uint64_t pc, uint64_t target, uint32_t field) {
    start(pc, 0x1a000004);
    row_of_s(target);
    record(0, 71, 1, 0);
    expect(name, 0, 1);
    expect_word(name, 0, 0x1a000004 | field << 5);
}

static void papers_edges(void) {
    start(0x1000, 0x50000000);
    row_of_s(0x1010);
    record(0, 66, 1, 0);
    expect("the example", 0, 1);
    expect_word("the example", 0, 0x50001000);

    start(0x1000, 0x50000000);
    expect("empty list", 0, 0);
    expect_word("empty list", 0, 0x50000000);
    start_empty();
    expect("nothing at all", 0, 0);

    branch("type 64, 131068", 64, 131068, 0, (uint32_t)0x7fff << 10);
    branch("type 64, 131072", 64, 131072, ROFTELUVI_ABOVE_RANGE, 0);
    branch("type 64, -131076", 64, -131076, ROFTELUVI_BELOW_RANGE, 0);
    branch("type 64, 131070", 64, 131070, ROFTELUVI_NOT_MULTIPLE, 0);
    branch("type 64, 131073", 64, 131073, ROFTELUVI_ABOVE_RANGE, 0);
    branch("type 64, -131072", 64, -131072, 0, (uint32_t)0x8000 << 10);

    popped("type 44, -4", 44, -4, 0, 0x03fffc1f);
    popped("type 38, 15", 38, 15, 0, 0x3c00);
    popped("type 38, 16", 38, 16, ROFTELUVI_ABOVE_RANGE, 0);
    popped("type 38, -17", 38, -17, ROFTELUVI_BELOW_RANGE, 0);
    popped("type 38, -16", 38, -16, 0, 0x4000);
    popped("type 39, 4095", 39, 4095, 0, 0x003ffc00);
    popped("type 39, -1", 39, -1, ROFTELUVI_BELOW_RANGE, 0);

    start(0, 0x7fffffff);
    record(0, 49, 0, 1);
    expect("type 49 on ff ff ff", 0, 1);
    expect_word("type 49 on ff ff ff", 0, 0x7f000000);

    computed("-5 shifted right by 1 is -3", -5, 1, 34, 1, 3);
    computed("-1 shifted right by 63 is -1", -1, 63, 34, 1, 1);
    computed("2^62 shifted right by 62 is 1", (int64_t)1 << 62, 62, 34, 0, 1);
    start(0, 0);
    push(1);
    push(63);
    record(0, 33, 0, 0);
    record(0, 30, 0, 0);
    expect("count 63 passes", 0, 4);
    for (uint32_t type = 33; type <= 34; type++) {
        start(0, 0);
        push(1);
        push(64);
        record(0, type, 0, 0);
        expect("count 64", ROFTELUVI_SHIFT_COUNT, 2);
        start(0, 0);
        push(1);
        push(-1);
        record(0, type, 0, 0);
        expect("count -1", ROFTELUVI_SHIFT_COUNT, 2);
    }

    start(0, 0);
    push(0);
    push(7);
    push(9);
    record(0, 37, 0, 0);
    record(0, 46, 0, 0);
    expect("0, 7, 9 then 37", 0, 5);
    expect_word("0, 7, 9 then 37", 0, 9);
    start(0, 0);
    push(-1);
    push(7);
    push(9);
    record(0, 37, 0, 0);
    record(0, 46, 0, 0);
    expect("-1, 7, 9 then 37", 0, 5);
    expect_word("-1, 7, 9 then 37", 0, 7);
    computed("10, 3 then 32", 10, 3, 32, 0, 7);

    upper_part("type 71, 12345678h", 0x12340004, 0x12345678, 5);
    upper_part("type 71, 123457ffh", 0x12340004, 0x123457ff, 5);
    upper_part("type 71, 12345800h", 0x12340004, 0x12345800, 6);
    upper_part("type 71, 2^64-801h", 0, UINT64_MAX - 0x800, 0xfffff);
    upper_part("type 71, 2^64-800h", 0, UINT64_MAX - 0x7ff, 0);

    absolute(67, (uint32_t)0x9abcd << 5);
    absolute(68, (uint32_t)0xef0 << 10);
    absolute(69, (uint32_t)0x45678 << 5);
    absolute(70, (uint32_t)0x123 << 10);

    start(0, 0);
    for (int i = 0; i < 17; i++)
        push(i);
    expect("seventeen pushes", ROFTELUVI_STACK_FULL, 16);
    start(0, 0);
    push(1);
    expect("one push alone", ROFTELUVI_STACK_LEFT, 1);
    start(0, 0);
    push(1);
    d.records_len = 23;
    expect("23 record bytes", ROFTELUVI_NOT_WHOLE, 1);
}

/* Both ends of each accepted range, and what is next to them outside. */
static void range_edges(void) {
    static const struct { uint32_t type; int64_t low, high; } ranges[] = {
        {38, -16, 15}, {39, 0, 4095}, {40, -2048, 2047}, {41, -32768, 32767}, {42, -131072, 131068},
        {43, -524288, 524287}, {44, -4194304, 4194300}, {45, -134217728, 134217724}, {46, 0, 4294967295},
    };
    for (size_t i = 0; i < sizeof ranges / sizeof *ranges; i++) {
        uint32_t type = ranges[i].type;
        int fours = type == 42 || type == 44 || type == 45;
        int64_t step = fours ? 4 : 1;
        for (int direct = 0; direct <= fours; direct++) {
            uint32_t used = direct ? (type == 42 ? 64 : type == 44 ? 65 : 66) : type;
            for (int side = 0; side < 4; side++) {
                int64_t value = side == 0 ? ranges[i].low - step : side == 1 ? ranges[i].low
                              : side == 2 ? ranges[i].high : ranges[i].high + step;
                start(0x1000, 0xffffffff);
                if (direct)
                    record(0, used, 0, (uint64_t)value + 0x1000);
                else
                    push(value);
                if (!direct)
                    record(0, used, 0, 0);
                uint32_t place = direct ? 0 : 1;
                if (side == 1 || side == 2)
                    expect("the end of a range", 0, place + 1);
                else
                    expect("just outside a range", side == 0 ? ROFTELUVI_BELOW_RANGE : ROFTELUVI_ABOVE_RANGE, place);
                if (side == 1 || side == 2) {
                    rofteluvi_immediate back = compare_read_back(&d, 0, used);
                    if (back.number != 0 || back.value != value)
                        compare_fail(&d, "the end of a range is not read back");
                }
            }
        }
    }
}

/* Section, record and value bytes at the limits, and which fault goes first. */
static void limit_edges(void) {
    static const uint64_t zero[6] = {0, 0, 0, 0, 0, 0};
    for (int section_over = 0; section_over < 2; section_over++)
        for (int records_over = 0; records_over < 2; records_over++)
            for (int values_over = 0; values_over < 2; values_over++) {
                draft_clear(&d);
                d.section_len = 65536 + (size_t)section_over;
                memset(d.section, 0x5a, d.section_len);
                while (d.records_len < 49152 + 24 * (size_t)records_over)
                    record(random_next(), 100, (uint32_t)random_next(), random_next());
                while (d.values_len < 57344 + 56 * (size_t)values_over)
                    draft_row(&d, 0, zero);
                if (section_over)
                    expect("65,537 section bytes", ROFTELUVI_TOO_LONG, 0);
                else if (records_over)
                    expect("49,176 record bytes", ROFTELUVI_TOO_LONG, 1);
                else if (values_over)
                    expect("57,400 value bytes", ROFTELUVI_TOO_LONG, 2);
                else
                    expect("all three at their limits", 0, 2048);
            }
    for (size_t cut = 1; cut < 24; cut++) { /* not whole, and past the values' limit: 1 before 2 */
        start(0, 0);
        record(0, 100, 0, 0);
        d.records_len = cut;
        expect("records not whole", ROFTELUVI_NOT_WHOLE, 1);
        memset(d.values, 0, 57345);
        d.values_len = 57345;
        expect("records not whole, values too long", ROFTELUVI_TOO_LONG, 2);
        d.values_len = 57343;
        expect("neither whole", ROFTELUVI_NOT_WHOLE, 1);
    }
    for (size_t cut = 1; cut < 56; cut++) {
        start(0, 0);
        draft_row(&d, 64, zero);
        d.values_len = cut;
        expect("values not whole: 2 before 3", ROFTELUVI_NOT_WHOLE, 2);
        draft_row(&d, 64, zero);
        expect("values not whole", ROFTELUVI_NOT_WHOLE, 2);
    }
    for (size_t row = 0; row < 1024; row += 341) { /* 0, 341, 682, 1023; later rows are at fault too */
        start(0, 0);
        while (d.values_len < 57344)
            draft_row(&d, d.values_len / 56 >= row ? (uint64_t)1 << (6 + row % 58) : 63, zero);
        record(0, 3, 0, 0);
        expect("a mask above 63", ROFTELUVI_BAD_MASK, (uint32_t)row);
    }
    start(0, 0);
    while (d.records_len < 49152 - 24)
        record(0, 100, 0, 0);
    push(5);
    expect("an entry left after 2,048 records", ROFTELUVI_STACK_LEFT, 2048);

    /* A full list on a full section with full rows, of which the last record counts as much as the first. */
    draft_clear(&d);
    d.section_len = 65536;
    memset(d.section, 0, 65536);
    while (d.values_len < 57344)
        draft_row(&d, ROFTELUVI_HAS_S, (const uint64_t[6]){d.values_len / 56 + 1, 0, 0, 0, 0, 0});
    for (uint32_t i = 0; i < 2048; i++)
        record(32 * i + 31, 47, 1 + i % 1024, 3);
    expect("2,048 sums", 0, 2048);
    expect_word("2,048 sums: the first", 28, (uint32_t)4 << 24);
    expect_word("2,048 sums: the last", 65532, (uint32_t)((1024 + 3) % 256) << 24);
    d.records_len -= 24;
    record(65535, 47, 1025, 0);
    expect("symbol 1025", ROFTELUVI_NO_SUCH_SYMBOL, 2047);
}

/* Things that are easy to get wrong. */
static void other_edges(void) {
    /* Nothing but the type of an idle record is looked at. */
    static const uint32_t idle[] = {0, 20, 21, 57, 58, 100};
    start(1, 0x12345678);
    for (size_t i = 0; i < 6; i++)
        record(UINT64_MAX - i, idle[i], 0xffffffff, UINT64_MAX);
    expect("idle records", 0, 6);
    expect_word("idle records", 0, 0x12345678);

    /* A push may name any offset; an operation looks at no symbol. */
    start_empty();
    record(UINT64_MAX, 22, 0, 0);
    record(UINT64_MAX, 31, 0xffffffff, 9);
    record(UINT64_MAX, 31, 0xffffffff, 9);
    record(UINT64_MAX, 30, 0xffffffff, 9);
    expect("a push at an offset outside", 0, 4);

    /* A refusal after records that would have stored. */
    start(0, 0x11111111);
    record(0, 1, 0, 0x22222222);
    record(0, 3, 0, 0);
    expect("refused at the second record", ROFTELUVI_LOADER_TYPE, 1);

    /* Offset and width are whole numbers: no wrapping round to the section's start. */
    start(4, 0);
    record(UINT64_MAX - 3, 1, 0, 0);
    expect("offset 2^64-4", ROFTELUVI_OUTSIDE, 0);
    start(4, 0);
    record(UINT64_MAX - 3, 67, 0, 0);
    expect("offset 2^64-4, a word", ROFTELUVI_OUTSIDE, 0);
    start_empty();
    record(0, 47, 0, 0);
    expect("one byte in an empty section", ROFTELUVI_OUTSIDE, 0);

    /* A word type counts as writing four bytes. */
    start(0, 0);
    d.section_len = 3;
    record(0, 68, 0, 0);
    expect("three bytes of a word", ROFTELUVI_OUTSIDE, 0);

    /* PC decides the alignment, not the offset. */
    start(3, 0);
    draft_word(&d, 0);
    record(1, 68, 0, 0xabc);
    expect("PC 4 at offset 1", 0, 1);
    expect_word("PC 4 at offset 1", 1, (uint32_t)0xabc << 10);
    start(3, 0);
    draft_word(&d, 0);
    record(4, 68, 0, 0xabc);
    expect("PC 7 at offset 4", ROFTELUVI_UNALIGNED, 0);

    /* PC passes 2^64. */
    start(UINT64_MAX - 3, 0);
    draft_word(&d, 0);
    record(4, 64, 0, 8);
    expect("PC 0 past 2^64", 0, 1);
    expect_word("PC 0 past 2^64", 4, (uint32_t)2 << 10);

    /* Symbol 0 has S, 0, and nothing else; a present value may be 0; an absent one is not looked at. */
    start(0, 0);
    record(0, 75, 0, 0);
    expect("G of symbol 0", ROFTELUVI_VALUE_ABSENT, 0);
    start(0, 0xffffffff);
    draft_row(&d, ROFTELUVI_HAS_G, (const uint64_t[6]){99, 0, 99, 99, 99, 99});
    d.gp = 0x5000;
    record(0, 79, 1, 0x7fffffff); /* the addend does not count here */
    expect("G present and 0", 0, 1);
    expect_word("G present and 0", 0, 0xfe0000bf);
    start(0, 0);
    draft_row(&d, 62, (const uint64_t[6]){99, 0, 99, 99, 99, 99});
    record(0, 67, 1, 0);
    expect("S absent", ROFTELUVI_VALUE_ABSENT, 0);
    start(0, 0);
    draft_row(&d, 63, (const uint64_t[6]){99, 0, 99, 99, 99, 99});
    record(0, 67, 2, 0);
    expect("symbol past the rows", ROFTELUVI_NO_SUCH_SYMBOL, 0);

    /* 96 and 98 use IE, as the table prints it; 95 and 97 use GD. */
    for (uint32_t type = 95; type <= 98; type++)
        for (int has_ie = 0; has_ie < 2; has_ie++) {
            int uses_ie = type % 2 == 0;
            start(0, 0);
            draft_row(&d, has_ie ? ROFTELUVI_HAS_IE : ROFTELUVI_HAS_GD, (const uint64_t[6]){0, 0, 0, 0, 0x3000, 0x5000});
            record(0, type, 1, 0);
            if (has_ie == uses_ie)
                expect("95 to 98", 0, 1);
            else
                expect("95 to 98 without their value", ROFTELUVI_VALUE_ABSENT, 0);
            if (has_ie == uses_ie)
                expect_word("95 to 98", 0, uses_ie ? 3 << 5 : 5 << 5);
        }

    /* 24 on an empty stack, and on a full one. */
    start_empty();
    record(0, 24, 0, 0);
    expect("24 on an empty stack", ROFTELUVI_STACK_EMPTY, 0);
    start_empty();
    push(1);
    for (int i = 0; i < 16; i++)
        record(0, 24, 0, 0);
    expect("24 on a full stack", ROFTELUVI_STACK_FULL, 16);

    /* A direct type leaves the stack as it is. */
    start(0, 0);
    push(7);
    record(0, 67, 0, 0x1000);
    record(0, 38, 0, 0);
    expect("a direct type between", 0, 3);
    expect_word("a direct type between", 0, (uint32_t)7 << 10 | 1 << 5);

    /* Each record reads what the earlier ones left. */
    start(0, 0xffffffff);
    draft_word(&d, 0);
    record(1, 50, 0, 1);
    record(0, 47, 0, 1);
    record(3, 56, 0, 1);
    d.section_len = 11;
    memset(d.section + 8, 0, 3);
    expect("overlapping sums", 0, 3);
    expect_word("overlapping sums", 0, 0xff000000);
    expect_word("overlapping sums", 4, 0x00000000);
}

void cases_fixed(void) {
    papers_edges();
    range_edges();
    limit_edges();
    other_edges();
}

/* ---- Systematic cases ---- */

/* Every type with each kind of symbol, offset, stack depth and top of the stack. */
static void every_combination(void) {
    static const int64_t tops[] = {0, 1, 3, 64, -4, -131073, (int64_t)1 << 40};
    static const unsigned depths[] = {0, 1, 2, 3, 15, 16};
    static const uint64_t filled[6] = {0x1018, 0x2128, 0x3230, 0x4340, 0x5450, 0x6560};
    struct stack stack;
    for (uint32_t type = 0; type < 110; type++)
        for (unsigned symbol = 0; symbol < 4; symbol++)
            for (unsigned where = 0; where < 6; where++)
                for (unsigned depth = 0; depth < 6; depth++)
                    for (unsigned top = 0; top < 7; top++) {
                        if (depth == 0 && top > 0)
                            continue;
                        draft_clear(&d);
                        d.address = 0x1000 + where % 2;
                        d.gp = 0x80000;
                        for (int i = 0; i < 5; i++)
                            draft_word(&d, (uint32_t)random_next());
                        draft_row(&d, 63, filled);
                        draft_row(&d, random_below(64), filled);
                        stack.depth = 0;
                        while (stack.depth < depths[depth])
                            generate_try(&d, &stack, 0, 23, 0,
                                         stack.depth + 1 == depths[depth] ? (uint64_t)tops[top] : random_below(9));
                        static const uint64_t offsets[] = {8, 7, 13, 18, 20, UINT64_MAX - 2};
                        uint32_t fault = generate_try(&d, &stack, offsets[where], type, symbol, (uint64_t)tops[top]);
                        if (fault == 0)
                            generate_drain(&d, &stack);
                        else
                            draft_record(&d, offsets[where], type, symbol, (uint64_t)tops[top]);
                        compare_patch(&d);
                    }
}

/* Each checked type, with numbers around each power of two, on words of all zeros, all ones, and any. */
static void around_powers(void) {
    for (uint32_t type = 38; type <= 66; type++) {
        if (type > 46 && type < 64)
            continue;
        for (unsigned power = 0; power < 64; power++)
            for (int minus = 0; minus < 2; minus++)
                for (uint64_t near = 0; near < 11; near++) {
                    uint64_t x = (minus ? 0 - ((uint64_t)1 << power) : (uint64_t)1 << power) + near - 5;
                    start(random_next() & ~(uint64_t)3, near % 3 == 0 ? 0 : near % 3 == 1 ? 0xffffffff : (uint32_t)random_next());
                    if (type < 64) {
                        push((int64_t)x);
                        record(0, type, 0, 0);
                    } else {
                        record(0, type, 0, x + d.address);
                    }
                    rofteluvi_answer answer = compare_patch(&d);
                    if (answer.number == 0 && compare_read_back(&d, 0, type).value != (int64_t)x)
                        compare_fail(&d, "an accepted immediate is not read back");
                }
    }
}

/* Each type that computes a sum: one bit at a time in what it uses, its addend, the address and GP. */
static void single_bits(void) {
    for (uint32_t type = 1; type < 100; type++)
        for (unsigned bit = 0; bit < 64; bit++)
            for (unsigned input = 0; input < 8; input++) {
                uint64_t one = (uint64_t)1 << bit, value[6], base = input < 4 ? 0 : random_next();
                struct stack stack;
                draft_clear(&d);
                for (int i = 0; i < 6; i++)
                    value[i] = input % 4 == 0 ? base ^ one : base + (uint64_t)i;
                d.address = input % 4 == 1 ? one : 0x40000000;
                d.gp = input % 4 == 2 ? one : base;
                for (int i = 0; i < 4; i++)
                    draft_word(&d, i % 2 == 0 ? 0 : 0xffffffff);
                draft_row(&d, 63, value);
                stack.depth = 0;
                uint64_t addend = input % 4 == 3 ? one : 0;
                if (generate_try(&d, &stack, 4, type, 1, addend) == 0) {
                    if (stack.depth > 0) { /* a push: all 64 bits of it are seen in two words */
                        generate_try(&d, &stack, 0, 24, 0, 0);
                        generate_try(&d, &stack, 0, 23, 0, 0xffffffff);
                        generate_try(&d, &stack, 0, 36, 0, 0);
                        generate_try(&d, &stack, d.address % 4 == 0 ? 0 : 4 - d.address % 4, 46, 0, 0);
                        generate_try(&d, &stack, 0, 23, 0, 32);
                        generate_try(&d, &stack, 0, 34, 0, 0);
                        generate_try(&d, &stack, 0, 23, 0, 0xffffffff);
                        generate_try(&d, &stack, 0, 36, 0, 0);
                        generate_try(&d, &stack, d.address % 4 == 0 ? 8 : 12 - d.address % 4, 46, 0, 0);
                    }
                } else {
                    draft_record(&d, 4, type, 1, addend);
                }
                compare_patch(&d);
            }
}

/* Where pcalau12i at a PC and addi.d after it lead, by the two words at the start of the section. */
static uint64_t pair_leads(uint64_t pc) {
    uint64_t upper = d.section[0] >> 5 | (uint64_t)d.section[1] << 3 | (uint64_t)d.section[2] << 11 | (uint64_t)(d.section[3] & 1) << 19;
    uint64_t low = d.section[5] >> 2 | (uint64_t)(d.section[6] & 0x3f) << 6;
    pc = (pc & ~(uint64_t)0xfff) + (upper << 12) - (upper >> 19 << 32);
    return pc + low - (low >> 11 << 12);
}

/* A pair at a PC with a target: its type in the one word, LO12 of the target in the other. */
static void pair(uint32_t type, uint64_t pc, uint64_t gp, uint64_t target) {
    uint64_t value[6];
    start(pc, 0x1a000004);
    draft_word(&d, 0x02c00084);
    d.gp = gp;
    for (int i = 0; i < 6; i++)
        value[i] = type == 71 ? target : target - gp;
    draft_row(&d, 63, value);
    record(0, type, 1, 0);
    record(4, 72, 0, target);
    expect("a pair", 0, 2);
    uint64_t past = pair_leads(pc) - target;
    if (reference_reaches(pc, target) ? past != 0 : past == 0 || past % 0x100000000 != 0)
        compare_fail(&before, "a pair does not lead where it should");
}

/* The types that take a target's upper part: a pair lands on its target where the way fits 32 bits, and else a multiple of 2^32 off. */
static void pairs(void) {
    static const uint64_t lows[] = {0, 1, 0x7fe, 0x7ff, 0x800, 0x801, 0xffe, 0xfff};
    static const int64_t pages[] = {-0x80002, -0x80001, -0x80000, -1, 0, 1, 0x7fffe, 0x7ffff, 0x80000};
    for (uint32_t type = 0; type < 101; type++)
        for (size_t l = 0; l < sizeof lows / sizeof *lows && reference_takes_upper_part(type); l++)
            for (size_t p = 0; p < sizeof pages / sizeof *pages; p++)
                for (int at = 0; at < 4; at++) {
                    uint64_t pc = at == 0 ? 0 : at == 1 ? 0xfffffffffffffffc : random_next() & ~(uint64_t)3;
                    pair(type, pc, at == 2 ? 0 : random_next(), (pc & ~(uint64_t)0xfff) + (uint64_t)pages[p] * 4096 + lows[l]);
                }
}

/* Each operation of the stack on numbers at the ends of their range, with all 64 bits of the result seen. */
static void operations(void) {
    static const uint64_t numbers[] = {0, 1, 2, 5, 62, 63, 64, 65, 0x7fffffff, 0x80000000, 0xffffffff, 0x100000000,
        0x7fffffffffffffff, 0x8000000000000000, 0x8000000000000001, UINT64_MAX - 4, UINT64_MAX - 1, UINT64_MAX, 0x0123456789abcdef};
    enum { COUNT = sizeof numbers / sizeof *numbers };
    struct stack stack;
    for (uint32_t type = 30; type <= 37; type++)
        for (unsigned i = 0; i < COUNT; i++)
            for (unsigned j = 0; j < COUNT; j++)
                for (unsigned k = 0; k < (type == 37 ? COUNT : 1); k++) {
                    start(0, 0);
                    draft_word(&d, 0);
                    stack.depth = 0;
                    if (type == 37)
                        generate_try(&d, &stack, 0, 23, 0, numbers[k]);
                    generate_try(&d, &stack, 0, 23, 0, numbers[i]);
                    generate_try(&d, &stack, 0, 23, 0, numbers[j]);
                    if (generate_try(&d, &stack, 0, type, 0, 0) != 0)
                        draft_record(&d, 0, type, 0, 0);
                    else {
                        generate_try(&d, &stack, 0, 24, 0, 0);
                        generate_try(&d, &stack, 0, 23, 0, 0xffffffff);
                        generate_try(&d, &stack, 0, 36, 0, 0);
                        generate_try(&d, &stack, 0, 46, 0, 0);
                        generate_try(&d, &stack, 0, 23, 0, 32);
                        generate_try(&d, &stack, 0, 34, 0, 0);
                        generate_try(&d, &stack, 0, 23, 0, 0xffffffff);
                        generate_try(&d, &stack, 0, 36, 0, 0);
                        generate_try(&d, &stack, 4, 46, 0, 0);
                        generate_drain(&d, &stack);
                    }
                    compare_patch(&d);
                }
}

/* Every shift count, and every number of bytes added with a carry into all of them. */
static void shifts_and_carries(void) {
    struct stack stack;
    for (int64_t count = -70; count <= 140; count++)
        for (uint32_t type = 33; type <= 34; type++)
            for (int i = 0; i < 4; i++) {
                start(0, 0);
                draft_word(&d, 0);
                stack.depth = 0;
                generate_try(&d, &stack, 0, 23, 0, i == 0 ? 1 : i == 1 ? UINT64_MAX : random_next());
                generate_try(&d, &stack, 0, 23, 0, (uint64_t)count);
                if (generate_try(&d, &stack, 0, type, 0, 0) != 0)
                    draft_record(&d, 0, type, 0, 0);
                else
                    generate_drain(&d, &stack);
                compare_patch(&d);
            }
    for (uint32_t type = 47; type <= 56; type++)
        for (size_t offset = 0; offset <= 8; offset++)
            for (int i = 0; i < 6; i++) {
                draft_clear(&d);
                for (int word = 0; word < 4; word++)
                    draft_word(&d, i % 3 == 0 ? 0xffffffff : i % 3 == 1 ? 0 : (uint32_t)random_next());
                record(offset, type, 0, i < 3 ? 1 : random_next());
                compare_patch(&d);
            }
}

/* Each refusal of a record at the first place that it can have, and at place 2047, the last of a full list. */
static void first_and_last_places(void) {
    static const uint64_t filled[6] = {0x1018, 0x2128, 0x3230, 0x4340, 0x5450, 0x6560};
    static struct draft tail;
    struct stack stack;
    for (unsigned fault = 0; fault < RECORD_FAULTS; fault++)
        for (int i = 0; i < 120; i++) {
            draft_clear(&tail);
            tail.address = 0x1000;
            tail.section_len = 40;
            memset(tail.section, i, 40);
            draft_row(&tail, 63, filled);
            draft_row(&tail, random_below(64), filled);
            draft_row(&tail, 0, filled);
            stack.depth = 0;
            generate_fault(&tail, &stack, record_fault[fault]);
            d = tail;
            compare_patch(&d);
            d = tail;
            d.records_len = 0;
            while (d.records_len + tail.records_len < ROFTELUVI_RECORD_BYTES_MAX)
                record(i % 40, i % 2 == 0 ? 100 : 47, 0, 1);
            memcpy(d.records + d.records_len, tail.records, tail.records_len);
            d.records_len += tail.records_len;
            compare_patch(&d);
        }
}

void cases_systematic(void) {
    every_combination();
    around_powers();
    single_bits();
    pairs();
    operations();
    shifts_and_carries();
    first_and_last_places();
}

/* ---- Read back ---- */

void cases_read_back(void) {
    static const uint64_t far[] = {65532, 65536, 0x100000000, 0x7fffffffffffffff, 0x8000000000000000,
        UINT64_MAX - 7, UINT64_MAX - 4, UINT64_MAX - 3, UINT64_MAX - 2, UINT64_MAX - 1, UINT64_MAX};
    for (uint32_t i = 0; i < 130 + UNNAMED_TYPES; i++) {
        uint32_t type = i < 130 ? i : unnamed_type(i - 130);
        for (size_t len = 0; len <= 12; len++)
            for (uint64_t past = 0; past < 4; past++) {
                draft_clear(&d);
                d.address = (len % 2 == 0 ? 0x1000 : UINT64_MAX - 7) + past;
                for (int word = 0; word < 3; word++)
                    draft_word(&d, (uint32_t)random_next());
                d.section_len = len;
                for (uint64_t offset = 0; offset < len + 3; offset++)
                    compare_read_back(&d, offset, type);
                for (size_t n = 0; n < sizeof far / sizeof *far; n++)
                    if (len % 4 == 0)
                        compare_read_back(&d, far[n], type);
            }
        start(0, 0);
        for (unsigned bit = 0; bit < 32; bit++) { /* one bit set, and all but one */
            put_number(d.section, (uint32_t)1 << bit, 4);
            compare_read_back(&d, 0, type);
            put_number(d.section, ~((uint32_t)1 << bit), 4);
            compare_read_back(&d, 0, type);
        }
        for (size_t n = 0; n < 50; n++) {
            put_number(d.section, random_next(), 4);
            compare_read_back(&d, 0, type);
        }
        draft_clear(&d);
        d.section_len = 65536;
        memset(d.section, 0x3c, 65540);
        compare_read_back(&d, 65532, type);
        compare_read_back(&d, 65533, type);
        d.section_len = 65537;
        compare_read_back(&d, 0, type);
        compare_read_back(&d, UINT64_MAX, type);
    }
}
