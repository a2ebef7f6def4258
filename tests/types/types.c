/* Prints the numbers and the lines of crates/meaning/proofs/Types.antt: for each type that the paper names a call, and the sixteen bytes
   that the reference leaves. Status 1 if the reference answers otherwise than a line of its kind says, or if another formula than the
   type's would leave the same bytes. */
#include "draft.h"

#include <inttypes.h>
#include <stdio.h>
#include <stdlib.h>
#include <string.h>

/* Numbers without a pattern. PC's low 12 and low 32 bits are above those of the sums, so that a difference of pages, or from PC with its
   low 32 bits cleared, is another than the plain one, by a borrow. Symbol 2 has the borrow reach 64_HI12: its S+A, GP+G and GP+IE have
   PC's bits 51 to 32. Symbol 3 has the low 12 bits of S+A, GP+G, GP+IE and GP+GD at 800h, the first that make the upper part one more. */
static const uint64_t ADDRESS = 0xae9ced66eba95dc4, GP = 0xc5994baa8ef476b6, A = 0xcb79b991ca155339, OLD = 0x97927b2ef35dc563;
static const uint64_t VALUES[3][6] = {
    {0xcae45ea94d4c3245, 0xb492badb56473da9, 0x90b5b8c2943b3476, 0x3d09d0ca63d18b2d, 0x4bb573bc3c92c5db, 0x6e4c422e346d9cde},
    {0x1ca333d4949ecf46, 0xd453a1bb8b8e69de, 0xa4f4bdeef6d4dd3d, 0x4a9ac6a550a67166, 0x2e53a1bb89612c3b, 0x7925b0d1a9133259},
    {0x5fb1d3681be4a4c7, 0xe83c67d50493114a, 0x19d86ef2ab70c593, 0xb7042ca98ef61d35, 0x7af59e8370c4214a, 0x36de481f95abc14a},
};

static struct draft d;

/* ---- Calls ---- */

static void start(void) {
    draft_clear(&d);
    d.address = ADDRESS;
    d.gp = GP;
    d.section_len = 16;
    put_number(d.section, OLD, 8);
    put_number(d.section + 8, ~OLD, 8);
    for (unsigned i = 0; i < 3; i++)
        draft_row(&d, 63, VALUES[i]);
}

/* A record with no use for a symbol or an addend. */
static void plain(uint64_t offset, uint32_t type) {
    draft_record(&d, offset, type, UINT32_MAX, 1);
}

/* One with no use for an offset either. */
static void bare(uint32_t type) {
    plain(UINT64_MAX, type);
}

/* A push may name any offset. */
static void push(uint64_t x) {
    draft_record(&d, UINT64_MAX, 23, 0, x);
}

/* The entry on top, duplicated: its high half to the second word at the place, its low half to the first. */
static void see(uint64_t place) {
    bare(24);
    push(32);
    bare(34);
    push(UINT32_MAX);
    bare(36);
    plain(place + 4, 46);
    push(UINT32_MAX);
    bare(36);
    plain(place, 46);
}

/* Has the reference patch. Its answer must be this number, at the first record and with its offset if it is a refusal. */
static void patch(uint32_t type, uint32_t number) {
    struct call call = draft_call(&d);
    rofteluvi_answer answer = reference_patch(&call);
    if (answer.number != number || answer.place != (number == 0 ? d.records_len / ROFTELUVI_RECORD_BYTES : 0) ||
        answer.offset != (number == 0 ? 0 : reference_record(d.records, 0).offset)) {
        fprintf(stderr, "types: type %" PRIu32 ": number %" PRIu32 ", place %" PRIu32 ", offset %" PRIx64 "\n", type,
                answer.number, answer.place, answer.offset);
        exit(1);
    }
}

/* ---- That the numbers tell ---- */

/* One of 90 formulas: a value alone, with the addend or with GP; this whole, less PC, by pages, by pages without the 800h, or far. */
static uint64_t formula(unsigned i, uint32_t symbol, uint64_t addend, uint64_t pc) {
    uint64_t value = VALUES[symbol - 1][i % 6];
    uint64_t x = i / 6 % 3 == 0 ? value : i / 6 % 3 == 1 ? value + addend : GP + value;
    switch (i / 18) {
    case 0: return x;
    case 1: return x - pc;
    case 2: return (x + 0x800) / 4096 * 4096 - pc / 4096 * 4096;
    case 3: return x / 4096 * 4096 - pc / 4096 * 4096;
    default: return x - pc / 4294967296 * 4294967296;
    }
}

/* The type that leaves of S+A what this one leaves of its formula. */
static uint32_t absolute(uint32_t type) {
    if (type >= 22 && type <= 29)
        return 2;
    if (type >= 67 && type <= 98)
        return type >= 95 ? 67 : 67 + (type - 67) % 4;
    return type == 99 ? 1 : type;
}

/* One formula alone must leave what the draft's section holds. In the low 32 bits far, the last 18, is whole. */
static void tell(uint32_t type, uint32_t symbol, uint64_t addend) {
    uint8_t left[16];
    uint32_t as = absolute(type);
    unsigned formulas = as == 2 || as == 51 || as == 56 || as == 69 || as == 70 ? 90 : 72, found = 0;
    memcpy(left, d.section, 16);
    for (unsigned i = 0; i < formulas; i++) {
        start();
        for (uint64_t place = 0; place <= 8; place += 8)
            draft_record(&d, place, as, 0, formula(i, symbol, addend, ADDRESS + place));
        patch(as, 0);
        found += memcmp(left, d.section, 16) == 0;
    }
    if (found != 1) {
        fprintf(stderr, "types: type %" PRIu32 ": %u formulas leave its bytes\n", type, found);
        exit(1);
    }
}

/* ---- The lines ---- */

static void print_number(uint64_t x) {
    printf(x < 256 ? "%" PRIu64 : "0x%016" PRIx64, x);
}

static void print_list(const uint64_t *x, unsigned n) {
    for (unsigned i = 0; i < n; i++) {
        print_number(x[i]);
        printf(" ∷ ");
    }
    printf("[]");
}

/* Begins a line, and its call. */
static void begin(const char *kind, uint32_t type) {
    printf("    %s %" PRIu32, kind, type);
    start();
}

/* Ends it with what the call leaves. */
static void end(uint32_t type, uint32_t number) {
    patch(type, number);
    for (unsigned half = 0; half < 16; half += 8) {
        printf(" 0x");
        for (unsigned i = 8; i > 0; i--)
            printf("%02x", d.section[half + i - 1]);
    }
    printf(" ∷\n");
}

static void idle(uint32_t type) {
    begin("idle", type);
    bare(type);
    end(type, 0);
}

static void loaders(uint32_t type) {
    begin("loaders", type);
    bare(type);
    end(type, ROFTELUVI_LOADER_TYPE);
}

static void direct(uint32_t type, uint32_t symbol, uint64_t addend) {
    begin("direct", type);
    printf(" %" PRIu32 " ", symbol);
    if (addend == A)
        printf("A");
    else
        print_number(addend);
    for (uint64_t place = 0; place <= 8; place += 8)
        draft_record(&d, place, type, symbol, addend);
    end(type, 0);
    if (type < 64 || type > 66)
        tell(type, symbol, addend);
}

/* S+A-PC is this distance at 0. Any other formula would be out of range. */
static void branch(uint32_t type, int64_t distance) {
    direct(type, 1, (uint64_t)distance + ADDRESS - VALUES[0][0]);
}

static void pushed(uint32_t type) {
    begin("pushed", type);
    printf(" 1 A");
    for (uint64_t place = 0; place <= 8; place += 8) {
        draft_record(&d, place, type, 1, A);
        see(place);
    }
    end(type, 0);
    tell(type, 1, A);
}

static void popped(uint32_t type, int64_t x) {
    begin("popped", type);
    printf(x < 0 ? " (minus %" PRId64 ")" : " %" PRId64, x < 0 ? -x : x);
    for (uint64_t place = 0; place <= 8; place += 8) {
        push((uint64_t)x);
        plain(place, type);
    }
    end(type, 0);
}

/* On n entries, and on n others. */
static void operated(uint32_t type, unsigned n, const uint64_t *one, const uint64_t *other) {
    begin("operated", type);
    for (uint64_t place = 0; place <= 8; place += 8) {
        const uint64_t *entries = place == 0 ? one : other;
        printf(" (");
        print_list(entries, n);
        printf(")");
        for (unsigned i = 0; i < n; i++)
            push(entries[i]);
        bare(type);
        see(place);
    }
    end(type, 0);
}

/* Duplicating is part of seeing. */
static void duplicated(uint32_t type, uint64_t one, uint64_t other) {
    begin("duplicated", type);
    for (uint64_t place = 0; place <= 8; place += 8) {
        uint64_t entry = place == 0 ? one : other;
        printf(" ");
        print_number(entry);
        push(entry);
        see(place);
    }
    end(type, 0);
}

static void asserted(uint32_t type, uint64_t entry) {
    begin("asserted", type);
    printf(" ");
    print_number(entry);
    push(entry);
    bare(type);
    end(type, 0);
}

static void print_named(const char *name, const char *of, const uint64_t *x, unsigned n) {
    printf("abbrev pub %s : %s\n%s = ", name, of, name);
    if (n == 1)
        print_number(*x);
    else
        print_list(x, n);
    printf("\n\n");
}

int main(void) {
    const uint64_t b = 0xd5c1e7362a984f0b, c = 0x2a73b9f0e64d158c, e = 0x5e19c384f2b6d7a1, f = 0x83e4b71d9652cf3a;
    const uint64_t high = 0x6d3a29e400000000;

    printf("\n");
    print_named("address", "ℕ", &ADDRESS, 1);
    print_named("gp", "ℕ", &GP, 1);
    print_named("A", "ℕ", &A, 1);
    print_named("old", "List ℕ", (uint64_t[]){OLD, ~OLD}, 2);
    print_named("symbol1", "List ℕ", VALUES[0], 6);
    print_named("symbol2", "List ℕ", VALUES[1], 6);
    print_named("symbol3", "List ℕ", VALUES[2], 6);

    printf("pub types : List Line\ntypes =\n");
    idle(0);
    direct(1, 1, A);
    direct(2, 1, A);
    for (uint32_t type = 3; type <= 12; type++)
        loaders(type);
    idle(20);
    idle(21);
    pushed(22);
    pushed(23);
    duplicated(24, b, c);
    for (uint32_t type = 25; type <= 29; type++)
        pushed(type);
    asserted(30, high);
    operated(31, 1, (uint64_t[]){high}, (uint64_t[]){0});
    operated(32, 2, (uint64_t[]){b, c}, (uint64_t[]){e, f});
    operated(33, 2, (uint64_t[]){b, 13}, (uint64_t[]){c, 37});
    operated(34, 2, (uint64_t[]){b, 13}, (uint64_t[]){c, 37});
    operated(35, 2, (uint64_t[]){b, c}, (uint64_t[]){e, f});
    operated(36, 2, (uint64_t[]){b, c}, (uint64_t[]){e, f});
    operated(37, 3, (uint64_t[]){high, b, c}, (uint64_t[]){0, b, c});
    popped(38, -13);
    popped(39, 2861);
    popped(40, -1717);
    popped(41, -25306);
    popped(42, -79408);
    popped(43, -413075);
    popped(44, -2460500);
    popped(45, -110440880);
    popped(46, 3550843246);
    for (uint32_t type = 47; type <= 56; type++)
        direct(type, 1, A);
    idle(57);
    idle(58);
    branch(64, -103732);
    branch(65, -3298128);
    branch(66, -79072660);
    for (uint32_t type = 67; type <= 99; type++)
        direct(type, type == 74 || type == 78 || type == 90 ? 2 : reference_takes_upper_part(type) ? 3 : 1, A);
    idle(100);
    printf("    []\n\n");
    return 0;
}
