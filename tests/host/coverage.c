#include "coverage.h"

#include <inttypes.h>
#include <stdio.h>

enum { TYPES = 102, HIGHER = 101 }; /* types 101 and up share a row */
enum { NUMBERS = 19, BAD_FRAME = 17 }; /* 17 is the program's alone */

static uint64_t patch_calls, accepted_calls, accepted_records, longest_accepted, read_back_calls;
static uint64_t numbers[NUMBERS];             /* calls by number */
static uint64_t by_type[TYPES][NUMBERS];      /* records of accepted calls (number 0), refused records (4 to 15, 18) */
static uint64_t back_by_type[TYPES][NUMBERS]; /* calls of read back */
static uint64_t at_place[NUMBERS][2049];      /* calls by number and place */
static uint64_t at_half_a_page[TYPES][2];     /* records of accepted calls whose target's low 12 bits are 7ffh, 800h */

enum { INSTRUCTIONS = 6 };
static uint64_t run_calls, longest_runs, too_long_by_a_word, too_long_by_a_byte;
static uint64_t by_instruction[INSTRUCTIONS][ROFTELUVI_REGISTERS]; /* words that were run, by kind and rd */
static uint64_t stopped_after[5];                                   /* runs that 19 ended: by the bytes that were left, 4 for a word */

static uint64_t sequences[SEQUENCES];

static unsigned row_of(uint32_t type) {
    return type < HIGHER ? type : HIGHER;
}

static void coverage_target(const struct call *call, const struct record *r) {
    uint64_t low = reference_target(call, r) & 0xfff;
    if (low == 0x7ff || low == 0x800)
        at_half_a_page[r->type][low - 0x7ff]++;
}

void coverage_patch(const struct call *call, rofteluvi_answer answer) {
    patch_calls++;
    if (answer.number >= NUMBERS)
        return;
    numbers[answer.number]++;
    if (answer.place <= 2048)
        at_place[answer.number][answer.place]++;
    size_t records = call->records_len / ROFTELUVI_RECORD_BYTES;
    if (answer.number == ROFTELUVI_ACCEPTED) {
        accepted_calls++;
        accepted_records += records;
        if (records > longest_accepted)
            longest_accepted = records;
        for (size_t i = 0; i < records; i++) {
            struct record r = reference_record(call->records, i);
            by_type[row_of(r.type)][0]++;
            if (reference_takes_upper_part(r.type))
                coverage_target(call, &r);
        }
    } else if (answer.number >= ROFTELUVI_UNKNOWN_TYPE && answer.number != ROFTELUVI_STACK_LEFT && answer.place < records) {
        by_type[row_of(reference_record(call->records, answer.place).type)][answer.number]++;
    }
}

void coverage_read_back(uint32_t type, rofteluvi_immediate answer) {
    read_back_calls++;
    if (answer.number < NUMBERS)
        back_by_type[row_of(type)][answer.number]++;
}

void coverage_run(const uint8_t *run, size_t run_len, rofteluvi_ran ran) {
    run_calls++;
    if (ran.number == ROFTELUVI_TOO_LONG) {
        too_long_by_a_byte += run_len == ROFTELUVI_RUN_BYTES_MAX + 1;
        too_long_by_a_word += run_len == ROFTELUVI_RUN_BYTES_MAX + 4;
        return;
    }
    for (size_t i = 0; i < ran.place; i++) {
        uint32_t word = run[4 * i] | (uint32_t)run[4 * i + 1] << 8 | (uint32_t)run[4 * i + 2] << 16 | (uint32_t)run[4 * i + 3] << 24;
        by_instruction[reference_instruction(word)][word & 31]++;
    }
    longest_runs += ran.number == ROFTELUVI_ACCEPTED && ran.place == ROFTELUVI_RUN_WORDS_MAX;
    if (ran.number == ROFTELUVI_UNKNOWN_WORD) {
        size_t rest = run_len - 4 * (size_t)ran.place;
        stopped_after[rest < 4 ? rest : 4]++;
    }
}

void coverage_sequence(enum sequence which) {
    sequences[which]++;
}

static int between(uint32_t type, uint32_t low, uint32_t high) {
    return type >= low && type <= high;
}

/* Whether a record of this type can meet this number at all. */
static int can_meet(uint32_t type, uint32_t number) {
    int unknown = between(type, 13, 19) || between(type, 59, 63) || type >= 101;
    int loaders = between(type, 3, 12);
    int word = between(type, 38, 46) || between(type, 64, 98);
    int data = between(type, 47, 56) || type == 1 || type == 2 || type == 99;
    int uses = between(type, 22, 23) || between(type, 25, 29) || between(type, 64, 98) || data;
    int fours = type == 42 || type == 44 || type == 45 || between(type, 64, 66);
    if (number == ROFTELUVI_UNKNOWN_TYPE || number == ROFTELUVI_LOADER_TYPE || unknown || loaders)
        return (number == ROFTELUVI_UNKNOWN_TYPE && unknown) || (number == ROFTELUVI_LOADER_TYPE && loaders);
    switch (number) {
    case ROFTELUVI_ACCEPTED: return 1;
    case ROFTELUVI_NO_SUCH_SYMBOL: return uses;
    case ROFTELUVI_VALUE_ABSENT: return uses;
    case ROFTELUVI_OUTSIDE: return word || data;
    case ROFTELUVI_UNALIGNED: return word;
    case ROFTELUVI_STACK_EMPTY: return type == 24 || between(type, 30, 46);
    case ROFTELUVI_STACK_FULL: return between(type, 22, 29);
    case ROFTELUVI_SHIFT_COUNT: return type == 33 || type == 34;
    case ROFTELUVI_ASSERTION: return type == 30;
    case ROFTELUVI_ABOVE_RANGE: case ROFTELUVI_BELOW_RANGE: return between(type, 38, 46) || between(type, 64, 66);
    case ROFTELUVI_NOT_MULTIPLE: return fours;
    default: return 0;
    }
}

/* The first and the last place that a number can have; every run meets both, and at least three places between. */
static uint32_t first_place(uint32_t number) {
    switch (number) {
    case ROFTELUVI_NOT_WHOLE: return 1;
    case ROFTELUVI_STACK_FULL: return 16;
    case ROFTELUVI_SHIFT_COUNT: return 2;
    case ROFTELUVI_ASSERTION: return 1;
    case ROFTELUVI_STACK_LEFT: return 1;
    default: return 0;
    }
}

static uint32_t last_place(uint32_t number) {
    switch (number) {
    case ROFTELUVI_ACCEPTED: case ROFTELUVI_STACK_LEFT: return 2048;
    case ROFTELUVI_TOO_LONG: case ROFTELUVI_NOT_WHOLE: return 2;
    case ROFTELUVI_BAD_MASK: return 1023;
    default: return 2047;
    }
}

/* Each instruction with each register written, each way to stop, runs as long as can be, and each kind of sequence. */
static unsigned runs_missing(void) {
    unsigned missing = 0;
    for (unsigned kind = 0; kind < INSTRUCTIONS; kind++)
        for (unsigned rd = 0; rd < ROFTELUVI_REGISTERS; rd++)
            if (by_instruction[kind][rd] < 100) {
                printf("not met: instruction %u with register %u, 100 times\n", kind, rd);
                missing++;
            }
    for (unsigned rest = 1; rest <= 4; rest++)
        if (stopped_after[rest] < 100) {
            printf("not met: number 19 with %u bytes left, 100 times\n", rest);
            missing++;
        }
    for (unsigned which = 0; which < SEQUENCES; which++)
        if (sequences[which] < 1000) {
            printf("not met: 1000 patched sequences that were run, of kind %u (%" PRIu64 ")\n", which, sequences[which]);
            missing++;
        }
    if (longest_runs < 10 || too_long_by_a_word == 0 || too_long_by_a_byte == 0) {
        printf("not met: 10 runs of 4096 words, one of a byte more and one of a word more\n");
        missing++;
    }
    return missing;
}

unsigned coverage_missing(void) {
    unsigned missing = 0;
    for (uint32_t type = 0; type < TYPES; type++) {
        int word = between(type, 38, 46) || between(type, 64, 98);
        for (uint32_t number = 0; number < NUMBERS; number++) {
            if (can_meet(type, number) && by_type[type][number] == 0) {
                printf("not met: type %" PRIu32 " with number %" PRIu32 "\n", type, number);
                missing++;
            }
            int back = number == ROFTELUVI_TOO_LONG || (!word && number == ROFTELUVI_UNKNOWN_TYPE) ||
                       (word && (number == 0 || number == ROFTELUVI_OUTSIDE || number == ROFTELUVI_UNALIGNED));
            if (back && back_by_type[type][number] == 0) {
                printf("not met: read back of type %" PRIu32 " with number %" PRIu32 "\n", type, number);
                missing++;
            }
        }
    }
    for (uint32_t type = 0; type < TYPES; type++)
        for (uint32_t half = 0; half < 2; half++)
            if (reference_takes_upper_part(type) && at_half_a_page[type][half] < 100) {
                printf("not met: type %" PRIu32 " with a target's low bits of %" PRIx32 "h, 100 times\n", type, 0x7ff + half);
                missing++;
            }
    for (uint32_t number = 0; number < NUMBERS; number++) {
        if (number == BAD_FRAME)
            continue;
        uint32_t first = first_place(number), last = last_place(number), between_them = 0;
        for (uint32_t place = first + 1; place < last; place++)
            between_them += at_place[number][place] > 0;
        if (at_place[number][first] == 0 || at_place[number][last] == 0 || (last > 2 && between_them < 3)) {
            printf("not met: number %" PRIu32 " at its first, its last and places between (%" PRIu64 ", %" PRIu64 ", %" PRIu32
                   " places)\n", number, at_place[number][first], at_place[number][last], between_them);
            missing++;
        }
    }
    if (at_place[ROFTELUVI_TOO_LONG][1] == 0) {
        printf("not met: number 1 at place 1\n");
        missing++;
    }
    missing += runs_missing();
    if (patch_calls < 100000) {
        printf("not met: 100000 calls of patch (%" PRIu64 ")\n", patch_calls);
        missing++;
    }
    if (accepted_calls < patch_calls / 4) {
        printf("not met: a quarter of the calls accepted (%" PRIu64 ")\n", accepted_calls);
        missing++;
    }
    return missing;
}

void coverage_summary(uint64_t seed) {
    printf("host tests passed: seed %" PRIu64 ", %" PRIu64 " patch calls (%" PRIu64 " accepted, with %" PRIu64
           " records, at most %" PRIu64 "), refusals",
           seed, patch_calls, accepted_calls, accepted_records, longest_accepted);
    for (uint32_t number = 1; number < NUMBERS; number++)
        if (number != BAD_FRAME)
            printf(" %" PRIu32 ":%" PRIu64, number, numbers[number]);
    printf(", %" PRIu64 " read back calls, %" PRIu64 " runs (%" PRIu64 " of them patched, %" PRIu64
           " with a target past a pair's reach), no difference\n", read_back_calls, run_calls,
           sequences[LOADED] + sequences[WITHIN_REACH] + sequences[PAST_REACH], sequences[PAST_REACH]);
}
