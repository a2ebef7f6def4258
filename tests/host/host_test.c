/* Compares the archive with the independent reference: fixed, systematic and random calls and runs.

       host_test [seed [random calls]]

   Status 0 and one line if nothing differs and everything that should be met was; 1 otherwise. */
#include "cases.h"
#include "compare.h"
#include "coverage.h"
#include "generate.h"
#include "runs.h"

#include <inttypes.h>
#include <stdio.h>
#include <stdlib.h>

static struct draft d;

/* After an accepted call: a checked immediate, in a word that no later record writes to, is read back as it was put. Up to ten
   records of the list are tried. */
static void check_round_trip(struct draft *patched) {
    static size_t last_writer[ROFTELUVI_SECTION_BYTES_MAX];
    static int64_t put[ROFTELUVI_RECORDS_MAX];
    struct call call = draft_call(patched);
    struct stack stack;
    size_t records = call.records_len / ROFTELUVI_RECORD_BYTES;
    stack.depth = 0;
    for (size_t i = 0; i < records; i++) {
        struct record r = reference_record(call.records, i);
        reference_judge(&call, &r, &stack, &put[i]);
        for (unsigned byte = 0; byte < reference_width(r.type); byte++)
            last_writer[r.offset + byte] = i;
    }
    for (size_t tries = records < 10 ? records : 10; tries > 0; tries--) {
        size_t i = random_below(records);
        struct record r = reference_record(call.records, i);
        if (!reference_checked(r.type))
            continue;
        int overwritten = 0;
        for (unsigned byte = 0; byte < 4; byte++)
            overwritten |= last_writer[r.offset + byte] != i;
        rofteluvi_immediate back = compare_read_back(patched, r.offset, r.type);
        if (!overwritten && (back.number != 0 || back.value != put[i]))
            compare_fail(patched, "an immediate is not read back as it was put (frames: the section as it came out)");
    }
}

static void random_read_back(void) {
    uint32_t type = random_below(8) == 0 ? (uint32_t)random_below(130) : random_below(4) == 0 ? 38 + (uint32_t)random_below(9)
                                                                         : 64 + (uint32_t)random_below(35);
    uint64_t offset = random_below(8) == 0 ? random_next() : random_below(d.section_len + 4);
    if (random_below(4) != 0)
        offset -= (d.address + offset) % 4;
    compare_read_back(&d, offset, type);
}

int main(int argc, char **argv) {
    uint64_t seed = argc > 1 ? strtoull(argv[1], NULL, 0) : 1;
    uint64_t calls = argc > 2 ? strtoull(argv[2], NULL, 0) : 100000;
    setvbuf(stdout, NULL, _IOLBF, 0);
    printf("seed %" PRIu64 "\n", seed);
    random_seed(seed);
    compare_open();

    runs_not_left_to_chance();
    cases_fixed();
    cases_systematic();
    cases_read_back();
    for (uint64_t i = 0; i < calls; i++) {
        generate_call(&d);
        rofteluvi_answer answer = compare_patch(&d);
        if (answer.number == ROFTELUVI_ACCEPTED && answer.place > 0)
            check_round_trip(&d);
        if (i % 2 == 0)
            random_read_back();
        if (i % 4 == 0)
            runs_random();
        if (i % 4 == 2)
            runs_patched();
    }

    if (coverage_missing() > 0) {
        printf("no difference, but this run did not meet all that it should: seed %" PRIu64 "\n", seed);
        return 1;
    }
    coverage_summary(seed);
    return 0;
}
