#define _XOPEN_SOURCE 700
#include "compare.h"

#include "coverage.h"
#include "guarded.h"

#include <inttypes.h>
#include <setjmp.h>
#include <signal.h>
#include <stdio.h>
#include <stdlib.h>
#include <string.h>

static struct guarded section_memory, records_memory, values_memory, registers_memory;

/* ---- A fault in the archive's code is a difference like another ---- */

static sigjmp_buf after_fault;
static volatile sig_atomic_t in_call;
static volatile sig_atomic_t fault_signal; /* 0, or the signal that stopped the last call */

static void on_fault(int signal_number) {
    if (!in_call)
        _Exit(2); /* not in the archive: a fault of this program */
    in_call = 0;
    fault_signal = signal_number;
    siglongjmp(after_fault, 1);
}

void compare_open(void) {
    static uint8_t own_stack[65536];
    stack_t alternate;
    struct sigaction action;
    memset(&alternate, 0, sizeof alternate);
    alternate.ss_sp = own_stack;
    alternate.ss_size = sizeof own_stack;
    sigaltstack(&alternate, NULL);
    memset(&action, 0, sizeof action);
    action.sa_handler = on_fault;
    action.sa_flags = SA_ONSTACK | SA_NODEFER;
    sigaction(SIGSEGV, &action, NULL);
    sigaction(SIGBUS, &action, NULL);
    sigaction(SIGILL, &action, NULL);
    sigaction(SIGFPE, &action, NULL);
    sigaction(SIGTRAP, &action, NULL);
    guarded_open(&section_memory);
    guarded_open(&records_memory);
    guarded_open(&values_memory);
    guarded_open(&registers_memory);
}

/* The archive's functions. Each answers 0, or the signal that stopped the call. */
static int call_patch(const struct call *c, rofteluvi_answer *got) {
    fault_signal = 0;
    if (sigsetjmp(after_fault, 0) == 0) {
        in_call = 1;
        *got = rofteluvi_patch(c->section, c->section_len, c->records, c->records_len, c->values, c->values_len, c->address,
                               c->gp);
        in_call = 0;
    }
    return fault_signal;
}

static int call_read_back(const struct call *c, uint64_t offset, uint32_t type, rofteluvi_immediate *got) {
    fault_signal = 0;
    if (sigsetjmp(after_fault, 0) == 0) {
        in_call = 1;
        *got = rofteluvi_read_back(c->section, c->section_len, c->address, offset, type);
        in_call = 0;
    }
    return fault_signal;
}

static int call_run(const uint8_t *run, size_t run_len, uint64_t start, uint64_t *registers, rofteluvi_ran *got) {
    fault_signal = 0;
    if (sigsetjmp(after_fault, 0) == 0) {
        in_call = 1;
        *got = rofteluvi_run(run, run_len, start, registers);
        in_call = 0;
    }
    return fault_signal;
}

/* ---- One call of patch ---- */

/* How the buffers are placed: each ends where memory ends, unless its bit says that it starts there. */
enum { SECTION_AT_START = 1, RECORDS_AT_START = 2, VALUES_AT_START = 4, EMPTY_IS_NULL = 8, PLACINGS = 16 };

struct outcome {
    const char *what; /* NULL if all is equal */
    int signal_number;
    rofteluvi_answer got, want;
    size_t first, count; /* of the section's bytes that differ */
    uint8_t got_byte, want_byte;
};

static uint8_t expected[ROFTELUVI_SECTION_BYTES_MAX + 64]; /* the section as the reference leaves it */

static uint8_t *placed(struct guarded *g, const uint8_t *bytes, size_t len, int at_start, int empty_is_null) {
    uint8_t *at = guarded_place(g, bytes, len, !at_start);
    return len == 0 && empty_is_null ? NULL : at;
}

static struct outcome run_patch(struct draft *d, unsigned placing, int thorough) {
    struct outcome o;
    struct call call = draft_call(d);
    memset(&o, 0, sizeof o);
    memcpy(expected, d->section, d->section_len);
    call.section = expected;
    o.want = reference_patch(&call);

    int null = (placing & EMPTY_IS_NULL) != 0;
    call.section = placed(&section_memory, d->section, d->section_len, placing & SECTION_AT_START, null);
    call.records = placed(&records_memory, d->records, d->records_len, placing & RECORDS_AT_START, null);
    call.values = placed(&values_memory, d->values, d->values_len, placing & VALUES_AT_START, null);

    /* Written to, these would fault; half of the calls have them writable and compared afterwards only. */
    if (placing & SECTION_AT_START) {
        guarded_read_only(&records_memory, 1);
        guarded_read_only(&values_memory, 1);
    }
    o.signal_number = call_patch(&call, &o.got);
    if (placing & SECTION_AT_START) {
        guarded_read_only(&records_memory, 0);
        guarded_read_only(&values_memory, 0);
    }

    for (size_t i = 0; i < d->section_len; i++)
        if (call.section[i] != expected[i] && o.count++ == 0) {
            o.first = i;
            o.got_byte = call.section[i];
            o.want_byte = expected[i];
        }
    if (o.signal_number != 0)
        o.what = "the archive's code was stopped by a signal: memory outside its buffers, or one that is only read";
    else if (o.got.number != o.want.number || o.got.place != o.want.place || o.got.offset != o.want.offset)
        o.what = "number, place or offset";
    else if (o.count > 0)
        o.what = "bytes of the section";
    else if (d->records_len > 0 && memcmp(call.records, d->records, d->records_len) != 0)
        o.what = "records were written to";
    else if (d->values_len > 0 && memcmp(call.values, d->values, d->values_len) != 0)
        o.what = "values were written to";
    else if (!guarded_rest_unchanged(&section_memory, thorough) || !guarded_rest_unchanged(&records_memory, thorough) ||
             !guarded_rest_unchanged(&values_memory, thorough))
        o.what = "bytes beside a buffer were written to";
    return o;
}

/* ---- A difference, made small and printed ---- */

/* Removes `count` records at an index. */
static void cut_records(struct draft *d, size_t index, size_t count) {
    size_t from = index * ROFTELUVI_RECORD_BYTES, len = count * ROFTELUVI_RECORD_BYTES;
    memmove(d->records + from, d->records + from + len, d->records_len - from - len);
    d->records_len -= len;
}

/* Removes bytes at the section's start and moves everything down, so that each PC stays. */
static void cut_start(struct draft *d, size_t count) {
    memmove(d->section, d->section + count, d->section_len - count);
    d->section_len -= count;
    d->address += count;
    for (size_t i = 0; (i + 1) * ROFTELUVI_RECORD_BYTES <= d->records_len; i++)
        put_number(d->records + i * ROFTELUVI_RECORD_BYTES, reference_record(d->records, i).offset - count, 8);
}

/* Leaves out records, rows at the end, and bytes at both ends of the section, as long as a difference stays. */
static void make_small(struct draft *d, unsigned placing) {
    static struct draft smaller;
    for (size_t count = ROFTELUVI_RECORDS_MAX; count > 0; count /= 2)
        for (size_t i = 0; (i + count) * ROFTELUVI_RECORD_BYTES <= d->records_len;) {
            smaller = *d;
            cut_records(&smaller, i, count);
            if (run_patch(&smaller, placing, 0).what != NULL)
                *d = smaller;
            else
                i += count;
        }
    for (size_t count = ROFTELUVI_SECTION_BYTES_MAX; count > 0; count /= 2)
        for (int what = 0; what < 3; what++)
            for (;;) {
                smaller = *d;
                if (what == 0 && smaller.section_len >= count)
                    smaller.section_len -= count;
                else if (what == 1 && smaller.section_len >= count)
                    cut_start(&smaller, count);
                else if (what == 2 && smaller.values_len >= count * ROFTELUVI_ROW_BYTES)
                    smaller.values_len -= count * ROFTELUVI_ROW_BYTES;
                else
                    break;
                if (run_patch(&smaller, placing, 0).what == NULL)
                    break;
                *d = smaller;
            }
}

static void print_call(const struct draft *d) {
    printf("The call, as frames (%zu section bytes, %zu record bytes, %zu value bytes):\n", d->section_len, d->records_len,
           d->values_len);
    draft_print_frames(d);
    if (d->records_len % ROFTELUVI_RECORD_BYTES != 0 || d->values_len % ROFTELUVI_ROW_BYTES != 0)
        printf("(Its records or values are not whole: this call can be made from C, and not by frames.)\n");
}

void compare_fail(const struct draft *before, const char *what) {
    printf("DIFFERENCE: %s\n", what);
    print_call(before);
    exit(1);
}

static void print_answer(const char *whose, rofteluvi_answer a) {
    printf("%s number %" PRIu32 ", place %" PRIu32 ", offset %" PRIx64 "\n", whose, a.number, a.place, a.offset);
}

static void report_patch(struct draft *d, unsigned placing) {
    make_small(d, placing);
    struct outcome o = run_patch(d, placing, 1);
    printf("DIFFERENCE in rofteluvi_patch: %s\n", o.what != NULL ? o.what : "gone when run again");
    if (o.signal_number != 0)
        printf("archive:   signal %d\n", o.signal_number);
    else
        print_answer("archive:  ", o.got);
    print_answer("reference:", o.want);
    if (o.count > 0)
        printf("section: %zu bytes differ, the first at %zu: archive %02x, reference %02x\n", o.count, o.first, o.got_byte,
               o.want_byte);
    print_call(d);
    exit(1);
}

rofteluvi_answer compare_patch(struct draft *d) {
    static unsigned turn;
    unsigned placing = turn % PLACINGS;
    struct outcome o = run_patch(d, placing, turn % 61 == 0);
    turn++;
    if (o.what != NULL)
        report_patch(d, placing);
    struct call call = draft_call(d);
    coverage_patch(&call, o.want);
    memcpy(d->section, expected, d->section_len);
    return o.want;
}

/* ---- One call of read back ---- */

rofteluvi_immediate compare_read_back(struct draft *d, uint64_t offset, uint32_t type) {
    static unsigned turn;
    rofteluvi_immediate got = {0, 0, 0};
    rofteluvi_immediate want = reference_read_back(d->section, d->section_len, d->address, offset, type);
    struct call call = draft_call(d);
    call.section = placed(&section_memory, d->section, d->section_len, turn % 4 == 3, turn % 2 == 0);
    turn++;
    guarded_read_only(&section_memory, 1);
    int signal_number = call_read_back(&call, offset, type, &got);
    guarded_read_only(&section_memory, 0);
    if (signal_number != 0 || got.number != want.number || got.place != want.place || got.value != want.value) {
        printf("DIFFERENCE in rofteluvi_read_back: offset %" PRIx64 ", type %" PRIu32 "\n", offset, type);
        if (signal_number != 0)
            printf("archive:   signal %d\n", signal_number);
        else
            printf("archive:   number %" PRIu32 ", place %" PRIu32 ", value %" PRId64 "\n", got.number, got.place, got.value);
        printf("reference: number %" PRIu32 ", place %" PRIu32 ", value %" PRId64 "\n", want.number, want.place, want.value);
        d->records_len = d->values_len = 0; /* the section is all there is to show */
        print_call(d);
        exit(1);
    }
    coverage_read_back(type, want);
    return want;
}

/* ---- One run ---- */

/* Prints a run: its words, and its registers at the start. */
static void print_run(const uint8_t *run, size_t run_len, uint64_t start, const uint64_t *registers) {
    printf("The run, at %" PRIx64 ", %zu bytes:", start, run_len);
    for (size_t i = 0; i < run_len && i < 64; i++)
        printf("%s%02x", i % 4 == 0 ? " " : "", run[i]);
    printf("%s\nIts registers at the start:", run_len > 64 ? " .." : "");
    for (size_t i = 0; i < ROFTELUVI_REGISTERS; i++)
        printf(" %" PRIx64, registers[i]);
    printf("\n");
}

rofteluvi_ran compare_run(const uint8_t *run, size_t run_len, uint64_t start, uint64_t registers[ROFTELUVI_REGISTERS]) {
    static unsigned turn;
    enum { BYTES = 8 * ROFTELUVI_REGISTERS };
    uint64_t before[ROFTELUVI_REGISTERS], left[ROFTELUVI_REGISTERS];
    rofteluvi_ran got = {0, 0};
    memcpy(before, registers, BYTES);
    rofteluvi_ran want = reference_run(run, run_len, start, registers);

    const uint8_t *words = placed(&section_memory, run, run_len, turn % 4 == 3, turn % 2 == 0);
    uint8_t *lent = guarded_place(&registers_memory, (const uint8_t *)before, BYTES, turn % 8 < 4);
    guarded_read_only(&section_memory, 1);
    int signal_number = call_run(words, run_len, start, (uint64_t *)lent, &got);
    guarded_read_only(&section_memory, 0);
    memcpy(left, lent, BYTES);

    size_t differ = 0;
    while (differ < ROFTELUVI_REGISTERS && left[differ] == registers[differ])
        differ++;
    int beside = !guarded_rest_unchanged(&registers_memory, turn % 61 == 0);
    turn++;
    if (signal_number != 0 || got.number != want.number || got.place != want.place || differ < ROFTELUVI_REGISTERS || beside) {
        printf("DIFFERENCE in rofteluvi_run\n");
        if (signal_number != 0)
            printf("archive:   signal %d\n", signal_number);
        else
            printf("archive:   number %" PRIu32 ", place %" PRIu32 "\n", got.number, got.place);
        printf("reference: number %" PRIu32 ", place %" PRIu32 "\n", want.number, want.place);
        if (differ < ROFTELUVI_REGISTERS)
            printf("register %zu: archive %" PRIx64 ", reference %" PRIx64 "\n", differ, left[differ], registers[differ]);
        if (beside)
            printf("bytes beside the registers were written to\n");
        print_run(run, run_len, start, before);
        exit(1);
    }
    coverage_run(run, run_len, want);
    return want;
}
