#include "draft.h"

#include <inttypes.h>
#include <stdio.h>

void put_number(uint8_t *to, uint64_t number, unsigned bytes) {
    for (unsigned i = 0; i < bytes; i++)
        to[i] = (uint8_t)(number >> (8 * i));
}

void draft_clear(struct draft *d) {
    d->section_len = d->records_len = d->values_len = 0;
    d->address = d->gp = 0;
}

void draft_word(struct draft *d, uint32_t word) {
    put_number(d->section + d->section_len, word, 4);
    d->section_len += 4;
}

void draft_record(struct draft *d, uint64_t offset, uint32_t type, uint32_t symbol, uint64_t addend) {
    uint8_t *to = d->records + d->records_len;
    put_number(to, offset, 8);
    put_number(to + 8, type, 4);
    put_number(to + 12, symbol, 4);
    put_number(to + 16, addend, 8);
    d->records_len += ROFTELUVI_RECORD_BYTES;
}

void draft_row(struct draft *d, uint64_t mask, const uint64_t value[6]) {
    uint8_t *to = d->values + d->values_len;
    put_number(to, mask, 8);
    for (unsigned i = 0; i < 6; i++)
        put_number(to + 8 + 8 * i, value[i], 8);
    d->values_len += ROFTELUVI_ROW_BYTES;
}

struct call draft_call(struct draft *d) {
    struct call c;
    c.section = d->section;
    c.section_len = d->section_len;
    c.records = d->records;
    c.records_len = d->records_len;
    c.values = d->values;
    c.values_len = d->values_len;
    c.address = d->address;
    c.gp = d->gp;
    return c;
}

/* One line for each `each` bytes; the last may be shorter where the length is not whole. */
static void print_lines(const char *kind, const uint8_t *bytes, size_t len, size_t each) {
    for (size_t i = 0; i < len; i++) {
        if (i % each == 0)
            printf("%s", kind);
        printf("%02x", bytes[i]);
        if (i % each == each - 1 || i == len - 1)
            printf("\n");
    }
}

void draft_print_frames(const struct draft *d) {
    printf("01%016" PRIx64 "%016" PRIx64 "\n", d->address, d->gp);
    print_lines("02", d->section, d->section_len, 64);
    print_lines("03", d->values, d->values_len, ROFTELUVI_ROW_BYTES);
    print_lines("04", d->records, d->records_len, ROFTELUVI_RECORD_BYTES);
}
