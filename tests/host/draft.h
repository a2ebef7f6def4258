/* A call in the making: its three buffers, with room to go past every limit, and its two numbers. */
#ifndef DRAFT_H
#define DRAFT_H

#include "reference.h"

struct draft {
    uint8_t section[ROFTELUVI_SECTION_BYTES_MAX + 64];
    uint8_t records[ROFTELUVI_RECORD_BYTES_MAX + 4 * ROFTELUVI_RECORD_BYTES];
    uint8_t values[ROFTELUVI_VALUE_BYTES_MAX + 4 * ROFTELUVI_ROW_BYTES];
    size_t section_len, records_len, values_len;
    uint64_t address, gp;
};

void draft_clear(struct draft *d);
void draft_word(struct draft *d, uint32_t word);
void draft_record(struct draft *d, uint64_t offset, uint32_t type, uint32_t symbol, uint64_t addend);
void draft_row(struct draft *d, uint64_t mask, const uint64_t value[6]);

/* The draft as the reference sees it. The section is the draft's own. */
struct call draft_call(struct draft *d);

/* Prints the call as frames: lines of hexadecimal that the program `patcher` reads. */
void draft_print_frames(const struct draft *d);

void put_number(uint8_t *to, uint64_t number, unsigned bytes);

#endif
