/* A small host: one branch to be patched to its target, then its immediate read back.

   The section stands at 1000h and holds one word, 50000000h, the instruction `b` with no target yet. Symbol 1 is at 1010h. The
   one record has type 66 (R_LARCH_B26) at offset 0, so the word shall jump forward by 10h. */
#include "rofteluvi.h"

#include <inttypes.h>
#include <stdio.h>

enum { B26 = 66 };

/* Stores the `n` low bytes of a number, lowest first, and says where the next may go. */
static uint8_t *put(uint8_t *to, uint64_t number, int n) {
    for (int i = 0; i < n; i++)
        *to++ = (uint8_t)(number >> (8 * i));
    return to;
}

static void put_record(uint8_t *to, uint64_t offset, uint32_t type, uint32_t symbol, int64_t addend) {
    to = put(to, offset, 8);
    to = put(to, type, 4);
    to = put(to, symbol, 4);
    put(to, (uint64_t)addend, 8);
}

/* A row that has S and nothing else. */
static void put_address_row(uint8_t *to, uint64_t s) {
    to = put(to, ROFTELUVI_HAS_S, 8);
    to = put(to, s, 8);
    for (int absent = 0; absent < 5; absent++)
        to = put(to, 0, 8);
}

int main(void) {
    const uint64_t address = 0x1000, gp = 0;
    uint8_t section[4], record[ROFTELUVI_RECORD_BYTES], row[ROFTELUVI_ROW_BYTES];
    put(section, 0x50000000, 4);
    put_record(record, 0, B26, 1, 0);
    put_address_row(row, 0x1010);

    rofteluvi_answer answer =
        rofteluvi_patch(section, sizeof section, record, sizeof record, row, sizeof row, address, gp);
    printf("number %" PRIu32 ", place %" PRIu32 ", offset %" PRIu64 ", bytes", answer.number, answer.place, answer.offset);
    for (size_t i = 0; i < sizeof section; i++)
        printf(" %02x", section[i]);
    printf("\n");

    rofteluvi_immediate back = rofteluvi_read_back(section, sizeof section, address, 0, B26);
    printf("read back: number %" PRIu32 ", place %" PRIu32 ", value %" PRId64 "\n", back.number, back.place, back.value);
    return answer.number == ROFTELUVI_ACCEPTED && back.number == ROFTELUVI_ACCEPTED ? 0 : 1;
}
