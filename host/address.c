/* A small host: pcalau12i and addi.d are patched to the address of a part's record, and run, to see where they point.

   The section stands at 12340004h and holds the two words, on $a0, with no target yet. Symbol 1 is the part's record. The pair reaches
   targets about 2 GiB away: at the second address, past that, it points elsewhere, and nothing but the run says so. */
#include "rofteluvi.h"

#include <inttypes.h>
#include <stdio.h>

enum { PCALA_HI20 = 71, PCALA_LO12 = 72, A0 = 4 };

/* Stores the `n` low bytes of a number, lowest first, and says where the next may go. */
static uint8_t *put(uint8_t *to, uint64_t number, int n) {
    for (int i = 0; i < n; i++)
        *to++ = (uint8_t)(number >> (8 * i));
    return to;
}

static uint8_t *put_record(uint8_t *to, uint64_t offset, uint32_t type, uint32_t symbol, int64_t addend) {
    to = put(to, offset, 8);
    to = put(to, type, 4);
    to = put(to, symbol, 4);
    return put(to, (uint64_t)addend, 8);
}

/* Patches the pair to a part's record, runs it, and prints where it points: 0 if there. */
static int point_to(uint64_t part) {
    const uint64_t address = 0x12340004, gp = 0;
    uint8_t section[8], records[2 * ROFTELUVI_RECORD_BYTES], row[ROFTELUVI_ROW_BYTES] = {ROFTELUVI_HAS_S};
    put(put(section, 0x1a000004, 4), 0x02c00084, 4); /* pcalau12i $a0, 0; addi.d $a0, $a0, 0 */
    put_record(put_record(records, 0, PCALA_HI20, 1, 0), 4, PCALA_LO12, 1, 0);
    put(row + 8, part, 8);

    rofteluvi_answer answer =
        rofteluvi_patch(section, sizeof section, records, sizeof records, row, sizeof row, address, gp);
    if (answer.number != ROFTELUVI_ACCEPTED) {
        printf("patch: number %" PRIu32 ", place %" PRIu32 ", offset %" PRIu64 "\n", answer.number, answer.place, answer.offset);
        return 1;
    }
    uint64_t registers[ROFTELUVI_REGISTERS] = {0};
    rofteluvi_ran ran = rofteluvi_run(section, sizeof section, address, registers);
    if (ran.number != ROFTELUVI_ACCEPTED) {
        printf("run: number %" PRIu32 ", place %" PRIu32 "\n", ran.number, ran.place);
        return 1;
    }
    printf("part at %" PRIx64 ": $a0 points to %" PRIx64 "%s\n", part, registers[A0],
           registers[A0] == part ? "" : ", which is not there");
    return registers[A0] != part;
}

int main(void) {
    int near = point_to(0x12345800);
    int far = point_to(0x212345800);
    return near == 0 && far == 1 ? 0 : 1;
}
