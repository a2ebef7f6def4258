/* The executor, written a second time, from the LoongArch reference manual: one row for each instruction, and bits taken one field at a
   time. */
#include "reference.h"

enum kind { LU12I_W, LU32I_D, PCALAU12I, LU52I_D, ADDI_D, ORI, KINDS };

static const struct {
    uint32_t mask, opcode;
} row[KINDS] = {
    [LU12I_W] = {0xfe000000, 0x14000000},   /* 0001010 si20 rd */
    [LU32I_D] = {0xfe000000, 0x16000000},   /* 0001011 si20 rd */
    [PCALAU12I] = {0xfe000000, 0x1a000000}, /* 0001101 si20 rd */
    [LU52I_D] = {0xffc00000, 0x03000000},   /* 0000001100 si12 rj rd */
    [ADDI_D] = {0xffc00000, 0x02c00000},    /* 0000001011 si12 rj rd */
    [ORI] = {0xffc00000, 0x03800000},       /* 0000001110 ui12 rj rd */
};

int reference_instruction(uint32_t word) {
    for (int kind = 0; kind < KINDS; kind++)
        if ((word & row[kind].mask) == row[kind].opcode)
            return kind;
    return -1;
}

/* Bits `high` down to `low` of a number. */
static uint64_t bits(uint64_t x, unsigned high, unsigned low) {
    uint64_t all = 0;
    for (unsigned bit = low; bit <= high; bit++)
        all |= (x >> bit & 1) << (bit - low);
    return all;
}

/* A number of `width` bits with copies of its top bit above. */
static uint64_t sign_extend(uint64_t x, unsigned width) {
    for (unsigned bit = width; bit < 64; bit++)
        x |= bits(x, width - 1, width - 1) << bit;
    return x;
}

rofteluvi_ran reference_run(const uint8_t *run, size_t run_len, uint64_t start, uint64_t registers[ROFTELUVI_REGISTERS]) {
    rofteluvi_ran ran = {0, 0};
    registers[0] = 0;
    if (run_len > ROFTELUVI_RUN_BYTES_MAX) {
        ran.number = ROFTELUVI_TOO_LONG;
        return ran;
    }
    while (run_len > 0) {
        uint32_t word = 0;
        for (unsigned byte = 0; byte < 4 && run_len >= 4; byte++)
            word |= (uint32_t)run[byte] << (8 * byte);
        int kind = run_len < 4 ? -1 : reference_instruction(word);
        if (kind < 0) {
            ran.number = ROFTELUVI_UNKNOWN_WORD;
            return ran;
        }
        uint64_t pc = start + 4 * (uint64_t)ran.place, i20 = bits(word, 24, 5), i12 = bits(word, 21, 10), result = 0;
        uint64_t own = registers[bits(word, 4, 0)], from = registers[bits(word, 9, 5)];
        switch (kind) {
        case LU12I_W: result = sign_extend(i20 << 12, 32); break;
        case LU32I_D: result = sign_extend(i20, 20) << 32 | bits(own, 31, 0); break;
        case PCALAU12I: result = bits(pc + sign_extend(i20 << 12, 32), 63, 12) << 12; break;
        case LU52I_D: result = i12 << 52 | bits(from, 51, 0); break;
        case ADDI_D: result = from + sign_extend(i12, 12); break;
        case ORI: result = from | i12; break;
        }
        if (bits(word, 4, 0) != 0)
            registers[bits(word, 4, 0)] = result;
        run += 4;
        run_len -= 4;
        ran.place++;
    }
    return ran;
}
