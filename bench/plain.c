/* The same job with the same checks in plain C, written for speed: one pass judges every record, a second one writes. Made for a
   little-endian machine that reads and writes at any address. */
#include "plain.h"

#include <string.h>

#if defined(__BYTE_ORDER__) && __BYTE_ORDER__ != __ORDER_LITTLE_ENDIAN__
#error "plain.c is made for little-endian machines"
#endif

enum { S, G, PLT, T, IE, GD }; /* places in a row, after the mask */

static inline uint64_t load64(const uint8_t *p) { uint64_t x; memcpy(&x, p, 8); return x; }
static inline uint32_t load32(const uint8_t *p) { uint32_t x; memcpy(&x, p, 4); return x; }
static inline uint16_t load16(const uint8_t *p) { uint16_t x; memcpy(&x, p, 2); return x; }
static inline void store64(uint8_t *p, uint64_t x) { memcpy(p, &x, 8); }
static inline void store32(uint8_t *p, uint32_t x) { memcpy(p, &x, 4); }
static inline void store16(uint8_t *p, uint16_t x) { memcpy(p, &x, 2); }

static inline rofteluvi_answer refusal(uint32_t number, size_t place, uint64_t offset) {
    rofteluvi_answer a = {number, (uint32_t)place, offset};
    return a;
}

/* An answer that is about no record. */
static inline rofteluvi_answer answer(uint32_t number, size_t place) {
    return refusal(number, place, 0);
}

/* ---- Judging ---- */

/* 0, or 6, or 7. */
static inline uint32_t find(const uint8_t *values, size_t rows, uint32_t symbol, unsigned which, uint64_t *value) {
    *value = 0;
    if (symbol == 0)
        return which == S ? 0 : 7;
    if (symbol > rows)
        return 6;
    const uint8_t *row = values + 56 * (size_t)(symbol - 1);
    if ((row[0] >> which & 1) == 0)
        return 7;
    *value = load64(row + 8 + 8 * which);
    return 0;
}

/* 14 or 18: which way an x outside its range missed it. Every range has 0 in it. */
static inline uint32_t way(int64_t x) {
    return x < 0 ? 18 : 14;
}

/* Whether x fits into n signed bits, or into n bits from 0 up: 0, or 14 or 18. */
static inline uint32_t fits(int64_t x, unsigned n) {
    return (uint64_t)x + ((uint64_t)1 << (n - 1)) < (uint64_t)1 << n ? 0 : way(x);
}

static inline uint32_t fits_unsigned(int64_t x, unsigned n) {
    return (uint64_t)x < (uint64_t)1 << n ? 0 : way(x);
}

/* The same of a signed one, and it is a multiple of 4: 0, or 14 or 18, or 15. */
static inline uint32_t fits4(int64_t x, unsigned n) {
    uint32_t missed = fits(x, n);
    return missed != 0 ? missed : (x & 3) != 0 ? 15 : 0;
}

/* The first offset at which `width` bytes do not fit any more. */
static inline uint64_t end_for(size_t section_len, unsigned width) {
    return section_len < width ? 0 : section_len - width + 1;
}

static rofteluvi_answer judge(size_t section_len, const uint8_t *records, size_t count, const uint8_t *values, size_t rows,
                              uint64_t address) {
    const uint64_t end1 = end_for(section_len, 1), end2 = end_for(section_len, 2), end3 = end_for(section_len, 3),
                   end4 = end_for(section_len, 4), end8 = end_for(section_len, 8);
    int64_t stack[16];
    unsigned depth = 0;
    uint32_t fault = 0;
    size_t i;
    for (i = 0; i < count; i++) {
        const uint8_t *r = records + 24 * i;
        const uint64_t offset = load64(r), pc = address + offset;
        const uint32_t symbol = load32(r + 12);
        uint64_t value, end;
        unsigned which;
        switch (load32(r + 8)) {
        case 0: case 20: case 21: case 57: case 58: case 100:
            continue;
        case 3: case 4: case 5: case 6: case 7: case 8: case 9: case 10: case 11: case 12:
            fault = 5;
            goto refused;

        case 22:
            if ((fault = find(values, rows, symbol, S, &value)) != 0)
                goto refused;
            value = value - pc + load64(r + 16);
            goto push;
        case 23:
            if ((fault = find(values, rows, symbol, S, &value)) != 0)
                goto refused;
            value += load64(r + 16);
            goto push;
        case 24:
            if (depth < 1)
                goto too_few;
            value = (uint64_t)stack[depth - 1];
            goto push;
        case 25: which = G; goto push_value;
        case 26: which = T; goto push_value;
        case 27: which = IE; goto push_value;
        case 28: which = GD; goto push_value;
        case 29:
            if ((fault = find(values, rows, symbol, PLT, &value)) != 0)
                goto refused;
            value -= pc;
            goto push;
        push_value:
            if ((fault = find(values, rows, symbol, which, &value)) != 0)
                goto refused;
        push:
            if (depth == 16) {
                fault = 11;
                goto refused;
            }
            stack[depth++] = (int64_t)value;
            continue;

        case 30:
            if (depth < 1)
                goto too_few;
            if (stack[--depth] == 0) {
                fault = 13;
                goto refused;
            }
            continue;
        case 31:
            if (depth < 1)
                goto too_few;
            stack[depth - 1] = stack[depth - 1] == 0;
            continue;
        case 32:
            if (depth < 2)
                goto too_few;
            depth--;
            stack[depth - 1] = (int64_t)((uint64_t)stack[depth - 1] - (uint64_t)stack[depth]);
            continue;
        case 33:
            if (depth < 2)
                goto too_few;
            depth--;
            if ((uint64_t)stack[depth] > 63) {
                fault = 12;
                goto refused;
            }
            stack[depth - 1] = (int64_t)((uint64_t)stack[depth - 1] << stack[depth]);
            continue;
        case 34:
            if (depth < 2)
                goto too_few;
            depth--;
            if ((uint64_t)stack[depth] > 63) {
                fault = 12;
                goto refused;
            }
            stack[depth - 1] >>= stack[depth]; /* arithmetic, with every compiler that this is for */
            continue;
        case 35:
            if (depth < 2)
                goto too_few;
            depth--;
            stack[depth - 1] = (int64_t)((uint64_t)stack[depth - 1] + (uint64_t)stack[depth]);
            continue;
        case 36:
            if (depth < 2)
                goto too_few;
            depth--;
            stack[depth - 1] &= stack[depth];
            continue;
        case 37:
            if (depth < 3)
                goto too_few;
            depth -= 2;
            stack[depth - 1] = stack[depth - 1] != 0 ? stack[depth] : stack[depth + 1];
            continue;

        case 38: case 39: case 40: case 41: case 42: case 43: case 44: case 45: case 46:
            if (offset >= end4)
                goto outside;
            if ((pc & 3) != 0)
                goto unaligned;
            if (depth < 1)
                goto too_few;
            depth--;
            switch (load32(r + 8)) {
            case 38: fault = fits(stack[depth], 5); break;
            case 39: fault = fits_unsigned(stack[depth], 12); break;
            case 40: fault = fits(stack[depth], 12); break;
            case 41: fault = fits(stack[depth], 16); break;
            case 42: fault = fits4(stack[depth], 18); break;
            case 43: fault = fits(stack[depth], 20); break;
            case 44: fault = fits4(stack[depth], 23); break;
            case 45: fault = fits4(stack[depth], 28); break;
            default: fault = fits_unsigned(stack[depth], 32); break;
            }
            if (fault != 0)
                goto refused;
            continue;

        case 64: case 65: case 66:
            if ((fault = find(values, rows, symbol, S, &value)) != 0)
                goto refused;
            if (offset >= end4)
                goto outside;
            if ((pc & 3) != 0)
                goto unaligned;
            value += load64(r + 16) - pc;
            fault = fits4((int64_t)value, load32(r + 8) == 64 ? 18 : load32(r + 8) == 65 ? 23 : 28);
            if (fault != 0)
                goto refused;
            continue;

        case 67: case 68: case 69: case 70: case 71: case 72: case 73: case 74:
            which = S;
            goto word;
        case 75: case 76: case 77: case 78: case 79: case 80: case 81: case 82:
            which = G;
            goto word;
        case 83: case 84: case 85: case 86:
            which = T;
            goto word;
        case 87: case 88: case 89: case 90: case 91: case 92: case 93: case 94: case 96: case 98:
            which = IE;
            goto word;
        case 95: case 97:
            which = GD;
        word:
            if ((fault = find(values, rows, symbol, which, &value)) != 0)
                goto refused;
            if (offset >= end4)
                goto outside;
            if ((pc & 3) != 0)
                goto unaligned;
            continue;

        case 47: case 52: end = end1; goto data;
        case 48: case 53: end = end2; goto data;
        case 49: case 54: end = end3; goto data;
        case 1: case 50: case 55: case 99: end = end4; goto data;
        case 2: case 51: case 56: end = end8;
        data:
            if ((fault = find(values, rows, symbol, S, &value)) != 0)
                goto refused;
            if (offset >= end)
                goto outside;
            continue;

        default:
            fault = 4;
            goto refused;
        }
    outside:
        fault = 8;
        goto refused;
    unaligned:
        fault = 9;
        goto refused;
    too_few:
        fault = 10;
        goto refused;
    }
    return depth == 0 ? answer(0, count) : answer(16, count);
refused:
    return refusal(fault, i, load64(records + 24 * i));
}

/* ---- Writing, after all was judged ---- */

static inline uint64_t value_of(const uint8_t *values, const uint8_t *r, unsigned which) {
    uint32_t symbol = load32(r + 12);
    return symbol == 0 ? 0 : load64(values + 56 * (size_t)(symbol - 1) + 8 + 8 * which);
}

static inline void put_5_20(uint8_t *at, uint64_t x) {
    store32(at, (load32(at) & ~0x01ffffe0u) | ((uint32_t)x & 0xfffff) << 5);
}
static inline void put_10_12(uint8_t *at, uint64_t x) {
    store32(at, (load32(at) & ~0x003ffc00u) | ((uint32_t)x & 0xfff) << 10);
}
static inline void put_10_16(uint8_t *at, uint64_t x) {
    store32(at, (load32(at) & ~0x03fffc00u) | ((uint32_t)x & 0xffff) << 10);
}
static inline void put_10_16_low_5(uint8_t *at, uint64_t x) {
    store32(at, (load32(at) & ~0x03fffc1fu) | ((uint32_t)(x >> 2) & 0xffff) << 10 | ((uint32_t)(x >> 18) & 0x1f));
}
static inline void put_10_16_low_10(uint8_t *at, uint64_t x) {
    store32(at, (load32(at) & ~0x03ffffffu) | ((uint32_t)(x >> 2) & 0xffff) << 10 | ((uint32_t)(x >> 18) & 0x3ff));
}

static inline uint64_t pages(uint64_t x, uint64_t pc) { return ((x + 0x800) >> 12) - (pc >> 12); }
static inline uint64_t from_4g(uint64_t x, uint64_t pc) { return x - (pc & ~(uint64_t)0xffffffff); }

static inline void add24(uint8_t *at, uint64_t x) {
    uint32_t sum = (load16(at) | (uint32_t)at[2] << 16) + (uint32_t)x;
    store16(at, (uint16_t)sum);
    at[2] = (uint8_t)(sum >> 16);
}

static void write_all(uint8_t *section, const uint8_t *records, size_t count, const uint8_t *values, uint64_t address,
                      uint64_t gp) {
    int64_t stack[16];
    unsigned depth = 0;
    for (size_t i = 0; i < count; i++) {
        const uint8_t *r = records + 24 * i;
        const uint64_t offset = load64(r), pc = address + offset, a = load64(r + 16);
        uint8_t *at;
        switch (load32(r + 8)) {
        case 22: stack[depth++] = (int64_t)(value_of(values, r, S) - pc + a); continue;
        case 23: stack[depth++] = (int64_t)(value_of(values, r, S) + a); continue;
        case 24: stack[depth] = stack[depth - 1]; depth++; continue;
        case 25: stack[depth++] = (int64_t)value_of(values, r, G); continue;
        case 26: stack[depth++] = (int64_t)value_of(values, r, T); continue;
        case 27: stack[depth++] = (int64_t)value_of(values, r, IE); continue;
        case 28: stack[depth++] = (int64_t)value_of(values, r, GD); continue;
        case 29: stack[depth++] = (int64_t)(value_of(values, r, PLT) - pc); continue;
        case 30: depth--; continue;
        case 31: stack[depth - 1] = stack[depth - 1] == 0; continue;
        case 32: depth--; stack[depth - 1] = (int64_t)((uint64_t)stack[depth - 1] - (uint64_t)stack[depth]); continue;
        case 33: depth--; stack[depth - 1] = (int64_t)((uint64_t)stack[depth - 1] << stack[depth]); continue;
        case 34: depth--; stack[depth - 1] >>= stack[depth]; continue;
        case 35: depth--; stack[depth - 1] = (int64_t)((uint64_t)stack[depth - 1] + (uint64_t)stack[depth]); continue;
        case 36: depth--; stack[depth - 1] &= stack[depth]; continue;
        case 37:
            depth -= 2;
            stack[depth - 1] = stack[depth - 1] != 0 ? stack[depth] : stack[depth + 1];
            continue;

        case 38:
            at = section + offset;
            store32(at, (load32(at) & ~0x00007c00u) | ((uint32_t)stack[--depth] & 0x1f) << 10);
            continue;
        case 39: case 40: put_10_12(section + offset, (uint64_t)stack[--depth]); continue;
        case 41: put_10_16(section + offset, (uint64_t)stack[--depth]); continue;
        case 42: put_10_16(section + offset, (uint64_t)stack[--depth] >> 2); continue;
        case 43: put_5_20(section + offset, (uint64_t)stack[--depth]); continue;
        case 44: put_10_16_low_5(section + offset, (uint64_t)stack[--depth]); continue;
        case 45: put_10_16_low_10(section + offset, (uint64_t)stack[--depth]); continue;
        case 46: store32(section + offset, (uint32_t)stack[--depth]); continue;

        case 64: put_10_16(section + offset, (value_of(values, r, S) + a - pc) >> 2); continue;
        case 65: put_10_16_low_5(section + offset, value_of(values, r, S) + a - pc); continue;
        case 66: put_10_16_low_10(section + offset, value_of(values, r, S) + a - pc); continue;

        case 67: put_5_20(section + offset, (value_of(values, r, S) + a) >> 12); continue;
        case 68: case 72: put_10_12(section + offset, value_of(values, r, S) + a); continue;
        case 69: put_5_20(section + offset, (value_of(values, r, S) + a) >> 32); continue;
        case 70: put_10_12(section + offset, (value_of(values, r, S) + a) >> 52); continue;
        case 71: put_5_20(section + offset, pages(value_of(values, r, S) + a, pc)); continue;
        case 73: put_5_20(section + offset, from_4g(value_of(values, r, S) + a, pc) >> 32); continue;
        case 74: put_10_12(section + offset, from_4g(value_of(values, r, S) + a, pc) >> 52); continue;

        case 75: put_5_20(section + offset, pages(gp + value_of(values, r, G), pc)); continue;
        case 76: case 80: put_10_12(section + offset, gp + value_of(values, r, G)); continue;
        case 77: put_5_20(section + offset, from_4g(gp + value_of(values, r, G), pc) >> 32); continue;
        case 78: put_10_12(section + offset, from_4g(gp + value_of(values, r, G), pc) >> 52); continue;
        case 79: put_5_20(section + offset, (gp + value_of(values, r, G)) >> 12); continue;
        case 81: put_5_20(section + offset, (gp + value_of(values, r, G)) >> 32); continue;
        case 82: put_10_12(section + offset, (gp + value_of(values, r, G)) >> 52); continue;

        case 83: put_5_20(section + offset, value_of(values, r, T) >> 12); continue;
        case 84: put_10_12(section + offset, value_of(values, r, T)); continue;
        case 85: put_5_20(section + offset, value_of(values, r, T) >> 32); continue;
        case 86: put_10_12(section + offset, value_of(values, r, T) >> 52); continue;

        case 87: put_5_20(section + offset, pages(gp + value_of(values, r, IE), pc)); continue;
        case 88: case 92: put_10_12(section + offset, gp + value_of(values, r, IE)); continue;
        case 89: put_5_20(section + offset, from_4g(gp + value_of(values, r, IE), pc) >> 32); continue;
        case 90: put_10_12(section + offset, from_4g(gp + value_of(values, r, IE), pc) >> 52); continue;
        case 91: case 96: case 98: put_5_20(section + offset, (gp + value_of(values, r, IE)) >> 12); continue;
        case 93: put_5_20(section + offset, (gp + value_of(values, r, IE)) >> 32); continue;
        case 94: put_10_12(section + offset, (gp + value_of(values, r, IE)) >> 52); continue;
        case 95: case 97: put_5_20(section + offset, pages(gp + value_of(values, r, GD), pc)); continue;

        case 47: section[offset] = (uint8_t)(section[offset] + value_of(values, r, S) + a); continue;
        case 48: at = section + offset; store16(at, (uint16_t)(load16(at) + value_of(values, r, S) + a)); continue;
        case 49: add24(section + offset, value_of(values, r, S) + a); continue;
        case 50: at = section + offset; store32(at, (uint32_t)(load32(at) + value_of(values, r, S) + a)); continue;
        case 51: at = section + offset; store64(at, load64(at) + value_of(values, r, S) + a); continue;
        case 52: section[offset] = (uint8_t)(section[offset] - value_of(values, r, S) - a); continue;
        case 53: at = section + offset; store16(at, (uint16_t)(load16(at) - value_of(values, r, S) - a)); continue;
        case 54: add24(section + offset, 0 - value_of(values, r, S) - a); continue;
        case 55: at = section + offset; store32(at, (uint32_t)(load32(at) - value_of(values, r, S) - a)); continue;
        case 56: at = section + offset; store64(at, load64(at) - value_of(values, r, S) - a); continue;
        case 1: store32(section + offset, (uint32_t)(value_of(values, r, S) + a)); continue;
        case 2: store64(section + offset, value_of(values, r, S) + a); continue;
        case 99: store32(section + offset, (uint32_t)(value_of(values, r, S) + a - pc)); continue;
        default: continue;
        }
    }
}

rofteluvi_answer plain_patch(uint8_t *section, size_t section_len, const uint8_t *records, size_t records_len,
                             const uint8_t *values, size_t values_len, uint64_t address, uint64_t gp) {
    if (section_len > 65536)
        return answer(1, 0);
    if (records_len > 49152)
        return answer(1, 1);
    if (values_len > 57344)
        return answer(1, 2);
    if (records_len % 24 != 0)
        return answer(2, 1);
    if (values_len % 56 != 0)
        return answer(2, 2);
    size_t count = records_len / 24, rows = values_len / 56;
    for (size_t row = 0; row < rows; row++)
        if (load64(values + 56 * row) > 63)
            return answer(3, row);
    rofteluvi_answer judged = judge(section_len, records, count, values, rows, address);
    if (judged.number == 0)
        write_all(section, records, count, values, address, gp);
    return judged;
}

/* ---- Read back ---- */

static inline int64_t sign_extended(uint32_t x, unsigned bits) {
    return (int64_t)((uint64_t)x << (64 - bits)) >> (64 - bits);
}

static int64_t immediate(uint32_t type, uint32_t word) {
    uint32_t middle = word >> 10 & 0xffff;
    switch (type) {
    case 38: return sign_extended(middle, 5);
    case 39: return middle & 0xfff;
    case 40: return sign_extended(middle, 12);
    case 41: return sign_extended(middle, 16);
    case 42: case 64: return sign_extended(middle << 2, 18);
    case 43: return sign_extended(word >> 5, 20);
    case 44: case 65: return sign_extended((word & 0x1f) << 18 | middle << 2, 23);
    case 45: case 66: return sign_extended((word & 0x3ff) << 18 | middle << 2, 28);
    case 46: return word;
    case 95: case 96: case 97: case 98: return word >> 5 & 0xfffff;
    default: return type % 2 == 1 ? word >> 5 & 0xfffff : middle & 0xfff;
    }
}

rofteluvi_immediate plain_read_back(const uint8_t *section, size_t section_len, uint64_t address, uint64_t offset,
                                    uint32_t type) {
    rofteluvi_immediate r = {0, 0, 0};
    if (section_len > 65536)
        r.number = 1;
    else if (type < 38 || type > 98 || (type > 46 && type < 64))
        r.number = 4;
    else if (offset >= end_for(section_len, 4))
        r.number = 8;
    else if (((address + offset) & 3) != 0)
        r.number = 9;
    else
        r.value = immediate(type, load32(section + offset));
    return r;
}

/* ---- Run ---- */

static inline rofteluvi_ran ran(uint32_t number, size_t place) {
    rofteluvi_ran r = {number, (uint32_t)place};
    return r;
}

rofteluvi_ran plain_run(const uint8_t *run, size_t run_len, uint64_t start, uint64_t registers[ROFTELUVI_REGISTERS]) {
    registers[0] = 0;
    if (run_len > 16384)
        return ran(1, 0);
    size_t count = run_len / 4;
    for (size_t i = 0; i < count; i++) {
        uint32_t word = load32(run + 4 * i);
        const uint64_t *rj = &registers[word >> 5 & 31];
        uint64_t *rd = &registers[word & 31];
        switch (word >> 25) {
        case 0x0a: *rd = (uint64_t)sign_extended(word >> 5, 20) << 12; break;
        case 0x0b: *rd = (uint64_t)sign_extended(word >> 5, 20) << 32 | (uint32_t)*rd; break;
        case 0x0d: *rd = (start + 4 * i + ((uint64_t)sign_extended(word >> 5, 20) << 12)) & ~(uint64_t)0xfff; break;
        default:
            switch (word >> 22) {
            case 0x0b: *rd = *rj + (uint64_t)sign_extended(word >> 10, 12); break;
            case 0x0c: *rd = (uint64_t)(word >> 10) << 52 | (*rj & 0xfffffffffffff); break;
            case 0x0e: *rd = *rj | (word >> 10 & 0xfff); break;
            default: return ran(19, i);
            }
        }
        registers[0] = 0;
    }
    return ran(run_len % 4 != 0 ? 19 : 0, count);
}
