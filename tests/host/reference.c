#include "reference.h"

/* ---- Numbers ---- */

/* The unsigned 64-bit number whose bits are read as a signed one. */
static int64_t as_signed(uint64_t x) {
    if (x <= INT64_MAX)
        return (int64_t)x;
    return -(int64_t)(UINT64_MAX - x) - 1;
}

/* A little-endian number of n bytes, n from 1 to 8. */
static uint64_t get(const uint8_t *at, unsigned n) {
    uint64_t x = 0;
    for (unsigned i = n; i > 0; i--)
        x = x * 256 + at[i - 1];
    return x;
}

/* Stores the low n bytes of a number. */
static void set(uint8_t *at, unsigned n, uint64_t x) {
    for (unsigned i = 0; i < n; i++) {
        at[i] = (uint8_t)(x % 256);
        x /= 256;
    }
}

/* Bits [hi..lo] of a number. */
static uint64_t bits(uint64_t x, unsigned hi, unsigned lo) {
    uint64_t result = 0;
    for (unsigned i = lo; i <= hi; i++)
        if (x >> i & 1)
            result |= (uint64_t)1 << (i - lo);
    return result;
}

/* The word with its bits [hi..lo] replaced by the low bits of x; all others stay. */
static uint32_t with_bits(uint32_t word, unsigned hi, unsigned lo, uint64_t x) {
    for (unsigned i = lo; i <= hi; i++) {
        uint32_t one = (uint32_t)1 << i;
        word = (x >> (i - lo) & 1) ? (word | one) : (word & ~one);
    }
    return word;
}

/* A signed number shifted right, rounded downwards. The count is 0 to 63. */
static int64_t shifted_right(int64_t x, unsigned count) {
    for (unsigned i = 0; i < count; i++) {
        if (x < 0 && x % 2 != 0)
            x = x - 1; /* the lowest number is even, so this is never below it */
        x = x / 2;
    }
    return x;
}

/* ---- What the paper says of each type ---- */

enum value { NO_VALUE, S, G, PLT, T, IE, GD };

/* Whether the table names the type, the run-time loader's included. */
static int named(uint32_t type) {
    return type <= 12 || (type >= 20 && type <= 58) || (type >= 64 && type <= 100);
}

/* Types 3 to 12 are left to the run-time loader. */
static int loaders(uint32_t type) {
    return type >= 3 && type <= 12;
}

/* The value that the type's formula names. */
static enum value value_used(uint32_t type) {
    switch (type) {
    case 1: case 2:
    case 22: case 23:
    case 47: case 48: case 49: case 50: case 51:
    case 52: case 53: case 54: case 55: case 56:
    case 64: case 65: case 66:
    case 67: case 68: case 69: case 70:
    case 71: case 72: case 73: case 74:
    case 99:
        return S;
    case 25:
    case 75: case 76: case 77: case 78:
    case 79: case 80: case 81: case 82:
        return G;
    case 26:
    case 83: case 84: case 85: case 86:
        return T;
    case 27:
    case 87: case 88: case 89: case 90:
    case 91: case 92: case 93: case 94:
    case 96: case 98:
        return IE;
    case 28:
    case 95: case 97:
        return GD;
    case 29:
        return PLT;
    default:
        return NO_VALUE;
    }
}

/* A word type: it writes a field of an instruction word. */
static int is_word(uint32_t type) {
    return (type >= 38 && type <= 46) || (type >= 64 && type <= 98);
}

unsigned reference_width(uint32_t type) {
    if (is_word(type))
        return 4;
    switch (type) {
    case 47: case 52: return 1;
    case 48: case 53: return 2;
    case 49: case 54: return 3;
    case 50: case 55: return 4;
    case 51: case 56: return 8;
    case 1: return 4;
    case 2: return 8;
    case 99: return 4;
    default: return 0;
    }
}

int reference_checked(uint32_t type) {
    return (type >= 38 && type <= 46) || (type >= 64 && type <= 66);
}

/* How many entries the type needs on the stack. */
static unsigned entries_taken(uint32_t type) {
    switch (type) {
    case 24: /* duplicates the top: takes it and pushes it twice */
    case 30: case 31:
    case 38: case 39: case 40: case 41: case 42: case 43: case 44: case 45: case 46:
        return 1;
    case 32: case 33: case 34: case 35: case 36:
        return 2;
    case 37:
        return 3;
    default:
        return 0;
    }
}

/* How many it then pushes. */
static unsigned entries_pushed(uint32_t type) {
    switch (type) {
    case 22: case 23: case 25: case 26: case 27: case 28: case 29:
        return 1;
    case 24:
        return 2;
    case 31: case 32: case 33: case 34: case 35: case 36: case 37:
        return 1;
    default:
        return 0;
    }
}

static uint64_t without_low_12(uint64_t x) { return x - x % 4096; }
static uint64_t without_low_32(uint64_t x) { return x - x % 4294967296; }

/* The target of types 71 to 78, 87 to 90, 95 and 97: S+A, or GP with the value. */
static uint64_t target(uint32_t type, uint64_t value, uint64_t a, uint64_t gp) {
    return type <= 74 ? value + a : gp + value;
}

/* Its upper part, which is taken after adding 800h. */
static uint64_t upper_part(uint64_t x) { return without_low_12(x + 0x800); }

int reference_takes_upper_part(uint32_t type) {
    return type == 71 || type == 75 || type == 87 || type == 95 || type == 97;
}

/* The number that a type computes from the value it uses (S, G, PLT, T, IE or GD), its addend, PC and GP. */
static uint64_t formula(uint32_t type, uint64_t value, uint64_t a, uint64_t pc, uint64_t gp) {
    switch (type) {
    case 22:
        return value - pc + a;
    case 23:
        return value + a;
    case 25: case 26: case 27: case 28:
        return value;
    case 29:
        return value - pc;
    case 1: case 2:
    case 47: case 48: case 49: case 50: case 51:
    case 52: case 53: case 54: case 55: case 56:
        return value + a;
    case 99:
    case 64: case 65: case 66:
        return value + a - pc;
    case 67: case 68: case 69: case 70:
        return value + a;
    case 71: case 75: case 87: case 95: case 97:
        return upper_part(target(type, value, a, gp)) - without_low_12(pc);
    case 72: case 76: case 88:
        return target(type, value, a, gp);
    case 73: case 74: case 77: case 78: case 89: case 90:
        return target(type, value, a, gp) - without_low_32(pc);
    case 79: case 80: case 81: case 82:
    case 91: case 92: case 93: case 94:
    case 96: case 98:
        return gp + value;
    case 83: case 84: case 85: case 86:
        return value;
    default:
        return 0;
    }
}

/* 0, or 14 for a number above the type's range, 18 for one below it, or 15 for one in range that is no multiple of 4. */
static uint32_t fault_of_immediate(uint32_t type, int64_t x) {
    int64_t lowest, highest;
    int fours = 0;
    switch (type) {
    case 38: lowest = -16; highest = 15; break;
    case 39: lowest = 0; highest = 4095; break;
    case 40: lowest = -2048; highest = 2047; break;
    case 41: lowest = -32768; highest = 32767; break;
    case 42: case 64: lowest = -131072; highest = 131071; fours = 1; break;
    case 43: lowest = -524288; highest = 524287; break;
    case 44: case 65: lowest = -4194304; highest = 4194303; fours = 1; break;
    case 45: case 66: lowest = -134217728; highest = 134217727; fours = 1; break;
    case 46: lowest = 0; highest = 4294967295; break;
    default: return 0;
    }
    if (x > highest)
        return ROFTELUVI_ABOVE_RANGE;
    if (x < lowest)
        return ROFTELUVI_BELOW_RANGE;
    if (fours && x % 4 != 0)
        return ROFTELUVI_NOT_MULTIPLE;
    return 0;
}

/* The word with the type's field rewritten. */
static uint32_t with_field(uint32_t type, uint32_t word, uint64_t x) {
    switch (type) {
    case 38:
        return with_bits(word, 14, 10, bits(x, 4, 0));
    case 39: case 40:
        return with_bits(word, 21, 10, bits(x, 11, 0));
    case 41:
        return with_bits(word, 25, 10, bits(x, 15, 0));
    case 42: case 64:
        return with_bits(word, 25, 10, bits(x, 17, 2));
    case 43:
        return with_bits(word, 24, 5, bits(x, 19, 0));
    case 44: case 65:
        word = with_bits(word, 4, 0, bits(x, 22, 18));
        return with_bits(word, 25, 10, bits(x, 17, 2));
    case 45: case 66:
        word = with_bits(word, 9, 0, bits(x, 27, 18));
        return with_bits(word, 25, 10, bits(x, 17, 2));
    case 46:
        return with_bits(word, 31, 0, bits(x, 31, 0));
    case 67: case 71: case 75: case 79: case 83: case 87: case 91: /* HI20 */
    case 95: case 96: case 97: case 98:
        return with_bits(word, 24, 5, bits(x, 31, 12));
    case 68: case 72: case 76: case 80: case 84: case 88: case 92: /* LO12 */
        return with_bits(word, 21, 10, bits(x, 11, 0));
    case 69: case 73: case 77: case 81: case 85: case 89: case 93: /* 64_LO20 */
        return with_bits(word, 24, 5, bits(x, 51, 32));
    case 70: case 74: case 78: case 82: case 86: case 90: case 94: /* 64_HI12 */
        return with_bits(word, 21, 10, bits(x, 63, 52));
    default:
        return word;
    }
}

/* ---- Records, rows and the stack ---- */

struct record reference_record(const uint8_t *records, size_t index) {
    const uint8_t *at = records + 24 * index;
    struct record r;
    r.offset = get(at, 8);
    r.type = (uint32_t)get(at + 8, 4);
    r.symbol = (uint32_t)get(at + 12, 4);
    r.addend = get(at + 16, 8);
    return r;
}

/* Looks up what the type uses. 0, or 6 for a symbol past the rows, or 7 for a value that is absent. */
static uint32_t look_up(const struct call *call, uint32_t symbol, enum value which, uint64_t *value) {
    *value = 0;
    if (which == NO_VALUE)
        return 0;
    if (symbol == 0)
        return which == S ? 0 : ROFTELUVI_VALUE_ABSENT;
    if (symbol > call->values_len / 56)
        return ROFTELUVI_NO_SUCH_SYMBOL;
    const uint8_t *row = call->values + 56 * (size_t)(symbol - 1);
    unsigned position = (unsigned)which; /* S is the row's number 1, up to GD, number 6; the mask is number 0 */
    if ((get(row, 8) >> (position - 1) & 1) == 0)
        return ROFTELUVI_VALUE_ABSENT;
    *value = get(row + 8 * position, 8);
    return 0;
}

uint64_t reference_target(const struct call *call, const struct record *r) {
    uint64_t value;
    look_up(call, r->symbol, value_used(r->type), &value);
    return target(r->type, value, r->addend, call->gp);
}

int reference_reaches(uint64_t pc, uint64_t target) {
    return upper_part(target) - without_low_12(pc) + 0x80000000 < 0x100000000;
}

static int64_t take(struct stack *stack) {
    return stack->entry[--stack->depth];
}

static void push(struct stack *stack, int64_t x) {
    stack->entry[stack->depth++] = x;
}

uint32_t reference_judge(const struct call *call, const struct record *r, struct stack *stack, int64_t *value) {
    uint64_t used;
    uint32_t fault;
    *value = 0;

    if (!named(r->type))
        return ROFTELUVI_UNKNOWN_TYPE;
    if (loaders(r->type))
        return ROFTELUVI_LOADER_TYPE;
    fault = look_up(call, r->symbol, value_used(r->type), &used);
    if (fault != 0)
        return fault;
    unsigned width = reference_width(r->type);
    if (width > 0 && (r->offset > call->section_len || width > call->section_len - r->offset))
        return ROFTELUVI_OUTSIDE;
    uint64_t pc = call->address + r->offset;
    if (is_word(r->type) && pc % 4 != 0)
        return ROFTELUVI_UNALIGNED;
    if (stack->depth < entries_taken(r->type))
        return ROFTELUVI_STACK_EMPTY;
    if (stack->depth - entries_taken(r->type) + entries_pushed(r->type) > ROFTELUVI_STACK_DEPTH)
        return ROFTELUVI_STACK_FULL;

    int64_t sum = as_signed(formula(r->type, used, r->addend, pc, call->gp));
    int64_t opr1, opr2, opr3;
    switch (r->type) {
    case 22: case 23: case 25: case 26: case 27: case 28: case 29:
        push(stack, sum);
        return 0;
    case 24:
        opr1 = take(stack);
        push(stack, opr1);
        push(stack, opr1);
        return 0;
    case 30:
        opr1 = take(stack);
        return opr1 == 0 ? ROFTELUVI_ASSERTION : 0;
    case 31:
        opr1 = take(stack);
        push(stack, opr1 == 0 ? 1 : 0);
        return 0;
    case 32:
        opr2 = take(stack);
        opr1 = take(stack);
        push(stack, as_signed((uint64_t)opr1 - (uint64_t)opr2));
        return 0;
    case 33:
        opr2 = take(stack);
        opr1 = take(stack);
        if (opr2 < 0 || opr2 > 63)
            return ROFTELUVI_SHIFT_COUNT;
        push(stack, as_signed((uint64_t)opr1 << opr2));
        return 0;
    case 34:
        opr2 = take(stack);
        opr1 = take(stack);
        if (opr2 < 0 || opr2 > 63)
            return ROFTELUVI_SHIFT_COUNT;
        push(stack, shifted_right(opr1, (unsigned)opr2));
        return 0;
    case 35:
        opr2 = take(stack);
        opr1 = take(stack);
        push(stack, as_signed((uint64_t)opr1 + (uint64_t)opr2));
        return 0;
    case 36:
        opr2 = take(stack);
        opr1 = take(stack);
        push(stack, as_signed((uint64_t)opr1 & (uint64_t)opr2));
        return 0;
    case 37:
        opr3 = take(stack);
        opr2 = take(stack);
        opr1 = take(stack);
        push(stack, opr1 != 0 ? opr2 : opr3);
        return 0;
    case 38: case 39: case 40: case 41: case 42: case 43: case 44: case 45: case 46:
        *value = take(stack);
        return fault_of_immediate(r->type, *value);
    default:
        *value = sum;
        return fault_of_immediate(r->type, *value);
    }
}

/* ---- Patch ---- */

/* Writes what an accepted record writes. */
static void write_record(const struct call *call, const struct record *r, int64_t value) {
    unsigned width = reference_width(r->type);
    if (width == 0)
        return;
    uint8_t *at = call->section + r->offset;
    if (is_word(r->type)) {
        set(at, 4, with_field(r->type, (uint32_t)get(at, 4), (uint64_t)value));
        return;
    }
    switch (r->type) {
    case 47: case 48: case 49: case 50: case 51:
        set(at, width, get(at, width) + (uint64_t)value);
        return;
    case 52: case 53: case 54: case 55: case 56:
        set(at, width, get(at, width) - (uint64_t)value);
        return;
    default: /* 1, 2 and 99 */
        set(at, width, (uint64_t)value);
        return;
    }
}

/* An answer that is about no record. */
static rofteluvi_answer answer(uint32_t number, size_t place) {
    rofteluvi_answer a;
    a.number = number;
    a.place = (uint32_t)place;
    a.offset = 0;
    return a;
}

rofteluvi_answer reference_patch(const struct call *call) {
    struct stack stack;
    int64_t value;

    if (call->section_len > 65536)
        return answer(ROFTELUVI_TOO_LONG, 0);
    if (call->records_len > 49152)
        return answer(ROFTELUVI_TOO_LONG, 1);
    if (call->values_len > 57344)
        return answer(ROFTELUVI_TOO_LONG, 2);
    if (call->records_len % 24 != 0)
        return answer(ROFTELUVI_NOT_WHOLE, 1);
    if (call->values_len % 56 != 0)
        return answer(ROFTELUVI_NOT_WHOLE, 2);
    for (size_t row = 0; row < call->values_len / 56; row++)
        if (get(call->values + 56 * row, 8) > 63)
            return answer(ROFTELUVI_BAD_MASK, row);

    size_t records = call->records_len / 24;
    stack.depth = 0;
    for (size_t i = 0; i < records; i++) {
        struct record r = reference_record(call->records, i);
        uint32_t fault = reference_judge(call, &r, &stack, &value);
        if (fault != 0) {
            rofteluvi_answer refused = answer(fault, i);
            refused.offset = r.offset;
            return refused;
        }
    }
    if (stack.depth > 0)
        return answer(ROFTELUVI_STACK_LEFT, records);

    for (size_t i = 0; i < records; i++) {
        struct record r = reference_record(call->records, i);
        reference_judge(call, &r, &stack, &value);
        write_record(call, &r, value);
    }
    return answer(ROFTELUVI_ACCEPTED, records);
}

/* ---- Read back ---- */

/* An n-bit number read as signed. */
static int64_t signed_of(uint64_t x, unsigned n) {
    uint64_t limit = (uint64_t)1 << n;
    return x < limit / 2 ? (int64_t)x : (int64_t)x - (int64_t)limit;
}

static int64_t immediate_in(uint32_t type, uint32_t word) {
    switch (type) {
    case 38:
        return signed_of(bits(word, 14, 10), 5);
    case 39:
        return (int64_t)bits(word, 21, 10);
    case 40:
        return signed_of(bits(word, 21, 10), 12);
    case 41:
        return signed_of(bits(word, 25, 10), 16);
    case 42: case 64:
        return signed_of(bits(word, 25, 10) * 4, 18);
    case 43:
        return signed_of(bits(word, 24, 5), 20);
    case 44: case 65:
        return signed_of(bits(word, 4, 0) * 262144 + bits(word, 25, 10) * 4, 23);
    case 45: case 66:
        return signed_of(bits(word, 9, 0) * 262144 + bits(word, 25, 10) * 4, 28);
    case 46:
        return (int64_t)word;
    case 67: case 71: case 75: case 79: case 83: case 87: case 91: /* HI20 and 64_LO20 */
    case 95: case 96: case 97: case 98:
    case 69: case 73: case 77: case 81: case 85: case 89: case 93:
        return (int64_t)bits(word, 24, 5);
    default: /* LO12 and 64_HI12 */
        return (int64_t)bits(word, 21, 10);
    }
}

rofteluvi_immediate reference_read_back(const uint8_t *section, size_t section_len, uint64_t address, uint64_t offset,
                                        uint32_t type) {
    rofteluvi_immediate result = {0, 0, 0};
    if (section_len > 65536)
        result.number = ROFTELUVI_TOO_LONG;
    else if (!is_word(type))
        result.number = ROFTELUVI_UNKNOWN_TYPE;
    else if (offset > section_len || section_len - offset < 4)
        result.number = ROFTELUVI_OUTSIDE;
    else if ((address + offset) % 4 != 0)
        result.number = ROFTELUVI_UNALIGNED;
    else
        result.value = immediate_in(type, (uint32_t)get(section + offset, 4));
    return result;
}
