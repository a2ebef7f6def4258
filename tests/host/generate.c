#include "generate.h"

/* ---- Random numbers (splitmix64) ---- */

static uint64_t state;

void random_seed(uint64_t seed) {
    state = seed;
}

uint64_t random_next(void) {
    uint64_t x = state += 0x9e3779b97f4a7c15;
    x = (x ^ (x >> 30)) * 0xbf58476d1ce4e5b9;
    x = (x ^ (x >> 27)) * 0x94d049bb133111eb;
    return x ^ (x >> 31);
}

uint64_t random_below(uint64_t n) {
    return random_next() % n;
}

static int one_in(unsigned n) {
    return random_below(n) == 0;
}

/* A target whose low 12 bits are 7ffh or 800h: the last that leave its upper part as it is, and the first that do not. */
static uint64_t at_half_a_page(void) {
    return (random_next() & ~(uint64_t)0xfff) + 0x7ff + random_below(2);
}

/* A number that is likely to find a fault: small, near a power of two, near the section's address or GP, such that with GP it is a target
   at half a page, or anything. */
static uint64_t interesting(const struct draft *d) {
    uint64_t around;
    switch (random_below(9)) {
    case 0: return random_below(70);
    case 1: return 0 - random_below(70);
    case 2: around = (uint64_t)1 << random_below(64); break;
    case 3: around = 0 - ((uint64_t)1 << random_below(64)); break;
    case 4: around = d->address; break;
    case 5: around = d->gp; break;
    case 6: return random_next() >> random_below(64);
    case 7: return at_half_a_page() - d->gp;
    default: return random_next();
    }
    return around + random_below(17) - 8;
}

/* ---- What the generator knows of types ---- */

uint32_t unnamed_type(unsigned index) {
    switch (index) {
    case 0: case 1: case 2: case 3: case 4: case 5: case 6: return 13 + index;
    case 7: case 8: case 9: case 10: case 11: return 59 + (index - 7);
    case 12: case 13: case 14: case 15: return 101 + (index - 12);
    case 16: return 127;
    case 17: return 128;
    case 18: return 255;
    case 19: return 256;      /* 0 and 23, 66, 67 and so on with a bit more: a type is all 32 bits */
    case 20: return 256 + 23;
    case 21: return 256 + 66;
    case 22: return 65536 + 67;
    case 23: return 0x80000000;
    case 24: return 0x80000000 + 66;
    case 25: return 0xffffffff;
    case 26: return 0xfffffffe;
    case 27: return 256 + 3;
    case 28: return 128 + 20;
    default: return 128 + 47;
    }
}

enum { NOTHING = -1, VALUE_S = 0, VALUE_G, VALUE_PLT, VALUE_T, VALUE_IE, VALUE_GD };

/* The place in a row of what a type uses. */
static int place_in_row(uint32_t type) {
    if (type == 1 || type == 2 || type == 22 || type == 23 || type == 99)
        return VALUE_S;
    if ((type >= 47 && type <= 56) || (type >= 64 && type <= 74))
        return VALUE_S;
    if (type == 25 || (type >= 75 && type <= 82))
        return VALUE_G;
    if (type == 26 || (type >= 83 && type <= 86))
        return VALUE_T;
    if (type == 28 || type == 95 || type == 97)
        return VALUE_GD;
    if (type == 27 || (type >= 87 && type <= 98))
        return VALUE_IE;
    if (type == 29)
        return VALUE_PLT;
    return NOTHING;
}

static int writes_word(uint32_t type) {
    return (type >= 38 && type <= 46) || (type >= 64 && type <= 98);
}

struct range {
    int64_t low, high;
    int fours;
};

static struct range signed_range(unsigned bits, int fours) {
    struct range r = {-((int64_t)1 << (bits - 1)), ((int64_t)1 << (bits - 1)) - 1, fours};
    return r;
}

static struct range range_of(uint32_t type) {
    struct range unsigned_12 = {0, 4095, 0}, unsigned_32 = {0, 4294967295, 0};
    switch (type) {
    case 38: return signed_range(5, 0);
    case 39: return unsigned_12;
    case 40: return signed_range(12, 0);
    case 41: return signed_range(16, 0);
    case 42: case 64: return signed_range(18, 1);
    case 43: return signed_range(20, 0);
    case 44: case 65: return signed_range(23, 1);
    case 45: case 66: return signed_range(28, 1);
    default: return unsigned_32;
    }
}

/* An immediate that the type accepts, often at an end of its range. */
static int64_t inside(uint32_t type) {
    struct range r = range_of(type);
    int64_t x;
    switch (random_below(4)) {
    case 0: x = r.low + (int64_t)random_below(6); break;
    case 1: x = r.high - (int64_t)random_below(6); break;
    case 2: x = r.low < 0 && one_in(2) ? -(int64_t)random_below(9) : (int64_t)random_below(9); break;
    default: x = r.low + (int64_t)random_below((uint64_t)(r.high - r.low) + 1); break;
    }
    return r.fours ? x - (x % 4 + 4) % 4 : x;
}

/* One above its range or below it, often just outside; a multiple of 4 or not. */
static int64_t above(uint32_t type) {
    struct range r = range_of(type);
    int64_t far = (int64_t)(random_next() >> (1 + random_below(28)));
    return !one_in(3) ? r.high + 1 + (int64_t)random_below(6) : far > r.high ? far : INT64_MAX;
}

static int64_t below(uint32_t type) {
    struct range r = range_of(type);
    int64_t far = (int64_t)(random_next() >> (1 + random_below(28)));
    return !one_in(3) ? r.low - 1 - (int64_t)random_below(6) : -far < r.low ? -far : INT64_MIN;
}

/* One in range that is no multiple of 4. */
static int64_t between_fours(uint32_t type) {
    return inside(type) + 1 + (int64_t)random_below(3);
}

/* ---- Choices for one record ---- */

/* A symbol that has what the type uses, where there is one; any number where the type uses nothing. */
static uint32_t symbol_for(const struct draft *d, uint32_t type) {
    int place = place_in_row(type);
    size_t rows = d->values_len / ROFTELUVI_ROW_BYTES;
    if (place == NOTHING)
        return one_in(3) ? 0 : (uint32_t)random_next();
    if (place == VALUE_S && one_in(4))
        return 0;
    for (int i = 0; i < 8 && rows > 0; i++) {
        size_t row = random_below(rows);
        if (d->values[ROFTELUVI_ROW_BYTES * row] >> place & 1)
            return (uint32_t)row + 1;
    }
    return place == VALUE_S ? 0 : (uint32_t)random_below(rows + 2);
}

/* S of a symbol; 0 if it has none. */
static uint64_t s_of(const struct draft *d, uint32_t symbol) {
    uint64_t x = 0;
    if (symbol == 0 || symbol > d->values_len / ROFTELUVI_ROW_BYTES)
        return 0;
    const uint8_t *at = d->values + ROFTELUVI_ROW_BYTES * (size_t)(symbol - 1) + 8;
    for (int i = 8; i > 0; i--)
        x = x << 8 | at[i - 1];
    return x;
}

static uint64_t last_offset; /* where the last record was put: others go near it, so that writes overlap */

/* An offset that the type may write at, where there is one; any number where it writes nothing. */
static uint64_t offset_for(const struct draft *d, uint32_t type) {
    unsigned width = reference_width(type);
    uint64_t offset, most;
    if (width == 0)
        return one_in(2) ? random_below(d->section_len + 9) : interesting(d);
    if (d->section_len < width)
        return random_below(8);
    most = d->section_len - width;
    switch (random_below(8)) {
    case 0: offset = 0; break;
    case 1: offset = most; break;
    case 2: case 3: offset = last_offset + random_below(11) - 5; break;
    default: offset = random_below(most + 1); break;
    }
    if (offset > most)
        offset = most;
    if (writes_word(type)) {
        uint64_t past = (d->address + offset) % 4;
        offset = offset >= past ? offset - past : offset + 4 - past;
    }
    return last_offset = offset;
}

/* The addend that makes S+A-PC of types 64 to 66 this number. */
static uint64_t addend_for(const struct draft *d, uint64_t offset, uint32_t symbol, int64_t wanted) {
    return (uint64_t)wanted - s_of(d, symbol) + (d->address + offset);
}

/* ---- Growing a list ---- */

uint32_t generate_try(struct draft *d, struct stack *stack, uint64_t offset, uint32_t type, uint32_t symbol, uint64_t addend) {
    struct call call = draft_call(d);
    struct record r = {offset, type, symbol, addend};
    struct stack next = *stack;
    int64_t value;
    uint32_t fault = reference_judge(&call, &r, &next, &value);
    if (fault == 0) {
        *stack = next;
        draft_record(d, offset, type, symbol, addend);
    }
    return fault;
}

/* Pushes a chosen number, by type 22 or 23 with some symbol. */
static void push_number(struct draft *d, struct stack *stack, int64_t wanted) {
    uint32_t type = one_in(2) ? 22 : 23, symbol = symbol_for(d, 23);
    uint64_t offset = offset_for(d, type), addend = (uint64_t)wanted - s_of(d, symbol);
    generate_try(d, stack, offset, type, symbol, type == 22 ? addend + (d->address + offset) : addend);
}

/* Makes the top of the stack a chosen number, whatever it is now: pushes the difference and adds. */
static void make_top(struct draft *d, struct stack *stack, int64_t wanted) {
    if (stack->depth == 0) {
        push_number(d, stack, wanted);
    } else if (stack->depth < ROFTELUVI_STACK_DEPTH && stack->entry[stack->depth - 1] != wanted) {
        push_number(d, stack, (int64_t)((uint64_t)wanted - (uint64_t)stack->entry[stack->depth - 1]));
        generate_try(d, stack, offset_for(d, 35), 35, symbol_for(d, 35), interesting(d));
    }
}

/* Takes the top into a word, of a type and with a value that suits it. */
static uint32_t pop_into_word(struct draft *d, struct stack *stack, uint32_t type, int64_t wanted) {
    make_top(d, stack, wanted);
    return generate_try(d, stack, offset_for(d, type), type, symbol_for(d, type), interesting(d));
}

void generate_drain(struct draft *d, struct stack *stack) {
    while (stack->depth > 0) {
        uint32_t type = 38 + (uint32_t)random_below(9);
        if (d->section_len >= 8 && stack->depth < ROFTELUVI_STACK_DEPTH && !one_in(4))
            pop_into_word(d, stack, type, inside(type));
        else if (stack->entry[stack->depth - 1] == 0)
            generate_try(d, stack, 0, 31, 0, 0);
        else
            generate_try(d, stack, 0, 30, 0, 0);
    }
}

static uint32_t random_type(const struct stack *stack) {
    static const uint32_t idle[] = {0, 20, 21, 57, 58, 100}, store[] = {1, 2, 99};
    switch (random_below(20)) {
    case 0: return idle[random_below(6)];
    case 1: return store[random_below(3)];
    case 2: case 3: case 4: case 5: return 47 + (uint32_t)random_below(10);
    case 6: case 7: return 64 + (uint32_t)random_below(3);
    case 8: case 9: case 10: case 11: case 12: return 67 + (uint32_t)random_below(32);
    default:
        if (stack->depth < 3 || one_in(3))
            return 22 + (uint32_t)random_below(8);
        return 30 + (uint32_t)random_below(17);
    }
}

/* Appends one record or a few, all accepted; now and then nothing. */
static void grow(struct draft *d, struct stack *stack) {
    uint32_t type = random_type(stack);
    if (type >= 38 && type <= 46) {
        pop_into_word(d, stack, type, inside(type));
        return;
    }
    if ((type == 33 || type == 34) && stack->depth < ROFTELUVI_STACK_DEPTH)
        push_number(d, stack, one_in(4) ? 63 : (int64_t)random_below(64));
    uint64_t offset = offset_for(d, type), addend = interesting(d);
    uint32_t symbol = symbol_for(d, type);
    if (type >= 64 && type <= 66)
        addend = addend_for(d, offset, symbol, inside(type));
    else if (type >= 67 && type <= 74 && one_in(4))
        addend = at_half_a_page() - s_of(d, symbol);
    generate_try(d, stack, offset, type, symbol, addend);
}

/* Room that is left for records, with what it takes to empty the stack put aside. */
static int room_for_more(const struct draft *d, const struct stack *stack) {
    return d->records_len / ROFTELUVI_RECORD_BYTES + 3 * stack->depth + 24 <= ROFTELUVI_RECORDS_MAX;
}

/* A list that is accepted record by record; the stack may hold entries at its end. */
static void grow_list(struct draft *d, struct stack *stack, size_t steps) {
    for (size_t i = 0; i < steps && room_for_more(d, stack); i++)
        grow(d, stack);
}

/* ---- Refusals at a chosen place ---- */

static uint32_t any_of(const uint32_t *types, unsigned count) {
    return types[random_below(count)];
}

/* A type for which `suits` holds. */
static uint32_t type_such_that(int (*suits)(uint32_t)) {
    uint32_t type;
    do
        type = (uint32_t)random_below(101);
    while (!suits(type));
    return type;
}

static int uses_value(uint32_t type) { return place_in_row(type) != NOTHING; }
static int writes(uint32_t type) { return reference_width(type) > 0; }

/* Removes entries, so that at most `most` are left. */
static void lower_stack(struct draft *d, struct stack *stack, unsigned most) {
    while (stack->depth > most) {
        if (stack->entry[stack->depth - 1] == 0)
            generate_try(d, stack, 0, 31, 0, 0);
        else
            generate_try(d, stack, 0, 30, 0, 0);
    }
}

const uint32_t record_fault[RECORD_FAULTS] = {4, 5, 6, 7, 8, 9, 10, 11, 12, 13, 14, 18, 15};

void generate_fault(struct draft *d, struct stack *stack, uint32_t number) {
    static const uint32_t takes_one[] = {24, 30, 31, 38, 39, 40, 41, 42, 43, 44, 45, 46}, takes_two[] = {32, 33, 34, 35, 36};
    static const uint32_t in_fours[] = {42, 44, 45, 64, 65, 66};
    size_t rows = d->values_len / ROFTELUVI_ROW_BYTES;
    uint32_t type = 0, symbol;
    uint64_t offset, addend = interesting(d);
    switch (number) {
    case ROFTELUVI_UNKNOWN_TYPE:
        draft_record(d, interesting(d), unnamed_type((unsigned)random_below(UNNAMED_TYPES)), (uint32_t)random_next(), addend);
        return;
    case ROFTELUVI_LOADER_TYPE:
        draft_record(d, interesting(d), 3 + (uint32_t)random_below(10), (uint32_t)random_next(), addend);
        return;
    case ROFTELUVI_NO_SUCH_SYMBOL:
        type = type_such_that(uses_value);
        symbol = one_in(2) ? (uint32_t)rows + 1 : (uint32_t)(rows + 1 + random_below(0xffffffff - rows));
        draft_record(d, one_in(2) ? interesting(d) : offset_for(d, type), type, symbol, addend);
        return;
    case ROFTELUVI_VALUE_ABSENT:
        type = type_such_that(uses_value);
        symbol = 0;
        for (int i = 0; i < 20 && rows > 0; i++) { /* looks for a row without the value */
            size_t row = random_below(rows);
            if ((d->values[ROFTELUVI_ROW_BYTES * row] >> place_in_row(type) & 1) == 0)
                symbol = (uint32_t)row + 1;
        }
        draft_record(d, one_in(2) ? interesting(d) : offset_for(d, type), type, symbol, addend);
        return;
    case ROFTELUVI_OUTSIDE:
        type = type_such_that(writes);
        if (one_in(2))
            offset = d->section_len - reference_width(type) + 1 + random_below(8); /* may be below 0: huge then */
        else
            offset = one_in(2) ? 0 - 1 - random_below(9) : random_next();
        draft_record(d, offset, type, symbol_for(d, type), addend);
        return;
    case ROFTELUVI_UNALIGNED:
        type = type_such_that(writes_word);
        draft_record(d, offset_for(d, type) + 1 + random_below(3), type, symbol_for(d, type), addend);
        return;
    case ROFTELUVI_STACK_EMPTY:
        switch (random_below(3)) {
        case 0: lower_stack(d, stack, 0); type = any_of(takes_one, 12); break;
        case 1: lower_stack(d, stack, 1); type = any_of(takes_two, 5); break;
        default: lower_stack(d, stack, 2); type = 37; break;
        }
        draft_record(d, offset_for(d, type), type, symbol_for(d, type), addend);
        return;
    case ROFTELUVI_STACK_FULL:
        while (stack->depth < ROFTELUVI_STACK_DEPTH)
            push_number(d, stack, (int64_t)interesting(d));
        type = 22 + (uint32_t)random_below(8);
        draft_record(d, offset_for(d, type), type, symbol_for(d, type), addend);
        return;
    case ROFTELUVI_SHIFT_COUNT:
        lower_stack(d, stack, 14);
        push_number(d, stack, (int64_t)interesting(d));
        switch (random_below(4)) {
        case 0: push_number(d, stack, 64 + (int64_t)random_below(3)); break;
        case 1: push_number(d, stack, -1 - (int64_t)random_below(3)); break;
        case 2: push_number(d, stack, ((int64_t)1 << (6 + random_below(57))) + (int64_t)random_below(64)); break;
        default: push_number(d, stack, one_in(2) ? INT64_MIN : INT64_MAX); break;
        }
        draft_record(d, interesting(d), 33 + (uint32_t)random_below(2), symbol_for(d, 33), addend);
        return;
    case ROFTELUVI_ASSERTION:
        lower_stack(d, stack, 15);
        push_number(d, stack, 0);
        draft_record(d, interesting(d), 30, symbol_for(d, 30), addend);
        return;
    case ROFTELUVI_ABOVE_RANGE:
    case ROFTELUVI_BELOW_RANGE:
    case ROFTELUVI_NOT_MULTIPLE:
    default:
        type = one_in(2) ? 64 + (uint32_t)random_below(3) : 38 + (uint32_t)random_below(9);
        if (number == ROFTELUVI_NOT_MULTIPLE)
            type = any_of(in_fours, 6);
        int64_t wanted = number == ROFTELUVI_NOT_MULTIPLE ? between_fours(type)
                       : number == ROFTELUVI_BELOW_RANGE ? below(type) : above(type);
        offset = offset_for(d, type);
        symbol = symbol_for(d, type);
        if (type >= 64) {
            addend = addend_for(d, offset, symbol, wanted);
        } else {
            lower_stack(d, stack, 14);
            make_top(d, stack, wanted);
        }
        draft_record(d, offset, type, symbol, addend);
        return;
    }
}

/* ---- Whole calls ---- */

static void random_surroundings(struct draft *d) {
    draft_clear(d);
    switch (random_below(6)) {
    case 0: d->address = 0x1000; break;
    case 1: d->address = 0 - random_below(100); break; /* PC passes 2^64 */
    case 2: d->address = random_next() >> random_below(64); break;
    case 3: d->address = ((uint64_t)1 << random_below(64)) - random_below(64); break;
    default: d->address = random_next(); break;
    }
    if (!one_in(4))
        d->address -= d->address % 4;
    d->gp = interesting(d);

    switch (random_below(32)) {
    case 0: d->section_len = ROFTELUVI_SECTION_BYTES_MAX - random_below(5); break;
    case 1: d->section_len = random_below(ROFTELUVI_SECTION_BYTES_MAX + 1); break;
    case 2: d->section_len = random_below(8); break;
    case 3: case 4: case 5: case 6: d->section_len = random_below(2000); break;
    default: d->section_len = random_below(100); break;
    }
    for (size_t i = 0; i < d->section_len; i += 8)
        put_number(d->section + i, one_in(8) ? 0 - random_below(2) : random_next(), 8);

    size_t rows;
    switch (random_below(40)) {
    case 0: rows = ROFTELUVI_ROWS_MAX - random_below(3); break;
    case 1: rows = random_below(ROFTELUVI_ROWS_MAX); break;
    case 2: case 3: rows = 0; break;
    case 4: case 5: case 6: rows = random_below(100); break;
    default: rows = 1 + random_below(8); break;
    }
    for (size_t row = 0; row < rows; row++) {
        uint64_t value[6];
        for (int i = 0; i < 6; i++)
            value[i] = interesting(d);
        draft_row(d, one_in(2) ? 63 : random_below(64), value);
    }
    last_offset = 0;
}

static size_t random_steps(void) {
    switch (random_below(40)) {
    case 0: return ROFTELUVI_RECORDS_MAX;
    case 1: return random_below(ROFTELUVI_RECORDS_MAX);
    case 2: case 3: case 4: return random_below(300);
    case 5: case 6: case 7: case 8: case 9: case 10: return random_below(60);
    default: return random_below(14);
    }
}

/* A list with no thought for what is accepted: each record's parts are good or bad by chance. */
static void wild_list(struct draft *d) {
    struct stack some;
    for (size_t n = random_below(12); n > 0; n--) {
        some.depth = (unsigned)random_below(17);
        uint32_t type = one_in(8) ? (uint32_t)random_below(110) : random_type(&some);
        uint64_t offset = one_in(8) ? interesting(d) : offset_for(d, type) + (one_in(8) ? random_below(4) : 0);
        uint32_t symbol = one_in(8) ? (uint32_t)random_below(d->values_len / ROFTELUVI_ROW_BYTES + 3) : symbol_for(d, type);
        uint64_t addend = interesting(d);
        if (type >= 64 && type <= 66 && !one_in(4))
            addend = addend_for(d, offset, symbol, one_in(16) ? above(type) : one_in(15) ? below(type) : inside(type));
        draft_record(d, offset, type, symbol, addend);
    }
}

/* Damages a call: a bit, a number, a length. What the answer then is, the reference says. */
static void damage(struct draft *d) {
    size_t records = d->records_len / ROFTELUVI_RECORD_BYTES, rows = d->values_len / ROFTELUVI_ROW_BYTES;
    uint8_t *r = records > 0 ? d->records + ROFTELUVI_RECORD_BYTES * random_below(records) : NULL;
    uint8_t *row = rows > 0 ? d->values + ROFTELUVI_ROW_BYTES * random_below(rows) : NULL;
    switch (random_below(14)) {
    case 0: if (r) r[random_below(24)] ^= (uint8_t)(1 << random_below(8)); return;
    case 1: if (r) r[random_below(24)] = (uint8_t)random_next(); return;
    case 2: if (r) put_number(r, interesting(d), 8); return;
    case 3: if (r) put_number(r + 8, random_below(130), 4); return;
    case 4: if (r) put_number(r + 12, random_below(rows + 3), 4); return;
    case 5: if (r) put_number(r + 16, interesting(d), 8); return;
    case 6: if (r) put_number(r + 8, random_below(256), 1 + (unsigned)random_below(4)); return;
    case 7: if (row) row[random_below(56)] ^= (uint8_t)(1 << random_below(8)); return;
    case 8: if (row) put_number(row, random_below(64), 8); return;
    case 9: if (row) put_number(row, 64 + (one_in(2) ? random_below(3) : random_next() % (UINT64_MAX - 64)), 8); return;
    case 10: d->section_len -= random_below(d->section_len + 1); return;
    case 11: d->records_len -= random_below(d->records_len < 60 ? d->records_len + 1 : 60); return;
    case 12: d->values_len -= random_below(d->values_len < 130 ? d->values_len + 1 : 130); return;
    default: d->address += 1 + random_below(4); return;
    }
}

/* At and around the three limits, whole and not whole. */
static void near_limits(struct draft *d) {
    static const size_t sections[] = {65535, 65536, 65536, 65536, 65537, 65540};
    static const size_t records[] = {49128, 49152, 49152, 49152, 49151, 49153, 49176};
    static const size_t values[] = {57288, 57344, 57344, 57344, 57343, 57345, 57400};
    uint64_t zero[6] = {0, 0, 0, 0, 0, 0};
    struct stack stack;
    random_surroundings(d);
    stack.depth = 0;
    if (!one_in(4)) {
        size_t len = sections[random_below(6)];
        for (size_t i = d->section_len; i < len; i++)
            d->section[i] = (uint8_t)random_next();
        d->section_len = len;
    }
    if (!one_in(4)) {
        while (d->values_len < ROFTELUVI_VALUE_BYTES_MAX + ROFTELUVI_ROW_BYTES)
            draft_row(d, random_below(64), zero);
        d->values_len = values[random_below(7)];
    }
    grow_list(d, &stack, one_in(2) ? ROFTELUVI_RECORDS_MAX : random_steps());
    generate_drain(d, &stack);
    if (!one_in(4)) {
        while (d->records_len < ROFTELUVI_RECORD_BYTES_MAX + ROFTELUVI_RECORD_BYTES) {
            uint32_t type = one_in(2) ? 47 + (uint32_t)random_below(10) : 67 + (uint32_t)random_below(32);
            if (generate_try(d, &stack, offset_for(d, type), type, symbol_for(d, type), interesting(d)) != 0)
                draft_record(d, interesting(d), one_in(2) ? 100 : 20, (uint32_t)random_next(), random_next());
        }
        d->records_len = records[random_below(7)];
    }
}

void generate_call(struct draft *d) {
    struct stack stack;
    uint64_t kind = random_below(100);
    stack.depth = 0;
    if (kind == 0) {
        near_limits(d);
        return;
    }
    random_surroundings(d);
    if (kind < 8) {
        wild_list(d);
        return;
    }
    grow_list(d, &stack, random_steps());
    if (kind < 26) {
        generate_fault(d, &stack, record_fault[random_below(RECORD_FAULTS)]);
        grow_list(d, &stack, random_below(4)); /* what follows the refused record must not matter */
        return;
    }
    if (kind < 28)
        return; /* entries may be left */
    generate_drain(d, &stack);
    if (kind < 42)
        for (size_t n = 1 + random_below(2); n > 0; n--)
            damage(d);
}
