/* The job of the program `patcher` in plain C, for comparison of cost: frames on standard input, the answer on standard
   output, the same bytes for every input.

       frames plain      patches by plain_patch
       frames alone      patches by rofteluvi_patch inside counted, for a counter of instructions

   An input that cannot be read, or an output that cannot be written, ends with status 1. */
#include "counted.h"
#include "plain.h"
#include "rofteluvi.h"

#include <inttypes.h>
#include <stdbool.h>
#include <stdio.h>
#include <string.h>

enum {
    BAD_FRAME = 17, /* the program's own refusal; place: the line, from 0 */
    FRAME_BYTES_MAX = 64,
    /* The good lines of an input have 549,923 bytes at most. The longest frame has 130 digits, so that 132 bytes of the
       line after them are enough to judge it. No more is read. */
    INPUT_BYTES_MAX = 549923 + 132,
    /* The answer's line, then a full section in lines of 64 bytes, each with its kind and its line feed. */
    OUTPUT_BYTES_MAX = 27 + ROFTELUVI_SECTION_BYTES_MAX / FRAME_BYTES_MAX * (2 + 2 * FRAME_BYTES_MAX + 1)
};

static rofteluvi_answer answer(uint32_t number, uint32_t place) {
    rofteluvi_answer a = {number, place, 0};
    return a;
}

/* ---- Reading ---- */

static uint8_t numbers[16];
/* These have room for one frame past their limits, since its digits are judged before the limit is. */
static uint8_t section[ROFTELUVI_SECTION_BYTES_MAX + FRAME_BYTES_MAX];
static uint8_t values[ROFTELUVI_VALUE_BYTES_MAX + ROFTELUVI_ROW_BYTES];
static uint8_t records[ROFTELUVI_RECORD_BYTES_MAX + ROFTELUVI_RECORD_BYTES];

enum { NUMBERS = 1, SECTION, VALUES, RECORDS }; /* the kinds of frames */

typedef struct {
    size_t shortest, longest; /* bytes of a frame, without its kind */
    size_t limit;             /* bytes of all frames */
    uint32_t place;           /* in the answer to a frame past the limit */
    uint8_t *bytes;
    size_t used;
} buffer;

static buffer buffers[] = {
    [NUMBERS] = {16, 16, 16, 0, numbers, 0},
    [SECTION] = {1, FRAME_BYTES_MAX, ROFTELUVI_SECTION_BYTES_MAX, 0, section, 0},
    [VALUES] = {ROFTELUVI_ROW_BYTES, ROFTELUVI_ROW_BYTES, ROFTELUVI_VALUE_BYTES_MAX, 2, values, 0},
    [RECORDS] = {ROFTELUVI_RECORD_BYTES, ROFTELUVI_RECORD_BYTES, ROFTELUVI_RECORD_BYTES_MAX, 1, records, 0},
};

/* The number that a digit stands for, -1 for a byte that is no digit. */
static const int8_t digit[256] = {
    -1, -1, -1, -1, -1, -1, -1, -1, -1, -1, -1, -1, -1, -1, -1, -1, /* 00 */
    -1, -1, -1, -1, -1, -1, -1, -1, -1, -1, -1, -1, -1, -1, -1, -1, /* 10 */
    -1, -1, -1, -1, -1, -1, -1, -1, -1, -1, -1, -1, -1, -1, -1, -1, /* 20 */
    0,  1,  2,  3,  4,  5,  6,  7,  8,  9,  -1, -1, -1, -1, -1, -1, /* 30: '0' to '9' */
    -1, 10, 11, 12, 13, 14, 15, -1, -1, -1, -1, -1, -1, -1, -1, -1, /* 40: 'A' to 'F' */
    -1, -1, -1, -1, -1, -1, -1, -1, -1, -1, -1, -1, -1, -1, -1, -1, /* 50 */
    -1, 10, 11, 12, 13, 14, 15, -1, -1, -1, -1, -1, -1, -1, -1, -1, /* 60: 'a' to 'f' */
    -1, -1, -1, -1, -1, -1, -1, -1, -1, -1, -1, -1, -1, -1, -1, -1, /* 70 */
    -1, -1, -1, -1, -1, -1, -1, -1, -1, -1, -1, -1, -1, -1, -1, -1, /* 80 */
    -1, -1, -1, -1, -1, -1, -1, -1, -1, -1, -1, -1, -1, -1, -1, -1, /* 90 */
    -1, -1, -1, -1, -1, -1, -1, -1, -1, -1, -1, -1, -1, -1, -1, -1, /* a0 */
    -1, -1, -1, -1, -1, -1, -1, -1, -1, -1, -1, -1, -1, -1, -1, -1, /* b0 */
    -1, -1, -1, -1, -1, -1, -1, -1, -1, -1, -1, -1, -1, -1, -1, -1, /* c0 */
    -1, -1, -1, -1, -1, -1, -1, -1, -1, -1, -1, -1, -1, -1, -1, -1, /* d0 */
    -1, -1, -1, -1, -1, -1, -1, -1, -1, -1, -1, -1, -1, -1, -1, -1, /* e0 */
    -1, -1, -1, -1, -1, -1, -1, -1, -1, -1, -1, -1, -1, -1, -1, -1, /* f0 */
};

/* Decodes pairs of digits up to the first that is none, at most `most`, and says how many they were. */
static size_t decode(const uint8_t *text, size_t most, uint8_t *bytes) {
    size_t count;
    for (count = 0; count < most; count++) {
        int high = digit[text[2 * count]], low = digit[text[2 * count + 1]];
        if (high < 0 || low < 0)
            break;
        bytes[count] = (uint8_t)(16 * high + low);
    }
    return count;
}

/* `last` is 0 before the first frame. */
static bool may_follow(uint8_t last, uint8_t kind) {
    return last == 0 ? kind == NUMBERS : kind != NUMBERS && kind >= last && kind <= RECORDS;
}

/* Reads frames into the buffers, up to the first line at fault. Every line must end with its line feed, and one more
   byte must follow the last, since decode looks at two at a time. */
static rofteluvi_answer read_frames(const uint8_t *input, size_t length) {
    uint32_t line = 0;
    uint8_t kind, last = 0;
    for (size_t at = 0; at < length; at++) {
        if (decode(input + at, 1, &kind) != 1 || !may_follow(last, kind))
            return answer(BAD_FRAME, line);
        buffer *to = &buffers[kind];
        size_t count = decode(input + at + 2, to->longest, to->bytes + to->used);
        at += 2 + 2 * count;
        if (count < to->shortest || input[at] != '\n')
            return answer(BAD_FRAME, line);
        to->used += count;
        if (to->used > to->limit)
            return answer(ROFTELUVI_TOO_LONG, to->place);
        last = kind;
        line++;
    }
    return last == 0 ? answer(BAD_FRAME, 0) : answer(ROFTELUVI_ACCEPTED, 0);
}

/* ---- Patching ---- */

typedef rofteluvi_answer patch_function(uint8_t *, size_t, const uint8_t *, size_t, const uint8_t *, size_t, uint64_t,
                                        uint64_t);

static uint64_t number_at(const uint8_t *bytes) {
    uint64_t number = 0;
    for (int i = 0; i < 8; i++)
        number = number << 8 | bytes[i];
    return number;
}

static rofteluvi_answer patch_by(patch_function *patch) {
    return patch(section, buffers[SECTION].used, records, buffers[RECORDS].used, values, buffers[VALUES].used,
                 number_at(numbers), number_at(numbers + 8));
}

rofteluvi_answer counted(void);
__attribute__((noinline)) rofteluvi_answer counted(void) {
    count_on();
    rofteluvi_answer a = patch_by(rofteluvi_patch);
    count_off();
    return a;
}

/* ---- Writing ---- */

static char *put_section(char *to) {
    static const char digits[] = "0123456789abcdef";
    for (size_t from = 0; from < buffers[SECTION].used; from += FRAME_BYTES_MAX) {
        size_t left = buffers[SECTION].used - from;
        size_t end = from + (left < FRAME_BYTES_MAX ? left : FRAME_BYTES_MAX);
        *to++ = '0';
        *to++ = '2';
        for (size_t i = from; i < end; i++) {
            *to++ = digits[section[i] >> 4];
            *to++ = digits[section[i] & 15];
        }
        *to++ = '\n';
    }
    return to;
}

static bool write_answer(rofteluvi_answer a) {
    static char output[OUTPUT_BYTES_MAX + 1]; /* and the zero that ends what sprintf writes */
    char *end = output;
    if (a.number == ROFTELUVI_ACCEPTED) {
        end += sprintf(end, "00%08" PRIx32 "%016" PRIx64 "\n", a.place, a.offset);
        end = put_section(end);
    } else {
        end += sprintf(end, "ff%02" PRIx32 "%08" PRIx32 "%016" PRIx64 "\n", a.number, a.place, a.offset);
    }
    size_t length = (size_t)(end - output);
    return fwrite(output, 1, length, stdout) == length && fflush(stdout) == 0;
}

int main(int argc, char **argv) {
    const char *what = argc > 1 ? argv[1] : "";
    bool alone = strcmp(what, "alone") == 0;
    if (!alone && strcmp(what, "plain") != 0) {
        fprintf(stderr, "usage: frames plain | alone\n");
        return 2;
    }
    static uint8_t input[INPUT_BYTES_MAX + 2]; /* and a line feed, and the byte after it */
    size_t length = fread(input, 1, INPUT_BYTES_MAX, stdin);
    if (ferror(stdin)) {
        fprintf(stderr, "frames: standard input cannot be read\n");
        return 1;
    }
    if (length > 0 && input[length - 1] != '\n')
        input[length++] = '\n';
    rofteluvi_answer a = read_frames(input, length);
    if (a.number == ROFTELUVI_ACCEPTED)
        a = alone ? counted() : patch_by(plain_patch);
    if (!write_answer(a)) {
        fprintf(stderr, "frames: standard output cannot be written\n");
        return 1;
    }
    return 0;
}
