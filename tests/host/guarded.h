/* Buffers between memory that cannot be touched: a read or a write past the guarded end stops the test. */
#ifndef GUARDED_H
#define GUARDED_H

#include <stddef.h>
#include <stdint.h>

struct guarded {
    uint8_t *low, *high; /* what may be touched: from low up to high, exclusive; no byte on either side of it can be */
    uint8_t *at;         /* the buffer placed last */
    size_t len;
};

/* Reserves the memory, or ends the program. */
void guarded_open(struct guarded *g);

/* Places a copy of the bytes so that it ends where the untouchable memory starts (or, if `at_end` is 0, starts where it ends).
   All the rest that can be touched holds one pattern. */
uint8_t *guarded_place(struct guarded *g, const uint8_t *bytes, size_t len, int at_end);

/* Lets the memory be read only, or be written again. */
void guarded_read_only(struct guarded *g, int read_only);

/* Whether the bytes around the buffer still hold the pattern: those next to it, or all of them if `thorough`. */
int guarded_rest_unchanged(const struct guarded *g, int thorough);

#endif
