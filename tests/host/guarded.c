#define _DEFAULT_SOURCE
#include "guarded.h"

#include <stdio.h>
#include <stdlib.h>
#include <string.h>
#include <sys/mman.h>

/* 64 KiB is a multiple of every page size in use, also of an emulator's host. */
enum { UNIT = 65536, ROOM = 2 * UNIT, NEAR = 512 };

static uint8_t pattern[ROOM];

static void fail(const char *what) {
    perror(what);
    exit(2);
}

void guarded_open(struct guarded *g) {
    uint8_t *all = mmap(NULL, 5 * UNIT, PROT_NONE, MAP_PRIVATE | MAP_ANONYMOUS, -1, 0);
    if (all == MAP_FAILED)
        fail("mmap");
    size_t past = (uintptr_t)all % UNIT;
    uint8_t *guard = past == 0 ? all : all + (UNIT - past);
    g->low = guard + UNIT;
    g->high = g->low + ROOM;
    if (mprotect(g->low, ROOM, PROT_READ | PROT_WRITE) != 0)
        fail("mprotect");
    memset(pattern, 0xa5, sizeof pattern);
    memcpy(g->low, pattern, ROOM);
    g->at = g->low;
    g->len = 0;
}

uint8_t *guarded_place(struct guarded *g, const uint8_t *bytes, size_t len, int at_end) {
    memcpy(g->at, pattern, g->len);
    g->at = at_end ? g->high - len : g->low;
    g->len = len;
    memcpy(g->at, bytes, len);
    return g->at;
}

void guarded_read_only(struct guarded *g, int read_only) {
    if (mprotect(g->low, ROOM, read_only ? PROT_READ : PROT_READ | PROT_WRITE) != 0)
        fail("mprotect");
}

int guarded_rest_unchanged(const struct guarded *g, int thorough) {
    size_t before = (size_t)(g->at - g->low), after = (size_t)(g->high - g->at) - g->len;
    if (!thorough && before > NEAR)
        before = NEAR;
    if (!thorough && after > NEAR)
        after = NEAR;
    return memcmp(g->at - before, pattern, before) == 0 && memcmp(g->at + g->len, pattern, after) == 0;
}
