/* Runs a call on the archive and on the reference and compares everything that either answers or leaves. */
#ifndef COMPARE_H
#define COMPARE_H

#include "draft.h"

void compare_open(void);

/* Both must agree, or the program prints the call and ends with status 1. Answers what they agree on; the draft's own section is
   then as the call leaves it. */
rofteluvi_answer compare_patch(struct draft *d);

/* The same for read back of the draft's section, at its address. */
rofteluvi_immediate compare_read_back(struct draft *d, uint64_t offset, uint32_t type);

/* The same for a run of the first `run_len` bytes. Answers what they agree on; the registers are then as the run leaves them. */
rofteluvi_ran compare_run(const uint8_t *run, size_t run_len, uint64_t start, uint64_t registers[ROFTELUVI_REGISTERS]);

/* Prints what was expected of a call and ends the program. `before` is the call as it was made. */
void compare_fail(const struct draft *before, const char *what);

#endif
