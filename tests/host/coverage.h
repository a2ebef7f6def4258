/* Counts which types, refusals and places a run has met, and says what it should have met and has not. */
#ifndef COVERAGE_H
#define COVERAGE_H

#include "reference.h"

/* Counts a call of patch and its answer. */
void coverage_patch(const struct call *call, rofteluvi_answer answer);

/* Counts a call of read back. */
void coverage_read_back(uint32_t type, rofteluvi_immediate answer);

/* Counts a run. */
void coverage_run(const uint8_t *run, size_t run_len, rofteluvi_ran ran);

/* Counts a patched sequence that was run: the four instructions, or a pair by where its target lies. */
enum sequence { LOADED, WITHIN_REACH, PAST_REACH, SEQUENCES };
void coverage_sequence(enum sequence which);

/* Prints a line for each thing that is missing; answers how many. */
unsigned coverage_missing(void);

/* The one-line summary. */
void coverage_summary(uint64_t seed);

#endif
