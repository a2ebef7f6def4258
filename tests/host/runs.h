/* Runs of instructions: alone, and of a section that was patched. */
#ifndef RUNS_H
#define RUNS_H

/* Runs with the answers written down, and the ends of every instruction's fields and of a run's length, in every combination. */
void runs_not_left_to_chance(void);

/* A random run. */
void runs_random(void);

/* A sequence patched to a random target, and run: the four instructions of 67 to 70, or the pair of 71 and 72, within its reach and past
   it. */
void runs_patched(void);

#endif
