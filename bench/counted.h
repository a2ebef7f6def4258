/* A counter of instructions watches these names, in a function `counted`. */
#ifndef COUNTED_H
#define COUNTED_H

void count_on(void);
void count_off(void);
__attribute__((noinline)) void count_on(void) { __asm__ volatile("" ::: "memory"); }
__attribute__((noinline)) void count_off(void) { __asm__ volatile("" ::: "memory"); }

#endif
