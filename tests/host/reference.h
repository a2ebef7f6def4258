/* The same three operations as rofteluvi.h, written a second time from the customer's papers, the psABI's Table 10 and the LoongArch
   reference manual, to be compared with the archive. Made to be read, not to be fast. */
#ifndef REFERENCE_H
#define REFERENCE_H

#include "rofteluvi.h"

/* All that a call of patch is given. */
struct call {
    uint8_t *section;
    size_t section_len;
    const uint8_t *records;
    size_t records_len;
    const uint8_t *values;
    size_t values_len;
    uint64_t address;
    uint64_t gp;
};

struct record {
    uint64_t offset;
    uint32_t type;
    uint32_t symbol;
    uint64_t addend;
};

struct stack {
    int64_t entry[ROFTELUVI_STACK_DEPTH];
    unsigned depth;
};

/* Patches. */
rofteluvi_answer reference_patch(const struct call *call);

/* Reads an immediate back. */
rofteluvi_immediate reference_read_back(const uint8_t *section, size_t section_len, uint64_t address, uint64_t offset,
                                        uint32_t type);

/* Runs a sequence of instructions (reference_run.c). */
rofteluvi_ran reference_run(const uint8_t *run, size_t run_len, uint64_t start, uint64_t registers[ROFTELUVI_REGISTERS]);

/* Which of the six a word is: lu12i.w, lu32i.d, pcalau12i, lu52i.d, addi.d, ori, from 0; -1 if none. */
int reference_instruction(uint32_t word);

/* Checks one record, given the stack before it: 0, or the number of its refusal, 4 to 15 or 18. If it is 0, the stack becomes the one
   after it, and *value the number that the record puts into the section, where it puts one. No section byte is looked at. */
uint32_t reference_judge(const struct call *call, const struct record *r, struct stack *stack, int64_t *value);

/* Whether the type takes a target's upper part: 71, 75, 87, 95 and 97. */
int reference_takes_upper_part(uint32_t type);

/* The target of a record of such a type, whose value is there: S+A, GP+G, GP+IE or GP+GD. */
uint64_t reference_target(const struct call *call, const struct record *r);

/* Whether pcalau12i at a PC, and addi.d after it, reach a target: the distance that 71 splits fits 32 bits signed. */
int reference_reaches(uint64_t pc, uint64_t target);

/* The record at an index, taken apart. */
struct record reference_record(const uint8_t *records, size_t index);

/* How many bytes of the section a type writes: 0, 1, 2, 3, 4 or 8. */
unsigned reference_width(uint32_t type);

/* Whether the type is one whose immediate has an accepted range: 38 to 46 and 64 to 66. */
int reference_checked(uint32_t type);

#endif
