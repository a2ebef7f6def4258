/* Random calls: many that are accepted, with long lists, and many that are refused at a place of their own. */
#ifndef GENERATE_H
#define GENERATE_H

#include "draft.h"

void random_seed(uint64_t seed);
uint64_t random_next(void);
uint64_t random_below(uint64_t n); /* from 0 to n-1 */

/* A whole random call. */
void generate_call(struct draft *d);

/* Appends records that empty the stack, each accepted, and makes it so that the whole list is. */
void generate_drain(struct draft *d, struct stack *stack);

/* Appends a record, if the reference accepts it; answers the reference's number. */
uint32_t generate_try(struct draft *d, struct stack *stack, uint64_t offset, uint32_t type, uint32_t symbol, uint64_t addend);

/* The numbers of a record's refusals, in the order of checking: 4 to 15, and 18 after 14. */
enum { RECORD_FAULTS = 13 };
extern const uint32_t record_fault[RECORD_FAULTS];

/* Appends what it takes to have the next record of a list, so far accepted, be refused with this number, one of record_fault. */
void generate_fault(struct draft *d, struct stack *stack, uint32_t number);

/* Type numbers that the table does not name, by an index below this. */
enum { UNNAMED_TYPES = 30 };
uint32_t unnamed_type(unsigned index);

#endif
