/* Calls that are not left to chance. */
#ifndef CASES_H
#define CASES_H

/* The paper's edges, and more of their kind, with the answers written down: both the archive and the reference must give them. */
void cases_fixed(void);

/* Each type with good and bad symbols, offsets and stacks, in every combination; each checked immediate around every power of
   two; each input bit of each formula alone; each refusal at the first and the last place it can have. */
void cases_systematic(void);

/* Read back: every type, every offset around a small section, every bit of a word alone. */
void cases_read_back(void);

#endif
