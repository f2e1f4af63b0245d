/* What the two files of the fuzz offer each other. */
#ifndef CIF_FUZZ_H
#define CIF_FUZZ_H

#include "tool.h"

/* The state of the random numbers: what is drawn from it again comes out the same. */
extern uint64_t fuzz_state;

unsigned below(unsigned bound);
/* Ends the run where something is not so, and shows what was put out. */
void demand(bool right, const char *what, const struct output *out);
size_t random_text(unsigned char *text, size_t most);
void put_random_flat(struct output *flat);
/* At most four bytes are changed or lost. */
void damage(struct output *flat);

/* fuzz_whole.c */
void start_whole(void);
void try_whole(void);
void end_whole(void);

#endif
