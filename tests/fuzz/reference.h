/* The reference program beside the fuzzer: a process that answers the same questions. */
#ifndef REFERENCE_H
#define REFERENCE_H

#include "inputs.h"

/* An outcome and a text. */
struct told {
    int outcome;
    struct span text;
};

/* Starts the command that the variable REFERENCE names; with none, nothing is ever sampled. */
void begin_reference(void);

/* Whether the reference program is asked of the input with this mark: one in SAMPLE, or in 64; eight times as many with a preferred
 * type, of which no other check sees that it counts. */
bool is_sampled(uint64_t mark, bool prefers);

/* Asks the reference program what check, canon and compare say. Returns words on the first that differs, or null. */
const char *differing(const struct input *input, const char *prefer, const struct told told[3]);

#endif
