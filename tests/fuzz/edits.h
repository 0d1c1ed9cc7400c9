/* Edits of a report that is a tree: each makes one random change, or none where its kind of place is not there. */
#ifndef EDITS_H
#define EDITS_H

#include "tree.h"

/* Changes the tree once. */
void edit(struct value **root, struct dice *dice);

/* Shuffles its sets and members, and gives its `@id` texts other names: mostly it means the same as before. */
void rearrange(struct value *root, struct dice *dice);

/* Puts a value of the other tree where this one has an entry of the same name. */
void graft(struct value *root, struct value *other, struct dice *dice);

/* A text of the tree, or one from the list. */
struct span some_text(struct value *root, struct dice *dice);

/* The library that calls these has it: other bytes in place of these, of at most this many. */
size_t LLVMFuzzerMutate(uint8_t *bytes, size_t size, size_t most);

#endif
