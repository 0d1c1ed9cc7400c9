/* What the bytes of an input are: the left report; then, after a byte 0xfe, which no UTF-8 has, the right one; then, after another,
 * the preferred type of identifier. A report alone is an input. */
#ifndef INPUTS_H
#define INPUTS_H

#include "tree.h"

enum { MOST_INPUT = 1 << 16 };

struct input {
    struct span left, right, prefer;
    bool prefers;
};

struct input input_of(struct span bytes);

#endif
