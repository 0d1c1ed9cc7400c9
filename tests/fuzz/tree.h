/* JSON values as trees that are easy to change. Texts and numbers stay as they are written, with their escapes. All of a tree is in
 * one room, which is emptied at once. */
#ifndef TREE_H
#define TREE_H

#include <stdbool.h>
#include <stddef.h>
#include <stdint.h>

struct span {
    const uint8_t *at;
    size_t size;
};

/* A PLAIN value is a number, true, false or null. */
enum kind { PLAIN, TEXT, ARRAY, OBJECT };

struct value;

/* An entry of an array has the name of no bytes. */
struct entry {
    struct span name;
    struct value *value;
};

struct value {
    enum kind kind;
    struct span written; /* of a PLAIN value, or of a TEXT what is between its quotes */
    struct entry *entries;
    size_t count, room;
};

/* Random numbers, the same for the same seed. */
struct dice {
    uint64_t state;
};
size_t rolled(struct dice *dice, size_t sides);
bool happens(struct dice *dice, size_t once_in);

/* Room for trees. `taken` returns null where none is left. */
void empty_room(void);
void *taken(size_t size);

struct span span_of(const char *text);
bool same_span(struct span one, struct span other);
struct value *made(enum kind kind, struct span written);

/* The value that all of these bytes are, or null if they are none or there is no room. */
struct value *read_value(struct span bytes);

/* Writes the value, and returns the length; or `room` + 1 if it does not fit. The dice choose blanks and escapes, unless they are
 * null. */
size_t write_value(const struct value *value, uint8_t *to, size_t room, struct dice *dice);

/* A copy of the value, or null. */
struct value *copied(const struct value *value);

/* Whether there was room for one more entry at a place. */
bool insert(struct value *holder, size_t at, struct span name, struct value *value);
void take_out(struct value *holder, size_t at);

/* The member of an object, or null. */
struct value *member(const struct value *object, const char *name);

#endif
