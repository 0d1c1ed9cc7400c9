#include "inputs.h"

#include "edits.h"

#include <string.h>

enum { BREAK = 0xfe };

/* Cuts off the bytes before the next break. Returns whether there was one. */
static bool cut(struct span *rest, struct span *part) {
    const uint8_t *at = rest->size == 0 ? NULL : memchr(rest->at, BREAK, rest->size);
    *part = (struct span){rest->at, at == NULL ? rest->size : (size_t)(at - rest->at)};
    if (at != NULL)
        *rest = (struct span){at + 1, rest->size - part->size - 1};
    return at != NULL;
}

struct input input_of(struct span bytes) {
    struct input input = {{NULL, 0}, {NULL, 0}, {NULL, 0}, false};
    if (cut(&bytes, &input.left) && cut(&bytes, &input.right)) {
        input.prefers = true;
        input.prefer = bytes;
    }
    return input;
}

/* ---- other inputs */

/* An input with its reports as trees, or null where they are none. */
struct reports {
    struct value *left, *right;
    struct input input;
};

struct output {
    uint8_t *to;
    size_t room, size;
};

static bool put(struct output *out, struct span bytes) {
    if (bytes.size > out->room - out->size)
        return false;
    if (bytes.size > 0)
        memcpy(out->to + out->size, bytes.at, bytes.size);
    out->size += bytes.size;
    return true;
}

static bool put_report(struct output *out, const struct value *tree, struct span bytes, struct dice *dice) {
    if (tree == NULL)
        return put(out, bytes);
    size_t size = write_value(tree, out->to + out->size, out->room - out->size, happens(dice, 4) ? dice : NULL);
    if (size > out->room - out->size)
        return false;
    out->size += size;
    return true;
}

/* The length of the input, written; or 0 if it does not fit. */
static size_t put_all(struct reports *it, uint8_t *to, size_t room, struct dice *dice) {
    static const uint8_t ends[] = {BREAK};
    struct output out = {to, room, 0};
    struct span end = {ends, 1};
    bool fits = put_report(&out, it->left, it->input.left, dice);
    if (it->right != NULL || it->input.right.size > 0 || it->input.prefers)
        fits = fits && put(&out, end) && put_report(&out, it->right, it->input.right, dice);
    if (it->input.prefers)
        fits = fits && put(&out, end) && put(&out, it->input.prefer);
    return fits ? out.size : 0;
}

static struct reports reports_of(struct span bytes) {
    struct input input = input_of(bytes);
    return (struct reports){read_value(input.left), read_value(input.right), input};
}

static void exchange(struct reports *it) {
    struct value *left = it->left;
    struct span bytes = it->input.left;
    it->left = it->right;
    it->input.left = it->input.right;
    it->right = left;
    it->input.right = bytes;
}

static void prefer_another(struct reports *it, struct dice *dice) {
    struct span text = it->left == NULL ? span_of("fips") : some_text(it->left, dice);
    it->input.prefers = rolled(dice, 2);
    it->input.prefer = text.size < 32 && memchr(text.at, '\\', text.size) == NULL ? text : span_of("local-level");
}

/* Changes the reports a few times. */
static void change(struct reports *it, struct dice *dice) {
    if (happens(dice, 4) && it->left != NULL)
        it->right = copied(it->left);
    if (happens(dice, 4) && it->right != NULL)
        rearrange(it->right, dice);
    if (happens(dice, 12))
        exchange(it);
    if (happens(dice, 8))
        prefer_another(it, dice);
    if (happens(dice, 8))
        return;
    for (size_t times = 1 + rolled(dice, 4); times > 0; times--) {
        struct value **side = it->right != NULL && (happens(dice, 2) || it->left == NULL) ? &it->right : &it->left;
        if (*side != NULL)
            edit(side, dice);
    }
}

size_t LLVMFuzzerCustomMutator(uint8_t *bytes, size_t size, size_t most, unsigned seed) {
    static uint8_t old[MOST_INPUT], new[MOST_INPUT];
    struct dice dice = {seed};
    rolled(&dice, 2);
    if (size > MOST_INPUT || most > MOST_INPUT || happens(&dice, 20))
        return LLVMFuzzerMutate(bytes, size, most);
    memcpy(old, bytes, size);
    empty_room();
    struct reports it = reports_of((struct span){old, size});
    if (it.left == NULL && it.right == NULL)
        return LLVMFuzzerMutate(bytes, size, most);
    change(&it, &dice);
    size_t made = put_all(&it, new, most, &dice);
    if (made == 0)
        return LLVMFuzzerMutate(bytes, size, most);
    memcpy(bytes, new, made);
    return made;
}

size_t LLVMFuzzerCustomCrossOver(const uint8_t *one, size_t one_size, const uint8_t *other, size_t other_size, uint8_t *to,
                                 size_t most, unsigned seed) {
    struct dice dice = {seed};
    rolled(&dice, 2);
    empty_room();
    struct reports it = reports_of((struct span){one, one_size}), from = reports_of((struct span){other, other_size});
    if (it.left == NULL || from.left == NULL)
        return 0;
    if (happens(&dice, 3))
        it.right = from.left;
    else
        graft(it.left, from.left, &dice);
    return put_all(&it, to, most, &dice);
}
