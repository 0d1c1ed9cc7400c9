#include "tree.h"

#include <stdlib.h>
#include <string.h>

enum { ROOM = 1 << 24, LEVELS = 1000 };

static _Alignas(16) uint8_t room_of_trees[ROOM];
static size_t used;

size_t rolled(struct dice *dice, size_t sides) {
    dice->state = dice->state * 6364136223846793005u + 1442695040888963407u;
    return sides == 0 ? 0 : (size_t)((dice->state >> 33) % sides);
}

bool happens(struct dice *dice, size_t once_in) {
    return rolled(dice, once_in) == 0;
}

void empty_room(void) {
    used = 0;
}

void *taken(size_t size) {
    size = (size + 15) & ~(size_t)15;
    if (size > ROOM - used)
        return NULL;
    used += size;
    return room_of_trees + used - size;
}

struct span span_of(const char *text) {
    return (struct span){(const uint8_t *)text, strlen(text)};
}

bool same_span(struct span one, struct span other) {
    return one.size == other.size && memcmp(one.at, other.at, one.size) == 0;
}

struct value *made(enum kind kind, struct span written) {
    struct value *value = taken(sizeof *value);
    if (value != NULL)
        *value = (struct value){kind, written, NULL, 0, 0};
    return value;
}

bool insert(struct value *holder, size_t at, struct span name, struct value *value) {
    if (value == NULL)
        return false;
    if (holder->count == holder->room) {
        size_t room = 2 * holder->room + 4;
        struct entry *entries = taken(room * sizeof *entries);
        if (entries == NULL)
            return false;
        if (holder->count > 0)
            memcpy(entries, holder->entries, holder->count * sizeof *entries);
        holder->entries = entries;
        holder->room = room;
    }
    memmove(holder->entries + at + 1, holder->entries + at, (holder->count - at) * sizeof *holder->entries);
    holder->entries[at] = (struct entry){name, value};
    holder->count++;
    return true;
}

void take_out(struct value *holder, size_t at) {
    holder->count--;
    memmove(holder->entries + at, holder->entries + at + 1, (holder->count - at) * sizeof *holder->entries);
}

struct value *member(const struct value *object, const char *name) {
    for (size_t i = 0; object->kind == OBJECT && i < object->count; i++)
        if (same_span(object->entries[i].name, span_of(name)))
            return object->entries[i].value;
    return NULL;
}

struct value *copied(const struct value *value) {
    struct value *copy = made(value->kind, value->written);
    for (size_t i = 0; copy != NULL && i < value->count; i++)
        if (!insert(copy, i, value->entries[i].name, copied(value->entries[i].value)))
            return NULL;
    return copy;
}

/* ---- reading */

struct reader {
    const uint8_t *at, *end;
};

static bool next_is(struct reader *from, uint8_t byte) {
    while (from->at < from->end && memchr(" \t\r\n", *from->at, 4) != NULL)
        from->at++;
    return from->at < from->end && *from->at == byte;
}

/* Whether the text at the quote ended. */
static bool read_text(struct reader *from, struct span *text) {
    const uint8_t *start = ++from->at;
    while (from->at < from->end && *from->at != '"')
        from->at += *from->at == '\\' ? 2 : 1;
    if (from->at >= from->end)
        return false;
    *text = (struct span){start, (size_t)(from->at++ - start)};
    return true;
}

static struct value *read_one(struct reader *from, size_t level);

static bool read_entry(struct reader *from, struct value *holder, size_t level) {
    struct span name = {NULL, 0};
    if (holder->kind == OBJECT) {
        if (!next_is(from, '"') || !read_text(from, &name) || !next_is(from, ':'))
            return false;
        from->at++;
    }
    return insert(holder, holder->count, name, read_one(from, level));
}

static struct value *read_entries(struct reader *from, size_t level) {
    struct value *holder = made(*from->at == '{' ? OBJECT : ARRAY, (struct span){NULL, 0});
    uint8_t end = *from->at++ == '{' ? '}' : ']';
    if (holder == NULL || level == LEVELS)
        return NULL;
    while (!next_is(from, end)) {
        if (holder->count > 0 && !next_is(from, ','))
            return NULL;
        from->at += holder->count > 0;
        if (!read_entry(from, holder, level + 1))
            return NULL;
    }
    from->at++;
    return holder;
}

static struct value *read_one(struct reader *from, size_t level) {
    struct span text;
    if (next_is(from, '{') || next_is(from, '['))
        return read_entries(from, level);
    if (next_is(from, '"'))
        return read_text(from, &text) ? made(TEXT, text) : NULL;
    const uint8_t *start = from->at;
    while (from->at < from->end && memchr(" \t\r\n,:[]{}\"", *from->at, 11) == NULL)
        from->at++;
    return from->at == start ? NULL : made(PLAIN, (struct span){start, (size_t)(from->at - start)});
}

struct value *read_value(struct span bytes) {
    struct reader from = {bytes.at, bytes.at + bytes.size};
    struct value *value = read_one(&from, 0);
    next_is(&from, 0);
    return from.at == from.end ? value : NULL;
}

/* ---- writing */

struct writer {
    uint8_t *to;
    size_t room, size;
    struct dice *dice;
};

static void put(struct writer *out, struct span bytes) {
    if (bytes.size > out->room - out->size) {
        out->room = out->size;
        out->to = NULL;
    } else if (out->to != NULL && bytes.size > 0) {
        memcpy(out->to + out->size, bytes.at, bytes.size);
        out->size += bytes.size;
    }
}

static void put_blank(struct writer *out) {
    static const char *const blanks[] = {" ", "\n\t", "\r\n  "};
    if (out->dice != NULL && happens(out->dice, 16))
        put(out, span_of(blanks[rolled(out->dice, 3)]));
}

/* A text with its quotes. Now and then a letter stands there as its escape. */
static void put_text(struct writer *out, struct span text) {
    static const char digits[] = "0123456789abcdef";
    bool escapes = out->dice != NULL && happens(out->dice, 8);
    put(out, span_of("\""));
    for (size_t i = 0, next; i < text.size; i = next) {
        next = text.at[i] == '\\' && i + 1 < text.size ? i + 2 : i + 1;
        uint8_t byte = text.at[i];
        if (escapes && next == i + 1 && byte >= ' ' && byte < 127 && happens(out->dice, 4)) {
            const char escape[] = {'\\', 'u', '0', '0', digits[byte >> 4], digits[byte & 15], 0};
            put(out, span_of(escape));
        } else {
            put(out, (struct span){text.at + i, next - i});
        }
    }
    put(out, span_of("\""));
}

static void put_value(struct writer *out, const struct value *value) {
    put_blank(out);
    if (value->kind == TEXT)
        put_text(out, value->written);
    else if (value->kind == PLAIN)
        put(out, value->written);
    else
        put(out, span_of(value->kind == OBJECT ? "{" : "["));
    for (size_t i = 0; i < value->count && out->to != NULL; i++) {
        if (i > 0)
            put(out, span_of(","));
        if (value->kind == OBJECT) {
            put_blank(out);
            put_text(out, value->entries[i].name);
            put(out, span_of(":"));
        }
        put_value(out, value->entries[i].value);
    }
    if (value->kind == OBJECT || value->kind == ARRAY)
        put(out, span_of(value->kind == OBJECT ? "}" : "]"));
    put_blank(out);
}

size_t write_value(const struct value *value, uint8_t *to, size_t room, struct dice *dice) {
    struct writer out = {to, room, 0, dice};
    put_value(&out, value);
    return out.to == NULL ? room + 1 : out.size;
}
