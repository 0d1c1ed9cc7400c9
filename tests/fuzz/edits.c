#include "edits.h"

#include "words.h"

#include <stdio.h>
#include <string.h>

enum { MOST_PLACES = 1 << 16 };
#define count_of(list) (sizeof(list) / sizeof((list)[0]))
#define one_of(list, dice) span_of((list)[rolled(dice, count_of(list))])

/* The values of a tree that an edit may choose from: the root and the entries. */
struct places {
    struct value **each[MOST_PLACES];
    struct span names[MOST_PLACES];
    size_t count;
};

typedef bool is_wanted(const struct value *value);

static void find(struct places *places, struct value **place, struct span name, is_wanted *wanted) {
    if (wanted(*place) && places->count < MOST_PLACES) {
        places->names[places->count] = name;
        places->each[places->count++] = place;
    }
    for (size_t i = 0; i < (*place)->count; i++)
        find(places, &(*place)->entries[i].value, (*place)->entries[i].name, wanted);
}

static struct places *found(struct value **root, is_wanted *wanted) {
    static struct places places;
    places.count = 0;
    find(&places, root, (struct span){NULL, 0}, wanted);
    return &places;
}

static struct value **some_place(struct value **root, is_wanted *wanted, struct dice *dice) {
    struct places *places = found(root, wanted);
    return places->count == 0 ? NULL : places->each[rolled(dice, places->count)];
}

static bool any(const struct value *value) {
    return value != NULL;
}

static bool is_text(const struct value *value) {
    return value->kind == TEXT;
}

static bool is_object(const struct value *value) {
    return value->kind == OBJECT;
}

static bool has_entries(const struct value *value) {
    return value->count > 0;
}

static bool is_list(const struct value *value) {
    return value->kind == ARRAY && value->count > 0;
}

static bool is_named(const struct value *value) {
    struct value *list = member(value, "ExternalIdentifier");
    return list != NULL && list->kind == ARRAY;
}

/* ---- parts */

struct span some_text(struct value *root, struct dice *dice) {
    struct value **place = happens(dice, 5) ? NULL : some_place(&root, is_text, dice);
    return place == NULL ? one_of(texts, dice) : (*place)->written;
}

static struct value *some_value(struct value *root, struct dice *dice) {
    switch (rolled(dice, 4)) {
    case 0:
        return made(PLAIN, one_of(plain, dice));
    case 1:
        return made(rolled(dice, 2) ? ARRAY : OBJECT, (struct span){NULL, 0});
    case 2:
        return made(TEXT, some_text(root, dice));
    default:
        return copied(*some_place(&root, any, dice));
    }
}

static struct span joined(struct span left, struct span right) {
    uint8_t *both = taken(left.size + right.size);
    if (both == NULL)
        return left;
    memcpy(both, left.at, left.size);
    memcpy(both + left.size, right.at, right.size);
    return (struct span){both, left.size + right.size};
}

static struct span numbered(struct span text, size_t number) {
    char *digits = taken(24);
    if (digits == NULL)
        return text;
    snprintf(digits, 24, ".%zu", number);
    return joined(text, span_of(digits));
}

static void set_member(struct value *object, struct span name, struct value *value) {
    for (size_t i = 0; i < object->count && value != NULL; i++) {
        if (same_span(object->entries[i].name, name)) {
            object->entries[i].value = value;
            return;
        }
    }
    insert(object, object->count, name, value);
}

/* ---- edits */

static void remove_one(struct value **root, struct dice *dice) {
    struct value **place = some_place(root, has_entries, dice);
    if (place != NULL)
        take_out(*place, rolled(dice, (*place)->count));
}

static void repeat(struct value **root, struct dice *dice) {
    struct value **place = some_place(root, has_entries, dice);
    if (place != NULL) {
        struct entry entry = (*place)->entries[rolled(dice, (*place)->count)];
        insert(*place, rolled(dice, (*place)->count + 1), entry.name, copied(entry.value));
    }
}

static void replace(struct value **root, struct dice *dice) {
    struct value *value = some_value(*root, dice);
    if (value != NULL)
        *some_place(root, any, dice) = value;
}

static void replace_text(struct value **root, struct dice *dice) {
    struct span text = some_text(*root, dice);
    struct value **place = some_place(root, is_text, dice);
    if (place != NULL)
        (*place)->written = text;
}

static void change_text(struct value **root, struct dice *dice) {
    struct value **place = some_place(root, is_text, dice);
    uint8_t *bytes = taken(256);
    if (place == NULL || bytes == NULL || (*place)->written.size > 200)
        return;
    memcpy(bytes, (*place)->written.at, (*place)->written.size);
    (*place)->written = (struct span){bytes, LLVMFuzzerMutate(bytes, (*place)->written.size, 256)};
}

static void add_member(struct value **root, struct dice *dice) {
    struct value **place = some_place(root, is_object, dice);
    if (place != NULL)
        set_member(*place, one_of(names, dice), some_value(*root, dice));
}

static void change_class(struct value **root, struct dice *dice) {
    struct value **place = some_place(root, is_object, dice);
    if (place != NULL)
        set_member(*place, span_of("@type"), made(TEXT, joined(span_of("ElectionResults."), one_of(classes, dice))));
}

static void add_identifier(struct value **root, struct dice *dice) {
    struct value **place = some_place(root, is_named, dice), *entry = made(OBJECT, (struct span){NULL, 0});
    if (place == NULL || entry == NULL)
        return;
    set_member(entry, span_of("@type"), made(TEXT, span_of("ElectionResults.ExternalIdentifier")));
    set_member(entry, span_of("Type"), made(TEXT, happens(dice, 3) ? one_of(types, dice) : some_text(*root, dice)));
    set_member(entry, span_of("Value"), made(TEXT, some_text(*root, dice)));
    if (happens(dice, 3))
        set_member(entry, span_of("OtherType"), made(TEXT, one_of(types, dice)));
    struct value *list = member(*place, "ExternalIdentifier");
    insert(list, rolled(dice, list->count + 1), (struct span){NULL, 0}, entry);
}

static void move(struct value **root, struct dice *dice) {
    struct value **from = some_place(root, is_list, dice), **to = some_place(root, is_list, dice);
    if (from == NULL || to == NULL)
        return;
    size_t at = rolled(dice, (*from)->count);
    struct value *entry = copied((*from)->entries[at].value);
    if (happens(dice, 2))
        take_out(*from, at);
    insert(*to, rolled(dice, (*to)->count + 1), (struct span){NULL, 0}, entry);
}

static void swap(struct value **root, struct dice *dice) {
    struct value **place = some_place(root, has_entries, dice);
    if (place == NULL)
        return;
    struct entry *entries = (*place)->entries;
    size_t one = rolled(dice, (*place)->count), other = rolled(dice, (*place)->count);
    struct entry kept = entries[one];
    entries[one] = entries[other];
    entries[other] = kept;
}

/* Gives texts of the tree a further ending: all or some of those that stand for this text. */
static void rename_text(struct value **root, struct span old, struct span new, size_t left_out, struct dice *dice) {
    struct places *places = found(root, is_text);
    for (size_t i = 0; i < places->count; i++)
        if (same_span((*places->each[i])->written, old) && (left_out == 0 || !happens(dice, left_out)))
            (*places->each[i])->written = new;
}

static void rename_some(struct value **root, struct dice *dice) {
    rename_text(root, some_text(*root, dice), numbered(some_text(*root, dice), rolled(dice, 100)), 4, dice);
}

/* An entry of a list becomes many, each with texts of its own. */
static void multiply(struct value **root, struct dice *dice) {
    struct value **place = some_place(root, is_list, dice);
    if (place == NULL)
        return;
    struct value *list = *place, *entry = list->entries[rolled(dice, list->count)].value;
    size_t times = 1 + rolled(dice, 24), which = rolled(dice, 3);
    for (size_t number = 0; number < times; number++) {
        struct value *copy = copied(entry);
        if (copy == NULL)
            return;
        struct places *places = found(&copy, is_text);
        for (size_t i = 0; i < places->count; i++)
            if (which == 0 || same_span(places->names[i], span_of(which == 1 ? "Value" : "@id")) || copy->kind == TEXT)
                (*places->each[i])->written = numbered((*places->each[i])->written, number);
        insert(list, rolled(dice, list->count + 1), (struct span){NULL, 0}, copy);
    }
}

/* A value goes some levels deeper. */
static void wrap(struct value **root, struct dice *dice) {
    struct value **place = some_place(root, any, dice);
    size_t levels = 1 + rolled(dice, happens(dice, 8) ? 128 : 4);
    for (size_t level = 0; level < levels; level++) {
        struct value *holder = made(rolled(dice, 2) ? ARRAY : OBJECT, (struct span){NULL, 0});
        if (holder == NULL || !insert(holder, 0, holder->kind == OBJECT ? one_of(names, dice) : (struct span){NULL, 0}, *place))
            return;
        *place = holder;
    }
}

void edit(struct value **root, struct dice *dice) {
    static void (*const edits[])(struct value **, struct dice *) = {
        remove_one, repeat, replace, replace_text, replace_text, change_text, add_member, change_class, add_identifier,
        add_identifier, move, move, swap, rename_some, multiply, wrap};
    edits[rolled(dice, count_of(edits))](root, dice);
}

/* ---- the same in other words */

static bool has_id(const struct value *value) {
    struct value *id = member(value, "@id");
    return id != NULL && id->kind == TEXT;
}

static void shuffle(struct value *root, struct dice *dice) {
    struct places *places = found(&root, has_entries);
    for (size_t i = 0; i < places->count; i++) {
        struct value *holder = *places->each[i];
        bool is_ordered = same_span(places->names[i], span_of("OrderedContent")) ||
                          same_span(places->names[i], span_of("OrderedContestSelectionIds"));
        for (size_t left = holder->count; left > 1 && !is_ordered; left--) {
            size_t one = rolled(dice, left);
            struct entry kept = holder->entries[one];
            holder->entries[one] = holder->entries[left - 1];
            holder->entries[left - 1] = kept;
        }
    }
}

void rearrange(struct value *root, struct dice *dice) {
    for (size_t times = rolled(dice, 8); times > 0; times--) {
        struct value **place = some_place(&root, has_id, dice);
        if (place == NULL)
            break;
        struct span id = member(*place, "@id")->written;
        rename_text(&root, id, numbered(id, rolled(dice, 100)), 0, dice);
    }
    shuffle(root, dice);
}

void graft(struct value *root, struct value *other, struct dice *dice) {
    struct places *places = found(&root, any);
    size_t at = rolled(dice, places->count);
    struct value **place = places->each[at];
    struct span name = places->names[at];
    places = found(&other, any);
    for (size_t tries = 0; tries < 64 && name.size > 0; tries++) {
        at = rolled(dice, places->count);
        if (same_span(places->names[at], name)) {
            *place = *places->each[at];
            return;
        }
    }
}
