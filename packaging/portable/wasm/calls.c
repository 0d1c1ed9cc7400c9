/* The exports of erd.wasm. Each has the name and the parameters that it has in erd.h, but that a pointer or a size is a number
 * of 32 bits: all memory of the module lies below 4 GiB. So `text` and `length` name 4 bytes each, or are 0.
 *
 * The calls of 64 bits have other names here: the compiler is told that erd_check stands for wide_erd_check, and so on. */
#include "../../../bindings/c/erd.h"

#include <stdint.h>

void *malloc(size_t size);

#define EXPORTED(name) __asm__(name)

typedef uint32_t address;

static void *at(address place) {
    return (void *)(uintptr_t)place;
}

static address address_of(const void *place) {
    return (address)(uintptr_t)place;
}

/* What a call has answered. */
struct answer {
    char *text;
    size_t length;
};

/* Hands an answer on to the caller's 4 bytes each. */
static uint32_t handed_on(uint32_t outcome, struct answer answer, address text, address length) {
    if (text != 0)
        *(address *)at(text) = address_of(answer.text);
    if (length != 0)
        *(uint32_t *)at(length) = (uint32_t)answer.length;
    return outcome;
}

#define ON_REPORT(name)                                                                                                        \
    uint32_t exported_##name(address bytes, uint32_t size, address prefer, address text, address length) EXPORTED(#name);      \
    uint32_t exported_##name(address bytes, uint32_t size, address prefer, address text, address length) {                     \
        struct answer answer = {NULL, 0};                                                                                      \
        enum erd_outcome outcome =                                                                                             \
            name(at(bytes), size, at(prefer), text != 0 ? &answer.text : NULL, &answer.length);                                \
        return handed_on(outcome, answer, text, length);                                                                       \
    }

#define ON_TWO_REPORTS(name)                                                                                                   \
    uint32_t exported_##name(address left, uint32_t left_size, address right, uint32_t right_size, address prefer,             \
                             address text, address length) EXPORTED(#name);                                                    \
    uint32_t exported_##name(address left, uint32_t left_size, address right, uint32_t right_size, address prefer,             \
                             address text, address length) {                                                                   \
        struct answer answer = {NULL, 0};                                                                                      \
        enum erd_outcome outcome = name(at(left), left_size, at(right), right_size, at(prefer),                                \
                                        text != 0 ? &answer.text : NULL, &answer.length);                                      \
        return handed_on(outcome, answer, text, length);                                                                       \
    }

/* A piece of a list as a caller of 32 bits has it. */
struct narrow_piece {
    uint32_t first, most, enough_bytes, told, all;
};

static struct erd_piece piece_at(address place) {
    if (place == 0)
        return (struct erd_piece){0, SIZE_MAX, SIZE_MAX, 0, 0};
    const struct narrow_piece *piece = at(place);
    return (struct erd_piece){piece->first, piece->most, piece->enough_bytes, 0, 0};
}

static void tell_at(address place, const struct erd_piece *told) {
    if (place == 0)
        return;
    struct narrow_piece *piece = at(place);
    piece->first = (uint32_t)told->first;
    piece->told = (uint32_t)told->told;
    piece->all = (uint32_t)told->all;
}

#define PIECE_OF_REPORT(name)                                                                                                  \
    uint32_t exported_##name(address bytes, uint32_t size, address prefer, address piece, address text, address length)        \
        EXPORTED(#name);                                                                                                       \
    uint32_t exported_##name(address bytes, uint32_t size, address prefer, address piece, address text, address length) {      \
        struct answer answer = {NULL, 0};                                                                                      \
        struct erd_piece wide = piece_at(piece);                                                                               \
        enum erd_outcome outcome =                                                                                             \
            name(at(bytes), size, at(prefer), &wide, text != 0 ? &answer.text : NULL, &answer.length);                         \
        tell_at(piece, &wide);                                                                                                 \
        return handed_on(outcome, answer, text, length);                                                                       \
    }

#define PIECE_OF_TWO_REPORTS(name)                                                                                             \
    uint32_t exported_##name(address left, uint32_t left_size, address right, uint32_t right_size, address prefer,             \
                             address piece, address text, address length) EXPORTED(#name);                                     \
    uint32_t exported_##name(address left, uint32_t left_size, address right, uint32_t right_size, address prefer,             \
                             address piece, address text, address length) {                                                    \
        struct answer answer = {NULL, 0};                                                                                      \
        struct erd_piece wide = piece_at(piece);                                                                               \
        enum erd_outcome outcome = name(at(left), left_size, at(right), right_size, at(prefer), &wide,                         \
                                        text != 0 ? &answer.text : NULL, &answer.length);                                      \
        tell_at(piece, &wide);                                                                                                 \
        return handed_on(outcome, answer, text, length);                                                                       \
    }

ON_REPORT(erd_check)
ON_REPORT(erd_canonical)
ON_REPORT(erd_check_data)
ON_REPORT(erd_ballots)
ON_TWO_REPORTS(erd_compare)
ON_TWO_REPORTS(erd_compare_data)
ON_TWO_REPORTS(erd_ballot_differences)
PIECE_OF_REPORT(erd_check_piece)
PIECE_OF_REPORT(erd_canonical_piece)
PIECE_OF_REPORT(erd_check_data_piece)
PIECE_OF_REPORT(erd_canonical_data_piece)
PIECE_OF_REPORT(erd_words)
PIECE_OF_TWO_REPORTS(erd_compare_piece)
PIECE_OF_TWO_REPORTS(erd_differences)
PIECE_OF_TWO_REPORTS(erd_compare_data_piece)
PIECE_OF_TWO_REPORTS(erd_differences_data)
PIECE_OF_TWO_REPORTS(erd_differences_values)

uint32_t exported_erd_ballot(address bytes, uint32_t size, address prefer, uint32_t position, address text, address length)
    EXPORTED("erd_ballot");
uint32_t exported_erd_ballot(address bytes, uint32_t size, address prefer, uint32_t position, address text, address length) {
    struct answer answer = {NULL, 0};
    enum erd_outcome outcome =
        erd_ballot(at(bytes), size, at(prefer), position, text != 0 ? &answer.text : NULL, &answer.length);
    return handed_on(outcome, answer, text, length);
}

uint32_t exported_erd_ballots_beside(address left, uint32_t left_size, address right, uint32_t right_size, address prefer,
                                     uint32_t left_position, uint32_t right_position, address text, address length)
    EXPORTED("erd_ballots_beside");
uint32_t exported_erd_ballots_beside(address left, uint32_t left_size, address right, uint32_t right_size, address prefer,
                                     uint32_t left_position, uint32_t right_position, address text, address length) {
    struct answer answer = {NULL, 0};
    enum erd_outcome outcome = erd_ballots_beside(at(left), left_size, at(right), right_size, at(prefer), left_position,
                                                  right_position, text != 0 ? &answer.text : NULL, &answer.length);
    return handed_on(outcome, answer, text, length);
}

uint32_t exported_erd_prepare(address bytes, uint32_t size, address steps, uint32_t others, address text, address length)
    EXPORTED("erd_prepare");
uint32_t exported_erd_prepare(address bytes, uint32_t size, address steps, uint32_t others, address text, address length) {
    struct answer answer = {NULL, 0};
    enum erd_outcome outcome =
        erd_prepare(at(bytes), size, at(steps), others != 0, text != 0 ? &answer.text : NULL, &answer.length);
    return handed_on(outcome, answer, text, length);
}

address exported_erd_open(uint32_t listing, address left, uint32_t left_size, address right, uint32_t right_size, address prefer,
                          uint32_t room) EXPORTED("erd_open");
address exported_erd_open(uint32_t listing, address left, uint32_t left_size, address right, uint32_t right_size, address prefer,
                          uint32_t room) {
    return address_of(erd_open((enum erd_listing)listing, at(left), left_size, at(right), right_size, at(prefer), room));
}

uint32_t exported_erd_next(address list, address piece, address text, address length) EXPORTED("erd_next");
uint32_t exported_erd_next(address list, address piece, address text, address length) {
    struct answer answer = {NULL, 0};
    struct erd_piece wide = piece_at(piece);
    enum erd_outcome outcome = erd_next(at(list), &wide, text != 0 ? &answer.text : NULL, &answer.length);
    tell_at(piece, &wide);
    return handed_on(outcome, answer, text, length);
}

void exported_erd_close(address list) EXPORTED("erd_close");
void exported_erd_close(address list) {
    erd_close(at(list));
}

uint32_t exported_erd_command_line(address words, uint32_t size, address text, address length) EXPORTED("erd_command_line");
uint32_t exported_erd_command_line(address words, uint32_t size, address text, address length) {
    struct answer answer = {NULL, 0};
    enum erd_line line = erd_command_line(at(words), size, text != 0 ? &answer.text : NULL, &answer.length);
    return handed_on(line, answer, text, length);
}

void exported_erd_free(address room) EXPORTED("erd_free");
void exported_erd_free(address room) {
    erd_free(at(room));
}

address exported_erd_version(void) EXPORTED("erd_version");
address exported_erd_version(void) {
    return address_of(erd_version());
}

/* Returns room for the bytes of a report, or 0 where there is none. erd_free takes it back. */
address exported_erd_malloc(uint32_t size) EXPORTED("erd_malloc");
address exported_erd_malloc(uint32_t size) {
    return address_of(malloc(size));
}
