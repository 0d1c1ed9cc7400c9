/* The C side of the library. It allocates room for a text and calls the proved code of crates/erd_c, which fills it. */
#include "erd.h"

#include <stdbool.h>
#include <stdint.h>
#include <stdlib.h>
#include <string.h>

/* As in crates/erd_c/src. A slice is a pointer, which is not null, and a length. */
struct told {
    uint32_t outcome;
    size_t length;
};
struct told erd_tell_check(const uint8_t *bytes, size_t size, bool prefers, const uint8_t *prefer, size_t prefer_size,
                           uint8_t *room, size_t room_size);
struct told erd_tell_canonical(const uint8_t *bytes, size_t size, bool prefers, const uint8_t *prefer, size_t prefer_size,
                               uint8_t *room, size_t room_size);
struct told erd_tell_compare(const uint8_t *left, size_t left_size, const uint8_t *right, size_t right_size, bool prefers,
                             const uint8_t *prefer, size_t prefer_size, uint8_t *room, size_t room_size);
struct told erd_tell_check_data(const uint8_t *bytes, size_t size, bool prefers, const uint8_t *prefer, size_t prefer_size,
                                uint8_t *room, size_t room_size);
struct told erd_tell_compare_data(const uint8_t *left, size_t left_size, const uint8_t *right, size_t right_size,
                                  bool prefers, const uint8_t *prefer, size_t prefer_size, uint8_t *room, size_t room_size);
struct told erd_tell_ballots(const uint8_t *bytes, size_t size, bool prefers, const uint8_t *prefer, size_t prefer_size,
                             uint8_t *room, size_t room_size);
struct told erd_tell_ballot(const uint8_t *bytes, size_t size, size_t position, bool prefers, const uint8_t *prefer,
                            size_t prefer_size, uint8_t *room, size_t room_size);
struct told erd_tell_ballot_differences(const uint8_t *left, size_t left_size, const uint8_t *right, size_t right_size,
                                        bool prefers, const uint8_t *prefer, size_t prefer_size, uint8_t *room,
                                        size_t room_size);
/* The positions of the styles of two ballots. */
struct positions {
    size_t left, right;
    bool prefers;
};
struct told erd_tell_ballots_beside(const uint8_t *left, size_t left_size, const uint8_t *right, size_t right_size,
                                    const uint8_t *prefer, size_t prefer_size, const struct positions *at, uint8_t *room,
                                    size_t room_size);
struct wanted {
    size_t first, most, enough_bytes, told, all;
    bool prefers;
};
/* The calls for a piece of a list, of one report or of two. */
typedef struct told piece_of_report(const uint8_t *bytes, size_t size, const uint8_t *prefer, size_t prefer_size,
                                    struct wanted *wanted, uint8_t *room, size_t room_size);
typedef struct told piece_of_pair(const uint8_t *left, size_t left_size, const uint8_t *right, size_t right_size,
                                  const uint8_t *prefer, size_t prefer_size, struct wanted *wanted, uint8_t *room,
                                  size_t room_size);
piece_of_report erd_tell_check_piece, erd_tell_canonical_piece, erd_tell_check_data_piece, erd_tell_canonical_data_piece,
    erd_tell_words;
piece_of_pair erd_tell_compare_piece, erd_tell_differences, erd_tell_compare_data_piece, erd_tell_differences_data,
    erd_tell_differences_values;
struct told erd_tell_command_line(const uint8_t *words, size_t size, uint8_t *room, size_t room_size);
struct told erd_tell_prepared(const uint8_t *bytes, size_t size, const uint8_t *steps, size_t steps_size, bool others,
                              uint8_t *room, size_t room_size);

enum { MOST_BYTES = 67108864, ROOM_FOR_LINES = 4096, ROOM_FOR_PIECE = 1048576, ROOM_FOR_LIST = 16777216 };

struct bytes {
    const uint8_t *at;
    size_t size;
};

enum call {
    CHECK,
    CANONICAL,
    COMPARE,
    CHECK_DATA,
    COMPARE_DATA,
    CHECK_PIECE,
    CANONICAL_PIECE,
    COMPARE_PIECE,
    DIFFERENCES,
    CHECK_DATA_PIECE,
    CANONICAL_DATA_PIECE,
    COMPARE_DATA_PIECE,
    DIFFERENCES_DATA,
    DIFFERENCES_VALUES,
    WORDS,
    COMMAND_LINE,
    PREPARED,
    BALLOTS,
    BALLOT,
    BALLOT_DIFFERENCES,
    BALLOTS_BESIDE
};

struct question {
    enum call call;
    struct bytes left, right, prefer;
    struct wanted wanted;
    bool others;
    size_t position, other_position;
};

static struct bytes bytes_of(const void *at, size_t size) {
    static const uint8_t none[1];
    return size == 0 ? (struct bytes){none, 0} : (struct bytes){at, size};
}

static struct question question_of(enum call call, struct bytes left, struct bytes right, const char *prefer) {
    struct wanted all = {0, SIZE_MAX, SIZE_MAX, 0, 0, prefer != NULL};
    return (struct question){call, left, right, bytes_of(prefer, prefer ? strlen(prefer) : 0), all, false, 0, 0};
}

static struct told ask_of_report(piece_of_report *call, struct question *it, uint8_t *room, size_t room_size) {
    return call(it->left.at, it->left.size, it->prefer.at, it->prefer.size, &it->wanted, room, room_size);
}

static struct told ask_of_pair(piece_of_pair *call, struct question *it, uint8_t *room, size_t room_size) {
    return call(it->left.at, it->left.size, it->right.at, it->right.size, it->prefer.at, it->prefer.size, &it->wanted, room,
                room_size);
}

static struct told ask_for_piece(struct question *it, uint8_t *room, size_t room_size) {
    switch (it->call) {
    case CHECK_PIECE:
        return ask_of_report(erd_tell_check_piece, it, room, room_size);
    case CANONICAL_PIECE:
        return ask_of_report(erd_tell_canonical_piece, it, room, room_size);
    case COMPARE_PIECE:
        return ask_of_pair(erd_tell_compare_piece, it, room, room_size);
    case DIFFERENCES:
        return ask_of_pair(erd_tell_differences, it, room, room_size);
    case CHECK_DATA_PIECE:
        return ask_of_report(erd_tell_check_data_piece, it, room, room_size);
    case CANONICAL_DATA_PIECE:
        return ask_of_report(erd_tell_canonical_data_piece, it, room, room_size);
    case COMPARE_DATA_PIECE:
        return ask_of_pair(erd_tell_compare_data_piece, it, room, room_size);
    case DIFFERENCES_VALUES:
        return ask_of_pair(erd_tell_differences_values, it, room, room_size);
    case WORDS:
        return ask_of_report(erd_tell_words, it, room, room_size);
    default:
        return ask_of_pair(erd_tell_differences_data, it, room, room_size);
    }
}

static struct told ask_for_ballots(const struct question *it, uint8_t *room, size_t room_size) {
    bool prefers = it->wanted.prefers;
    switch (it->call) {
    case BALLOTS:
        return erd_tell_ballots(it->left.at, it->left.size, prefers, it->prefer.at, it->prefer.size, room, room_size);
    case BALLOT:
        return erd_tell_ballot(it->left.at, it->left.size, it->position, prefers, it->prefer.at, it->prefer.size, room,
                               room_size);
    case BALLOTS_BESIDE:
        return erd_tell_ballots_beside(it->left.at, it->left.size, it->right.at, it->right.size, it->prefer.at,
                                       it->prefer.size, &(struct positions){it->position, it->other_position, prefers},
                                       room, room_size);
    default:
        return erd_tell_ballot_differences(it->left.at, it->left.size, it->right.at, it->right.size, prefers,
                                           it->prefer.at, it->prefer.size, room, room_size);
    }
}

static struct told ask(struct question *it, uint8_t *room, size_t room_size) {
    bool prefers = it->wanted.prefers;
    switch (it->call) {
    case CHECK:
        return erd_tell_check(it->left.at, it->left.size, prefers, it->prefer.at, it->prefer.size, room, room_size);
    case CANONICAL:
        return erd_tell_canonical(it->left.at, it->left.size, prefers, it->prefer.at, it->prefer.size, room, room_size);
    case COMPARE:
        return erd_tell_compare(it->left.at, it->left.size, it->right.at, it->right.size, prefers, it->prefer.at,
                                it->prefer.size, room, room_size);
    case CHECK_DATA:
        return erd_tell_check_data(it->left.at, it->left.size, prefers, it->prefer.at, it->prefer.size, room,
                                   room_size);
    case COMPARE_DATA:
        return erd_tell_compare_data(it->left.at, it->left.size, it->right.at, it->right.size, prefers,
                                     it->prefer.at, it->prefer.size, room, room_size);
    case COMMAND_LINE:
        return erd_tell_command_line(it->left.at, it->left.size, room, room_size);
    case PREPARED:
        return erd_tell_prepared(it->left.at, it->left.size, it->right.at, it->right.size, it->others, room, room_size);
    case BALLOTS:
    case BALLOT:
    case BALLOT_DIFFERENCES:
    case BALLOTS_BESIDE:
        return ask_for_ballots(it, room, room_size);
    default:
        return ask_for_piece(it, room, room_size);
    }
}

/* Wrong words have a text, and wrong arguments of a call have none. What is not prepared has no text. */
static bool has_text(enum call call, uint32_t outcome) {
    switch (call) {
    case COMMAND_LINE:
        return outcome <= (uint32_t)ERD_LINE_WRONG;
    case PREPARED:
        return outcome == (uint32_t)ERD_GOOD;
    default:
        return outcome <= (uint32_t)ERD_NOT_JSON;
    }
}

/* The text at the front of the room, with a zero byte behind it. What the text does not need of the room is given back. */
static char *text_in(uint8_t *room, size_t length) {
    uint8_t *text = realloc(room, length + 1);
    room = text != NULL ? text : room;
    room[length] = 0;
    return (char *)room;
}

/* Calls with this much room for the text. If that is too little, calls once more with as much room as the text needs. The
 * zero byte behind the text has a byte of its own. Nothing reads the room before it is written, so what no text needs of it costs
 * no memory, and no time to clear. */
static uint32_t answer(struct question *it, size_t room_size, char **text, size_t *length) {
    while (room_size < SIZE_MAX) {
        uint8_t *room = malloc(room_size + 1);
        if (room == NULL)
            return ERD_NO_MEMORY;
        struct told told = ask(it, room, room_size);
        bool is_told = has_text(it->call, told.outcome);
        if (is_told && text != NULL && told.length > room_size) {
            free(room);
            room_size = told.length;
            continue;
        }
        if (is_told && length != NULL)
            *length = told.length;
        if (is_told && text != NULL)
            *text = text_in(room, told.length);
        else
            free(room);
        return told.outcome;
    }
    return ERD_NO_MEMORY;
}

static void set_to_none(char **text, size_t *length) {
    if (text != NULL)
        *text = NULL;
    if (length != NULL)
        *length = 0;
}

static enum erd_outcome call(struct question *it, size_t room_size, char **text, size_t *length) {
    set_to_none(text, length);
    if (it->left.size > MOST_BYTES || it->right.size > MOST_BYTES)
        return ERD_WRONG;
    return answer(it, text == NULL ? 0 : room_size, text, length);
}

enum erd_outcome erd_check(const void *bytes, size_t size, const char *prefer, char **text, size_t *length) {
    struct question it = question_of(CHECK, bytes_of(bytes, size), bytes_of(NULL, 0), prefer);
    return call(&it, ROOM_FOR_LINES, text, length);
}

enum erd_outcome erd_canonical(const void *bytes, size_t size, const char *prefer, char **text, size_t *length) {
    struct question it = question_of(CANONICAL, bytes_of(bytes, size), bytes_of(NULL, 0), prefer);
    /* most canonical forms are less than twice as long as their reports */
    return call(&it, 2 * size + ROOM_FOR_LINES, text, length);
}

enum erd_outcome erd_compare(const void *left, size_t left_size, const void *right, size_t right_size, const char *prefer,
                             char **text, size_t *length) {
    struct question it = question_of(COMPARE, bytes_of(left, left_size), bytes_of(right, right_size), prefer);
    return call(&it, ROOM_FOR_LINES, text, length);
}

enum erd_outcome erd_check_data(const void *bytes, size_t size, const char *prefer, char **text, size_t *length) {
    struct question it = question_of(CHECK_DATA, bytes_of(bytes, size), bytes_of(NULL, 0), prefer);
    return call(&it, ROOM_FOR_LINES, text, length);
}

enum erd_outcome erd_compare_data(const void *left, size_t left_size, const void *right, size_t right_size,
                                  const char *prefer, char **text, size_t *length) {
    struct question it = question_of(COMPARE_DATA, bytes_of(left, left_size), bytes_of(right, right_size), prefer);
    return call(&it, ROOM_FOR_LINES, text, length);
}

enum erd_outcome erd_prepare(const void *bytes, size_t size, const char *steps, int others, char **text, size_t *length) {
    struct question it = question_of(PREPARED, bytes_of(bytes, size), bytes_of(steps, steps ? strlen(steps) : 0), NULL);
    it.others = others != 0;
    /* most reports are no longer when they are prepared, and what was done is short */
    return call(&it, size + ROOM_FOR_PIECE, text, length);
}

enum erd_outcome erd_ballots(const void *bytes, size_t size, const char *prefer, char **text, size_t *length) {
    struct question it = question_of(BALLOTS, bytes_of(bytes, size), bytes_of(NULL, 0), prefer);
    return call(&it, ROOM_FOR_PIECE, text, length);
}

enum erd_outcome erd_ballot(const void *bytes, size_t size, const char *prefer, size_t position, char **text,
                            size_t *length) {
    struct question it = question_of(BALLOT, bytes_of(bytes, size), bytes_of(NULL, 0), prefer);
    it.position = position;
    return call(&it, ROOM_FOR_PIECE, text, length);
}

enum erd_outcome erd_ballot_differences(const void *left, size_t left_size, const void *right, size_t right_size,
                                        const char *prefer, char **text, size_t *length) {
    struct question it = question_of(BALLOT_DIFFERENCES, bytes_of(left, left_size), bytes_of(right, right_size), prefer);
    return call(&it, ROOM_FOR_PIECE, text, length);
}

enum erd_outcome erd_ballots_beside(const void *left, size_t left_size, const void *right, size_t right_size,
                                    const char *prefer, size_t left_position, size_t right_position, char **text,
                                    size_t *length) {
    struct question it = question_of(BALLOTS_BESIDE, bytes_of(left, left_size), bytes_of(right, right_size), prefer);
    it.position = left_position;
    it.other_position = right_position;
    return call(&it, ROOM_FOR_PIECE, text, length);
}

/* Room for the text of a list, so that most lists are made at once: as many bytes as are enough, at most a mebibyte, the commas
 * between entries of 16 bytes or more, and then one entry more. */
static size_t room_for_list(const struct wanted *wanted) {
    size_t entries = wanted->enough_bytes < ROOM_FOR_PIECE ? wanted->enough_bytes : ROOM_FOR_PIECE;
    return entries + entries / 16 + ROOM_FOR_LINES;
}

/* A call for a piece of a list. Without a piece, it asks for the whole list. */
static enum erd_outcome call_for_piece(struct question *it, size_t room_for_form, struct erd_piece *piece, char **text,
                                       size_t *length) {
    if (piece != NULL) {
        it->wanted.first = piece->first;
        it->wanted.most = piece->most;
        it->wanted.enough_bytes = piece->enough_bytes;
    }
    size_t room_size = room_for_list(&it->wanted);
    enum erd_outcome outcome = call(it, room_size < room_for_form ? room_for_form : room_size, text, length);
    if (piece != NULL) {
        bool is_told = outcome <= ERD_NOT_JSON;
        piece->told = is_told ? it->wanted.told : 0;
        piece->all = is_told ? it->wanted.all : 0;
    }
    return outcome;
}

enum erd_outcome erd_check_piece(const void *bytes, size_t size, const char *prefer, struct erd_piece *piece,
                                 char **text, size_t *length) {
    struct question it = question_of(CHECK_PIECE, bytes_of(bytes, size), bytes_of(NULL, 0), prefer);
    return call_for_piece(&it, 0, piece, text, length);
}

enum erd_outcome erd_canonical_piece(const void *bytes, size_t size, const char *prefer, struct erd_piece *piece,
                                     char **text, size_t *length) {
    struct question it = question_of(CANONICAL_PIECE, bytes_of(bytes, size), bytes_of(NULL, 0), prefer);
    return call_for_piece(&it, 2 * size + ROOM_FOR_LINES, piece, text, length);
}

enum erd_outcome erd_compare_piece(const void *left, size_t left_size, const void *right, size_t right_size,
                                   const char *prefer, struct erd_piece *piece, char **text, size_t *length) {
    struct question it = question_of(COMPARE_PIECE, bytes_of(left, left_size), bytes_of(right, right_size), prefer);
    return call_for_piece(&it, 0, piece, text, length);
}

enum erd_outcome erd_differences(const void *left, size_t left_size, const void *right, size_t right_size,
                                 const char *prefer, struct erd_piece *piece, char **text, size_t *length) {
    struct question it = question_of(DIFFERENCES, bytes_of(left, left_size), bytes_of(right, right_size), prefer);
    return call_for_piece(&it, 0, piece, text, length);
}

enum erd_outcome erd_check_data_piece(const void *bytes, size_t size, const char *prefer, struct erd_piece *piece,
                                      char **text, size_t *length) {
    struct question it = question_of(CHECK_DATA_PIECE, bytes_of(bytes, size), bytes_of(NULL, 0), prefer);
    return call_for_piece(&it, 0, piece, text, length);
}

enum erd_outcome erd_canonical_data_piece(const void *bytes, size_t size, const char *prefer, struct erd_piece *piece,
                                          char **text, size_t *length) {
    struct question it = question_of(CANONICAL_DATA_PIECE, bytes_of(bytes, size), bytes_of(NULL, 0), prefer);
    return call_for_piece(&it, 2 * size + ROOM_FOR_LINES, piece, text, length);
}

enum erd_outcome erd_compare_data_piece(const void *left, size_t left_size, const void *right, size_t right_size,
                                        const char *prefer, struct erd_piece *piece, char **text, size_t *length) {
    struct question it = question_of(COMPARE_DATA_PIECE, bytes_of(left, left_size), bytes_of(right, right_size), prefer);
    return call_for_piece(&it, 0, piece, text, length);
}

enum erd_outcome erd_differences_data(const void *left, size_t left_size, const void *right, size_t right_size,
                                      const char *prefer, struct erd_piece *piece, char **text, size_t *length) {
    struct question it = question_of(DIFFERENCES_DATA, bytes_of(left, left_size), bytes_of(right, right_size), prefer);
    return call_for_piece(&it, 0, piece, text, length);
}

enum erd_outcome erd_differences_values(const void *left, size_t left_size, const void *right, size_t right_size,
                                        const char *prefer, struct erd_piece *piece, char **text, size_t *length) {
    struct question it = question_of(DIFFERENCES_VALUES, bytes_of(left, left_size), bytes_of(right, right_size), prefer);
    return call_for_piece(&it, 0, piece, text, length);
}

enum erd_outcome erd_words(const void *bytes, size_t size, const char *prefer, struct erd_piece *piece, char **text,
                           size_t *length) {
    struct question it = question_of(WORDS, bytes_of(bytes, size), bytes_of(NULL, 0), prefer);
    return call_for_piece(&it, 0, piece, text, length);
}

#include "list.h"

struct erd_list *erd_open(enum erd_listing listing, const void *left, size_t left_size, const void *right, size_t right_size,
                          const char *prefer, size_t room) {
    static const enum call calls[] = {CHECK_PIECE,        CANONICAL_PIECE,    COMPARE_PIECE,
                                      DIFFERENCES,        CHECK_DATA_PIECE,   CANONICAL_DATA_PIECE,
                                      COMPARE_DATA_PIECE, DIFFERENCES_DATA,   DIFFERENCES_VALUES,
                                      WORDS};
    bool is_of_pair = listing % 4 >= ERD_LIST_COMPARE || listing == ERD_LIST_DIFFERENCES_VALUES;
    struct erd_list *list = (unsigned)listing > ERD_LIST_WORDS ? NULL : calloc(1, sizeof *list);
    if (list == NULL)
        return NULL;
    list->it = question_of(calls[listing], bytes_of(left, left_size),
                           is_of_pair ? bytes_of(right, right_size) : bytes_of(NULL, 0), prefer);
    list->room = room == 0 ? ROOM_FOR_LIST : room;
    list->is_data = listing >= ERD_LIST_CHECK_DATA;
    return list;
}

enum erd_outcome erd_next(struct erd_list *list, struct erd_piece *piece, char **text, size_t *length) {
    struct erd_piece whole = {0, SIZE_MAX, SIZE_MAX, 0, 0};
    struct erd_piece *wanted = piece != NULL ? piece : &whole;
    size_t stop, size = 0;
    set_to_none(text, length);
    wanted->first = list->next;
    wanted->told = wanted->all = 0;
    if (!list->is_over && list->next == list->kept && keep_entries(list) > ERD_NOT_JSON)
        return list->outcome;
    wanted->all = list->all;
    if (list->is_over)
        return list->outcome;
    size_t told = told_in(list, wanted, &stop);
    char *found = text_up_to(list, stop, &size);
    if (found == NULL)
        return ERD_NO_MEMORY;
    if (text != NULL)
        *text = found;
    else
        free(found);
    if (length != NULL)
        *length = size;
    wanted->told = told;
    list->next += told;
    list->at = stop + (list->is_data && told > 0);
    list->is_over = list->next == list->all;
    return list->outcome;
}

void erd_close(struct erd_list *list) {
    if (list != NULL)
        free(list->text);
    free(list);
}

enum erd_line erd_command_line(const void *words, size_t size, char **text, size_t *length) {
    struct question it = question_of(COMMAND_LINE, bytes_of(words, size), bytes_of(NULL, 0), NULL);
    set_to_none(text, length);
    return answer(&it, text == NULL ? 0 : ROOM_FOR_LINES, text, length);
}

void erd_free(char *text) {
    free(text);
}

const char *erd_version(void) {
    return ERD_VERSION;
}
