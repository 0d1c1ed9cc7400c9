/* Tries the C side of the library alone, with calls of its own in place of the proved ones: texts of each length, outcomes
 * without a text, and lengths that no memory has. */
#include "../../bindings/c/erd.c"

#include <stdio.h>

/* What the next calls tell, and what the last of them was handed. */
static struct told next;
static size_t calls, last_room, last_prefer_size, last_size;
static bool last_prefers;
static const uint8_t *last_prefer;
static int last_call;
static const char *why;

enum { SIZE = 1000, FIRST_OF_PIECES = 5, BALLOTS_CALL = 15, BALLOT_CALL, BALLOT_DIFFERENCES_CALL, BALLOTS_BESIDE_CALL, CALLS, LINE = CALLS, PREPARE,
       POSITION = 23, OTHER_POSITION = 29, MEBIBYTE = 1048576, ROOM_OF_MEBIBYTE = MEBIBYTE + MEBIBYTE / 16 + 4096 };
static const char *const names[CALLS + 2] = {"check",      "canonical",        "compare",            "check_data",
                                             "compare_data", "check_data_piece", "compare_data_piece", "canonical_data_piece",
                                             "differences_data", "check_piece", "compare_piece", "canonical_piece",
                                             "differences", "differences_values", "words", "ballots", "ballot", "ballot_differences", "ballots_beside",
                                             "command_line", "prepare"};
static const char report[SIZE];

static uint8_t letter(size_t at) {
    return (uint8_t)('a' + at % 26);
}

/* Fills the front of the room with a text that fits, and leaves the rest of it. */
static struct told told_next(bool prefers, const uint8_t *prefer, size_t prefer_size, uint8_t *room, size_t room_size) {
    calls++;
    last_room = room_size;
    last_prefers = prefers;
    last_prefer = prefer;
    last_prefer_size = prefer_size;
    uint32_t textless = last_call == LINE ? ERD_LINE_NO_MEMORY : last_call == PREPARE ? ERD_BAD : ERD_WRONG;
    for (size_t at = 0; next.outcome < textless && next.length <= room_size && at < next.length; at++)
        room[at] = letter(at);
    return next;
}

static struct told told_report(int call, const uint8_t *bytes, bool prefers, const uint8_t *prefer, size_t prefer_size,
                               uint8_t *room, size_t room_size) {
    last_call = call;
    if (bytes == NULL || prefer == NULL || room == NULL)
        why = "a slice at null";
    return told_next(prefers, prefer, prefer_size, room, room_size);
}

struct told erd_tell_check(const uint8_t *bytes, size_t size, bool prefers, const uint8_t *prefer, size_t prefer_size,
                           uint8_t *room, size_t room_size) {
    (void)size;
    return told_report(0, bytes, prefers, prefer, prefer_size, room, room_size);
}

struct told erd_tell_canonical(const uint8_t *bytes, size_t size, bool prefers, const uint8_t *prefer, size_t prefer_size,
                               uint8_t *room, size_t room_size) {
    (void)size;
    return told_report(1, bytes, prefers, prefer, prefer_size, room, room_size);
}

struct told erd_tell_check_data(const uint8_t *bytes, size_t size, bool prefers, const uint8_t *prefer, size_t prefer_size,
                                uint8_t *room, size_t room_size) {
    (void)size;
    return told_report(3, bytes, prefers, prefer, prefer_size, room, room_size);
}

struct told erd_tell_compare(const uint8_t *left, size_t left_size, const uint8_t *right, size_t right_size, bool prefers,
                             const uint8_t *prefer, size_t prefer_size, uint8_t *room, size_t room_size) {
    (void)left_size, (void)right_size;
    return told_report(2, left == NULL ? left : right, prefers, prefer, prefer_size, room, room_size);
}

struct told erd_tell_compare_data(const uint8_t *left, size_t left_size, const uint8_t *right, size_t right_size,
                                  bool prefers, const uint8_t *prefer, size_t prefer_size, uint8_t *room, size_t room_size) {
    (void)left_size, (void)right_size;
    return told_report(4, left == NULL ? left : right, prefers, prefer, prefer_size, room, room_size);
}

/* What the last call for a piece was handed, and what the next ones tell of their lists. */
static struct wanted last_wanted;
static const size_t next_told = 3, next_all = 5;

static struct told told_piece(int call, const uint8_t *bytes, const uint8_t *prefer, size_t prefer_size, struct wanted *wanted,
                              uint8_t *room, size_t room_size) {
    last_wanted = *wanted;
    wanted->told = next_told;
    wanted->all = next_all;
    return told_report(call, bytes, wanted->prefers, prefer, prefer_size, room, room_size);
}

#define OF_REPORT(name, number)                                                                                                \
    struct told name(const uint8_t *bytes, size_t size, const uint8_t *prefer, size_t prefer_size, struct wanted *wanted,      \
                     uint8_t *room, size_t room_size) {                                                                        \
        (void)size;                                                                                                            \
        return told_piece(number, bytes, prefer, prefer_size, wanted, room, room_size);                                        \
    }
#define OF_PAIR(name, number)                                                                                                  \
    struct told name(const uint8_t *left, size_t left_size, const uint8_t *right, size_t right_size, const uint8_t *prefer,    \
                     size_t prefer_size, struct wanted *wanted, uint8_t *room, size_t room_size) {                             \
        (void)left_size, (void)right_size;                                                                                     \
        return told_piece(number, left == NULL ? left : right, prefer, prefer_size, wanted, room, room_size);                  \
    }
OF_REPORT(erd_tell_check_data_piece, 5)
OF_PAIR(erd_tell_compare_data_piece, 6)
OF_REPORT(erd_tell_canonical_data_piece, 7)
OF_PAIR(erd_tell_differences_data, 8)
OF_REPORT(erd_tell_check_piece, 9)
OF_PAIR(erd_tell_compare_piece, 10)
OF_REPORT(erd_tell_canonical_piece, 11)
OF_PAIR(erd_tell_differences, 12)
OF_PAIR(erd_tell_differences_values, 13)
OF_REPORT(erd_tell_words, 14)

static size_t last_position;

struct told erd_tell_ballots(const uint8_t *bytes, size_t size, bool prefers, const uint8_t *prefer, size_t prefer_size,
                             uint8_t *room, size_t room_size) {
    (void)size;
    return told_report(BALLOTS_CALL, bytes, prefers, prefer, prefer_size, room, room_size);
}

struct told erd_tell_ballot(const uint8_t *bytes, size_t size, size_t position, bool prefers, const uint8_t *prefer,
                            size_t prefer_size, uint8_t *room, size_t room_size) {
    (void)size;
    last_position = position;
    return told_report(BALLOT_CALL, bytes, prefers, prefer, prefer_size, room, room_size);
}

struct told erd_tell_ballot_differences(const uint8_t *left, size_t left_size, const uint8_t *right, size_t right_size,
                                        bool prefers, const uint8_t *prefer, size_t prefer_size, uint8_t *room,
                                        size_t room_size) {
    (void)left_size, (void)right_size;
    return told_report(BALLOT_DIFFERENCES_CALL, left == NULL ? left : right, prefers, prefer, prefer_size, room, room_size);
}

static size_t last_other_position;

struct told erd_tell_ballots_beside(const uint8_t *left, size_t left_size, const uint8_t *right, size_t right_size,
                                    const uint8_t *prefer, size_t prefer_size, const struct positions *at, uint8_t *room,
                                    size_t room_size) {
    (void)left_size, (void)right_size;
    last_position = at->left;
    last_other_position = at->right;
    return told_report(BALLOTS_BESIDE_CALL, left == NULL ? left : right, at->prefers, prefer, prefer_size, room, room_size);
}

struct told erd_tell_command_line(const uint8_t *words, size_t size, uint8_t *room, size_t room_size) {
    last_size = size;
    return told_report(LINE, words, false, words, 0, room, room_size);
}

static size_t last_steps_size;
static bool last_others;

struct told erd_tell_prepared(const uint8_t *bytes, size_t size, const uint8_t *steps, size_t steps_size, bool others,
                              uint8_t *room, size_t room_size) {
    last_size = size;
    last_steps_size = steps_size;
    last_others = others;
    return told_report(PREPARE, bytes, false, steps, 0, room, room_size);
}

static enum erd_outcome asked_for_piece(int call, struct bytes it, const char *prefer, struct erd_piece *piece, char **text,
                                        size_t *length) {
    switch (call) {
    case 5:
        return erd_check_data_piece(it.at, it.size, prefer, piece, text, length);
    case 6:
        return erd_compare_data_piece(it.at, it.size, it.at, it.size, prefer, piece, text, length);
    case 7:
        return erd_canonical_data_piece(it.at, it.size, prefer, piece, text, length);
    case 8:
        return erd_differences_data(it.at, it.size, it.at, it.size, prefer, piece, text, length);
    case 9:
        return erd_check_piece(it.at, it.size, prefer, piece, text, length);
    case 10:
        return erd_compare_piece(it.at, it.size, it.at, it.size, prefer, piece, text, length);
    case 11:
        return erd_canonical_piece(it.at, it.size, prefer, piece, text, length);
    case 12:
        return erd_differences(it.at, it.size, it.at, it.size, prefer, piece, text, length);
    case 13:
        return erd_differences_values(it.at, it.size, it.at, it.size, prefer, piece, text, length);
    default:
        return erd_words(it.at, it.size, prefer, piece, text, length);
    }
}

static enum erd_outcome asked(int call, const void *bytes, size_t size, const char *prefer, char **text, size_t *length) {
    switch (call) {
    case 0:
        return erd_check(bytes, size, prefer, text, length);
    case 1:
        return erd_canonical(bytes, size, prefer, text, length);
    case 2:
        return erd_compare(bytes, size, bytes, size, prefer, text, length);
    case 3:
        return erd_check_data(bytes, size, prefer, text, length);
    case 4:
        return erd_compare_data(bytes, size, bytes, size, prefer, text, length);
    case BALLOTS_CALL:
        return erd_ballots(bytes, size, prefer, text, length);
    case BALLOT_CALL:
        return erd_ballot(bytes, size, prefer, POSITION, text, length);
    case BALLOT_DIFFERENCES_CALL:
        return erd_ballot_differences(bytes, size, bytes, size, prefer, text, length);
    case BALLOTS_BESIDE_CALL:
        return erd_ballots_beside(bytes, size, bytes, size, prefer, POSITION, OTHER_POSITION, text, length);
    default:
        return asked_for_piece(call, (struct bytes){bytes, size}, prefer, NULL, text, length);
    }
}

static int passed, failed;

static void said(int call, const char *what, size_t number) {
    if (why == NULL)
        passed++;
    else
        failed++, printf("FAILED  %s, %s %zu: %s\n", names[call], what, number, why);
    why = NULL;
}

/* A text of this length comes whole, with a zero byte behind it, after one call if it fits and after two if it does not. */
static void text_of_length(int call, size_t wanted) {
    char *text = NULL;
    size_t length = 7, room = call >= BALLOTS_CALL ? MEBIBYTE : call >= FIRST_OF_PIECES ? ROOM_OF_MEBIBYTE : call == 1 ? 2 * SIZE + 4096 : 4096;
    next = (struct told){ERD_BAD, wanted};
    calls = 0;
    if (asked(call, report, SIZE, NULL, &text, &length) != ERD_BAD || text == NULL || length != wanted)
        why = "another answer";
    else if (last_call != call || ((call == BALLOT_CALL || call == BALLOTS_BESIDE_CALL) && last_position != POSITION)
             || (call == BALLOTS_BESIDE_CALL && last_other_position != OTHER_POSITION))
        why = "another call";
    else if (calls != (wanted > room ? 2 : 1))
        why = "another number of calls";
    else if (text[length] != 0)
        why = "no zero byte at the end";
    for (size_t at = 0; why == NULL && at < length; at++)
        if ((uint8_t)text[at] != letter(at))
            why = "another text";
    erd_free(text);
    said(call, "a text of length", wanted);

    calls = 0;
    length = 7;
    if (asked(call, report, SIZE, NULL, NULL, &length) != ERD_BAD || length != wanted || calls != 1 || last_room != 0)
        why = "another answer without a text";
    said(call, "the length alone of", wanted);
    if (asked(call, report, SIZE, NULL, &text, NULL) != ERD_BAD || text == NULL || text[wanted] != 0)
        why = "another answer without a length";
    erd_free(text);
    said(call, "no length of", wanted);
}

/* Without a text there is none, whatever the length says. */
static void no_text(int call, struct told told, enum erd_outcome wanted) {
    char *text = (char *)"";
    size_t length = 7;
    next = told;
    calls = 0;
    if (asked(call, report, SIZE, NULL, &text, &length) != wanted || text != NULL || length != 0 || calls != 1)
        why = "another answer";
    said(call, "no text of length", told.length);
}

static void preference(int call, const char *prefer) {
    char *text;
    size_t size = prefer ? strlen(prefer) : 0;
    next = (struct told){ERD_GOOD, 3};
    if (asked(call, NULL, 0, prefer, &text, NULL) != ERD_GOOD || strcmp(text, "abc") != 0)
        why = "another answer";
    else if (last_prefers != (prefer != NULL) || last_prefer_size != size)
        why = "another preference";
    else if (size > 0 && memcmp(last_prefer, prefer, size) != 0)
        why = "other bytes of the preference";
    erd_free(text);
    said(call, "a preference of size", size);
}

/* A report that is too long is not handed on, also if its size is so large that sums with it wrap. */
static void too_long(int call, size_t size) {
    char *text = (char *)"";
    size_t length = 7;
    next = (struct told){ERD_GOOD, 3};
    calls = 0;
    if (asked(call, report, size, NULL, &text, &length) != ERD_WRONG || text != NULL || length != 0 || calls != 0)
        why = "another answer";
    said(call, "a report of size", size);
}

/* In a comparison one report that is too long is enough. */
static void one_too_long(int call, size_t left_size, size_t right_size) {
    char *text = (char *)"";
    next = (struct told){ERD_GOOD, 3};
    calls = 0;
    if ((call == 2 ? erd_compare : call == 4 ? erd_compare_data : erd_ballot_differences)(report, left_size, report, right_size, NULL, &text, NULL) != ERD_WRONG
        || text != NULL || calls != 0)
        why = "another answer";
    said(call, "reports, of which one has the size", left_size > right_size ? left_size : right_size);
}

static enum erd_outcome piece_alone(int call, size_t size, struct erd_piece *piece) {
    return asked_for_piece(call, (struct bytes){(const uint8_t *)report, size}, NULL, piece, NULL, NULL);
}

/* There is room for the text of a piece at once if it has hardly more bytes than are enough: a sixteenth more, for commas, and an
 * entry. */
static void room_of_piece(int call, size_t enough, size_t room) {
    for (size_t size = room - 1; size <= room + 1; size++) {
        struct erd_piece piece = {0, 5, enough, 0, 0};
        char *text = NULL;
        next = (struct told){ERD_BAD, size};
        calls = 0;
        struct bytes it = {(const uint8_t *)report, SIZE};
        if (asked_for_piece(call, it, NULL, &piece, &text, NULL) != ERD_BAD || text == NULL)
            why = "another answer";
        else if (calls != (size > room ? 2 : 1))
            why = "another number of calls";
        erd_free(text);
        said(call, "a piece whose text has the size", size);
    }
}

/* A piece is handed on and told of; without one, the whole list is wanted. */
static void piece(int call) {
    struct erd_piece piece = {7, 11, 13, 17, 19};
    next = (struct told){ERD_BAD, 3};
    if (piece_alone(call, SIZE, &piece) != ERD_BAD)
        why = "another answer";
    else if (last_wanted.first != 7 || last_wanted.most != 11 || last_wanted.enough_bytes != 13)
        why = "another piece";
    else if (piece.first != 7 || piece.most != 11 || piece.enough_bytes != 13)
        why = "a changed piece";
    else if (piece.told != next_told || piece.all != next_all)
        why = "something else told";
    said(call, "a piece behind", 7);

    next = (struct told){ERD_NO_MEMORY, 0};
    if (piece_alone(call, SIZE, &piece) != ERD_NO_MEMORY || piece.told != 0 || piece.all != 0)
        why = "a list without memory";
    said(call, "no memory for a piece behind", 7);
    piece.told = piece.all = 9;
    if (piece_alone(call, (size_t)67108864 + 1, &piece) != ERD_WRONG || piece.told != 0 || piece.all != 0)
        why = "a list of a report that is too long";
    said(call, "too long for a piece behind", 7);

    next = (struct told){ERD_GOOD, 3};
    if (asked(call, report, SIZE, NULL, NULL, NULL) != ERD_GOOD || last_wanted.first != 0 || last_wanted.most != SIZE_MAX
        || last_wanted.enough_bytes != SIZE_MAX)
        why = "not the whole list";
    said(call, "no piece behind", 0);
}

/* Wrong words have a text, as help and a request have. */
static void line(enum erd_line wanted, size_t wanted_length) {
    char *text = NULL;
    size_t length = 7;
    next = (struct told){wanted, wanted_length};
    calls = 0;
    if (erd_command_line("erd\0-h", 7, &text, &length) != wanted || text == NULL || length != wanted_length || text[length] != 0)
        why = "another answer";
    else if (last_call != LINE || last_size != 7 || calls != (wanted_length > 4096 ? 2 : 1))
        why = "another call";
    for (size_t at = 0; why == NULL && at < length; at++)
        if ((uint8_t)text[at] != letter(at))
            why = "another text";
    erd_free(text);
    said(LINE, "a text of length", wanted_length);

    calls = 0;
    if (erd_command_line(NULL, 0, NULL, &length) != wanted || length != wanted_length || last_size != 0 || calls != 1
        || last_room != 0)
        why = "another answer without a text";
    said(LINE, "the length alone of", wanted_length);
    text = (char *)"";
    next = (struct told){ERD_LINE_NO_MEMORY, wanted_length};
    if (erd_command_line("erd", 4, &text, &length) != ERD_LINE_NO_MEMORY || text != NULL || length != 0)
        why = "an answer without memory";
    said(LINE, "no memory for a text of length", wanted_length);
}

/* What was done and the prepared report are one text. Bytes that are not JSON have none. */
static void prepared(size_t wanted_length, const char *steps, int others) {
    char *text = NULL;
    size_t length = 7;
    next = (struct told){ERD_GOOD, wanted_length};
    calls = 0;
    if (erd_prepare(report, SIZE, steps, others, &text, &length) != ERD_GOOD || text == NULL || length != wanted_length
        || text[length] != 0)
        why = "another answer";
    else if (last_call != PREPARE || last_size != SIZE || last_steps_size != strlen(steps) || last_others != (others != 0)
             || calls != (wanted_length > SIZE + MEBIBYTE ? 2 : 1))
        why = "another call";
    for (size_t at = 0; why == NULL && at < length; at++)
        if ((uint8_t)text[at] != letter(at))
            why = "another text";
    erd_free(text);
    said(PREPARE, "a text of length", wanted_length);

    static const uint32_t textless[] = {ERD_NOT_JSON, ERD_WRONG, ERD_NO_MEMORY};
    for (size_t at = 0; at < sizeof textless / sizeof *textless; at++) {
        text = (char *)"";
        length = 7;
        next = (struct told){textless[at], 0};
        if (erd_prepare(NULL, 0, steps, others, &text, &length) != (enum erd_outcome)textless[at] || text != NULL || length != 0)
            why = "a text where there is none";
        said(PREPARE, "no text with outcome", textless[at]);
    }
    calls = 0;
    if (erd_prepare(report, (size_t)67108864 + 1, steps, others, &text, &length) != ERD_WRONG || calls != 0)
        why = "a report that is too long";
    said(PREPARE, "too long a report with others", (size_t)others);
}

int main(void) {
    static char long_preference[60002];
    static const size_t lengths[] = {0, 1, 15, 4095, 4096, 4097, 6095, 6096, 6097, 6098, 60001, MEBIBYTE - 1,
                                     MEBIBYTE, MEBIBYTE + 1, 1118207, 1118208, 1118209, 3000000};
    memset(long_preference, 'p', sizeof long_preference - 1);
    for (int call = 0; call < CALLS; call++) {
        for (size_t at = 0; at < sizeof lengths / sizeof *lengths; at++)
            text_of_length(call, lengths[at]);
        no_text(call, (struct told){ERD_WRONG, 0}, ERD_WRONG);
        no_text(call, (struct told){ERD_NO_MEMORY, 0}, ERD_NO_MEMORY);
        no_text(call, (struct told){ERD_WRONG, SIZE_MAX}, ERD_WRONG);
        no_text(call, (struct told){ERD_NO_MEMORY, 5000}, ERD_NO_MEMORY);
        no_text(call, (struct told){ERD_GOOD, SIZE_MAX}, ERD_NO_MEMORY);
        no_text(call, (struct told){ERD_BAD, SIZE_MAX / 2}, ERD_NO_MEMORY);
        preference(call, NULL);
        preference(call, "");
        preference(call, "fourteen bytes");
        preference(call, "fifteen bytes..");
        preference(call, "sixteen bytes...");
        preference(call, long_preference);
        too_long(call, (size_t)67108864 + 1);
        too_long(call, SIZE_MAX);
        too_long(call, SIZE_MAX / 2 + 1);
        too_long(call, SIZE_MAX / 2 - 2000);
    }
    for (int call = FIRST_OF_PIECES; call < BALLOTS_CALL; call++) {
        piece(call);
        room_of_piece(call, 10000, 14721);
        room_of_piece(call, 2 * MEBIBYTE, 1118208);
    }
    for (size_t at = 0; at < sizeof lengths / sizeof *lengths; at++) {
        line(ERD_LINE_HELP, lengths[at]);
        line(ERD_LINE_REQUEST, lengths[at]);
        line(ERD_LINE_WRONG, lengths[at]);
    }
    for (size_t at = 0; at < sizeof lengths / sizeof *lengths; at++) {
        prepared(lengths[at], "nulls,codes", 0);
        prepared(lengths[at], "", 1);
    }
    for (int call = 2; call <= 4; call += 2) {
        one_too_long(call, SIZE, (size_t)67108864 + 1);
        one_too_long(call, (size_t)67108864 + 1, SIZE);
    }
    one_too_long(BALLOT_DIFFERENCES_CALL, SIZE, (size_t)67108864 + 1);
    one_too_long(BALLOT_DIFFERENCES_CALL, (size_t)67108864 + 1, SIZE);
    printf("%d passed, %d failed\n", passed, failed);
    return failed != 0;
}
