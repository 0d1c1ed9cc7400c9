/* Tries what bindings/c/erd.c keeps of a list by itself, in place of the proved calls: lists of many entries, whose texts have what
 * could be taken for the end of an entry. Counts how often a list is judged. The last line is 'N passed, M failed'. */
#include "../../bindings/c/erd.c"

#include <stdio.h>

#pragma GCC diagnostic ignored "-Wunused-parameter"

/* So many entries that their text has more than the mebibyte for which a call makes room by itself, and a size of a report that has more.
 * The report is not read. */
enum { ENTRIES = 60000, SIZE = 4194304, LONG_NAME = 1500, MOST = (LONG_NAME + 100) * ENTRIES + 100 };

static unsigned judged, refused_at, passed, failed;
static size_t entries;
/* The name that a line has in front, if entries are long: so many are longer than 64 mebibytes together. */
static int name_length;
static bool has_side, has_line_feed;

static const char *entry(size_t number, bool is_data) {
    static char text[LONG_NAME + 80];
    bool is_broken = has_line_feed && number % 10 == 7;
    const char *inner = number % 3 == 0 ? "]}\\\"{[" : number % 3 == 1 ? "\\\\n" : "";
    if (is_data)
        snprintf(text, sizeof text, "{\"a\":[%zu,[],{}],\"b\":\"%s%s\"}", number, inner, is_broken ? "\\n/8: wrong\\n" : "");
    else
        snprintf(text, sizeof text, "/%*zu%s: wrong\n", name_length, number, is_broken ? "\n/8: wrong\n" : "");
    return text;
}

/* The text of a piece, as the proved code has it. */
static size_t text_of(const struct wanted *wanted, bool is_data, size_t *told, char *text) {
    size_t length = 0, bytes = 0;
    const char *front = has_side ? "{\"faults\":[" : "[", *end = has_side ? "],\"refused\":\"left\"}" : "]";
    if (is_data)
        length += (size_t)sprintf(text, "%s", front);
    for (*told = 0; wanted->first + *told < entries && *told < wanted->most && bytes < wanted->enough_bytes; ++*told) {
        const char *one = entry(wanted->first + *told, is_data);
        bytes += strlen(one);
        length += (size_t)sprintf(text + length, "%s%s", is_data && *told > 0 ? "," : "", one);
    }
    if (is_data)
        length += (size_t)sprintf(text + length, "%s", end);
    return length;
}

static struct told judge(struct wanted *wanted, bool is_data, uint8_t *room, size_t room_size) {
    static char text[MOST];
    size_t told;
    if (++judged == refused_at)
        return (struct told){ERD_NO_MEMORY, 0};
    size_t length = text_of(wanted, is_data, &told, text);
    wanted->told = told;
    wanted->all = entries;
    if (length <= room_size)
        memcpy(room, text, length);
    return (struct told){ERD_BAD, length};
}

#define OF_REPORT(name, is_data)                                                                                               \
    struct told name(const uint8_t *bytes, size_t size, const uint8_t *prefer, size_t prefer_size, struct wanted *wanted,      \
                     uint8_t *room, size_t room_size) {                                                                        \
        return judge(wanted, is_data, room, room_size);                                                                        \
    }
#define OF_PAIR(name, is_data)                                                                                                 \
    struct told name(const uint8_t *bytes, size_t size, const uint8_t *right, size_t right_size, const uint8_t *prefer,        \
                     size_t prefer_size, struct wanted *wanted, uint8_t *room, size_t room_size) {                             \
        return judge(wanted, is_data, room, room_size);                                                                        \
    }
OF_REPORT(erd_tell_check_piece, false)
OF_REPORT(erd_tell_canonical_piece, false)
OF_REPORT(erd_tell_check_data_piece, true)
OF_REPORT(erd_tell_canonical_data_piece, true)
OF_REPORT(erd_tell_words, true)
OF_PAIR(erd_tell_compare_piece, false)
OF_PAIR(erd_tell_differences, false)
OF_PAIR(erd_tell_compare_data_piece, true)
OF_PAIR(erd_tell_differences_data, true)
OF_PAIR(erd_tell_differences_values, true)

/* The calls that no list is made of are not called here. */
#define NOT_CALLED(name, ...)                                                                                                  \
    struct told name(__VA_ARGS__) {                                                                                            \
        abort();                                                                                                               \
    }
#define BYTES(name) const uint8_t *name, size_t name##_size
NOT_CALLED(erd_tell_check, BYTES(a), bool b, BYTES(c), uint8_t *d, size_t e)
NOT_CALLED(erd_tell_canonical, BYTES(a), bool b, BYTES(c), uint8_t *d, size_t e)
NOT_CALLED(erd_tell_compare, BYTES(a), BYTES(f), bool b, BYTES(c), uint8_t *d, size_t e)
NOT_CALLED(erd_tell_check_data, BYTES(a), bool b, BYTES(c), uint8_t *d, size_t e)
NOT_CALLED(erd_tell_compare_data, BYTES(a), BYTES(f), bool b, BYTES(c), uint8_t *d, size_t e)
NOT_CALLED(erd_tell_command_line, BYTES(a), uint8_t *d, size_t e)
NOT_CALLED(erd_tell_prepared, BYTES(a), BYTES(b), bool c, uint8_t *d, size_t e)
NOT_CALLED(erd_tell_ballots, BYTES(a), bool b, BYTES(c), uint8_t *d, size_t e)
NOT_CALLED(erd_tell_ballot, BYTES(a), size_t f, bool b, BYTES(c), uint8_t *d, size_t e)
NOT_CALLED(erd_tell_ballot_differences, BYTES(a), BYTES(f), bool b, BYTES(c), uint8_t *d, size_t e)
NOT_CALLED(erd_tell_ballots_beside, BYTES(a), BYTES(f), BYTES(c), const struct positions *b, uint8_t *d, size_t e)

static void said(const char *why, enum erd_listing listing, const char *what) {
    passed += why == NULL;
    failed += why != NULL;
    if (why != NULL)
        printf("FAILED  list %d, %s: %s\n", (int)listing, what, why);
}

/* What is wrong in the pieces of a list, each held against what the proved code has for it, or null. */
static const char *wrong_in(enum erd_listing listing, size_t most, size_t enough, size_t room) {
    static char expected[MOST];
    struct erd_list *list = erd_open(listing, "", SIZE, "", 0, NULL, room);
    size_t first = 0, told, most_told;
    const char *why = NULL;
    for (bool is_over = false; !is_over && why == NULL;) {
        struct erd_piece piece = {99, most, enough, 99, 99};
        char *text;
        size_t length;
        enum erd_outcome outcome = erd_next(list, &piece, &text, &length);
        struct wanted asked = {first, most, enough, 0, 0, false}, wanted = {first, piece.told, SIZE_MAX, 0, 0, false};
        text_of(&asked, listing >= ERD_LIST_CHECK_DATA, &most_told, expected);
        size_t expected_length = text_of(&wanted, listing >= ERD_LIST_CHECK_DATA, &told, expected);
        is_over = first == entries && (entries > 0 || text == NULL);
        if (outcome != ERD_BAD || piece.first != first || piece.all != entries)
            why = "another outcome or number";
        else if (is_over ? text != NULL || length != 0 || piece.told != 0 : text == NULL)
            why = "a text behind the last one, or none in front of it";
        else if (!is_over && (length != expected_length || memcmp(text, expected, length) != 0 || text[length] != 0))
            why = "another text";
        else if (!is_over && piece.told == 0 && entries > 0)
            why = "a piece without an entry";
        else if (piece.told > most_told || (room == 0 && piece.told < most_told))
            why = "more or fewer entries than are asked for";
        first += piece.told;
        erd_free(text);
    }
    erd_close(list);
    return why;
}

static void pieces(enum erd_listing listing) {
    static const size_t bounds[][3] = {{SIZE_MAX, SIZE_MAX, 0}, {1, SIZE_MAX, 0},  {7, SIZE_MAX, 0},  {SIZE_MAX, 100, 0},
                                       {SIZE_MAX, 1, 1},        {3, 1000, 1},      {30, 1000, 2000}, {SIZE_MAX, SIZE_MAX, 3000}};
    for (size_t i = 0; i < sizeof bounds / sizeof *bounds; i++)
        said(wrong_in(listing, bounds[i][0], bounds[i][1], bounds[i][2]), listing, "in pieces");
}

/* The same piece comes again after a judging that has no memory. */
static void without_memory(enum erd_listing listing, unsigned judging) {
    struct erd_list *list = erd_open(listing, "", 0, "", 0, NULL, 0);
    struct erd_piece piece = {0, 1, SIZE_MAX, 0, 0};
    char *text;
    judged = 0;
    refused_at = judging;
    bool is_refused = erd_next(list, &piece, &text, NULL) == ERD_NO_MEMORY && text == NULL && piece.told == 0;
    refused_at = 0;
    said(is_refused && erd_next(list, &piece, NULL, NULL) == ERD_BAD && piece.told == 1 ? NULL : "another outcome", listing, "no memory");
    erd_close(list);
}

/* A list is judged once, and once for each `room` bytes if it has more; and as data too if a name in a line has a line feed. */
static void judgings(enum erd_listing listing) {
    unsigned once = 1 + has_line_feed;
    judged = 0;
    wrong_in(listing, 50, SIZE_MAX, 0);
    said(judged == once ? NULL : "it was judged more than once", listing, "piece by piece");
    judged = 0;
    wrong_in(listing, 50, SIZE_MAX, 5000);
    said(judged <= 1000 ? NULL : "it was judged for fewer bytes than have room", listing, "in little room");
    for (unsigned judging = 1; judging <= once; judging++)
        without_memory(listing, judging);
}

/* A list whose entries have 90 megabytes is judged once if it may keep as much. */
static void long_list(void) {
    entries = ENTRIES;
    name_length = LONG_NAME;
    judged = 0;
    const char *why = wrong_in(ERD_LIST_CHECK, 10000, SIZE_MAX, 100000000);
    said(why != NULL || judged == 1 ? why : "it was judged more than once", ERD_LIST_CHECK, "long entries");
    name_length = 0;
}

int main(void) {
    for (int listing = ERD_LIST_CHECK; listing <= ERD_LIST_WORDS; listing++) {
        bool is_data = listing >= ERD_LIST_CHECK_DATA;
        for (int form = 0; form < 2; form++) {
            has_side = is_data && form == 1;
            has_line_feed = !is_data && form == 1;
            entries = ENTRIES;
            judgings((enum erd_listing)listing);
            entries = 0;
            pieces((enum erd_listing)listing);
            entries = 50;
            pieces((enum erd_listing)listing);
        }
        has_side = has_line_feed = false;
    }
    long_list();
    erd_close(NULL);
    said(erd_open((enum erd_listing)10, "", 0, "", 0, NULL, 0) == NULL ? NULL : "it was opened", (enum erd_listing)10, "another number");
    printf("%u passed, %u failed\n", passed, failed);
    return failed != 0;
}
