/* Calls the C library as the program would be called: `library [check|canon|compare [--prefer TYPE] FILE ..]`. The words
 * `check-data` and `compare-data` ask for the same as JSON, and `differences`, `differences-data` and `differences-values` for all
 * differences. With `library threads FILE` several threads call at once, and with `library odd FILE` the calls are handed unusual
 * arguments. `library line WORD ..` parses the words as a command line. */
#include "../../bindings/c/erd.h"

#include <pthread.h>
#include <stdint.h>
#include <stdio.h>
#include <stdlib.h>
#include <string.h>

struct file {
    char *bytes;
    size_t size;
};

static struct file read_file(const char *name) {
    FILE *from = name ? fopen(name, "rb") : stdin;
    struct file file = {NULL, 0};
    size_t room = 0;
    if (from == NULL)
        exit(9);
    for (;;) {
        if (file.size == room && (file.bytes = realloc(file.bytes, room = 2 * room + 65536)) == NULL)
            exit(9);
        size_t came = fread(file.bytes + file.size, 1, room - file.size, from);
        if (came == 0)
            break;
        file.size += came;
    }
    if (from != stdin)
        fclose(from);
    return file;
}

static int run(const char *command, const char *prefer, const char *left_name, const char *right_name) {
    struct file left = read_file(left_name), right = {NULL, 0};
    char *text;
    size_t length;
    enum erd_outcome outcome;
    if (strncmp(command, "compare", 7) == 0) {
        int is_data = strcmp(command, "compare-data") == 0;
        right = read_file(right_name);
        outcome = (is_data ? erd_compare_data : erd_compare)(left.bytes, left.size, right.bytes, right.size, prefer, &text,
                                                             &length);
    } else if (strncmp(command, "differences", 11) == 0) {
        int is_data = strcmp(command, "differences-data") == 0, has_values = strcmp(command, "differences-values") == 0;
        right = read_file(right_name);
        outcome = (has_values ? erd_differences_values : is_data ? erd_differences_data : erd_differences)(
            left.bytes, left.size, right.bytes, right.size, prefer, NULL, &text, &length);
    } else if (strcmp(command, "check") == 0) {
        outcome = erd_check(left.bytes, left.size, prefer, &text, &length);
    } else if (strcmp(command, "check-data") == 0) {
        outcome = erd_check_data(left.bytes, left.size, prefer, &text, &length);
    } else {
        outcome = erd_canonical(left.bytes, left.size, prefer, &text, &length);
    }
    int is_told = strcmp(command, "canon") == 0 && outcome != ERD_GOOD;
    if (length > 0 && fwrite(text, 1, length, is_told ? stderr : stdout) != length)
        return 9;
    erd_free(text);
    free(left.bytes);
    free(right.bytes);
    return outcome;
}

/* Writes what the words are answered with where the program writes it: JSON to standard output too. */
static int line(int count, char **words) {
    char given[4096], *text;
    size_t size = 0, length;
    for (int i = 0; i < count; i++) {
        size_t more = strlen(words[i]) + 1;
        if (more > sizeof given - size)
            return 9;
        memcpy(given + size, words[i], more);
        size += more;
    }
    enum erd_line found = erd_command_line(given, size, &text, &length);
    if (length > 0 && fwrite(text, 1, length, found == ERD_LINE_WRONG ? stderr : stdout) != length)
        return 9;
    erd_free(text);
    return found;
}

/* The number of calls that a thread had answered wrongly. */
static void *many_calls(void *given) {
    const struct file *file = given;
    size_t wrong = 0;
    for (int i = 0; i < 20; i++) {
        char *form, *again;
        size_t size, size_again;
        wrong += erd_canonical(file->bytes, file->size, NULL, &form, &size) != ERD_GOOD;
        wrong += erd_canonical(form, size, NULL, &again, &size_again) != ERD_GOOD;
        wrong += size != size_again || memcmp(form, again, size) != 0;
        wrong += erd_compare(file->bytes, file->size, form, size, "local-level", NULL, NULL) != ERD_GOOD;
        wrong += erd_check(form, size - 1, NULL, NULL, NULL) != ERD_NOT_JSON;
        wrong += erd_check_data(form, size, NULL, NULL, &size_again) != ERD_GOOD || size_again != 2;
        wrong += erd_compare_data(file->bytes, file->size, form, size - 1, NULL, NULL, NULL) != ERD_NOT_JSON;
        erd_free(form);
        erd_free(again);
    }
    return (void *)wrong;
}

static int threads(const char *name) {
    struct file file = read_file(name);
    pthread_t each[4];
    size_t wrong = 0;
    for (int i = 0; i < 4; i++)
        if (pthread_create(&each[i], NULL, many_calls, &file) != 0)
            return 9;
    for (int i = 0; i < 4; i++) {
        void *found;
        pthread_join(each[i], &found);
        wrong += (size_t)found;
    }
    free(file.bytes);
    return wrong != 0;
}

/* Whether a call left this text, and no more. */
static int is_text(const char *text, size_t length, const char *wanted) {
    return text != NULL && length == strlen(wanted) && strcmp(text, wanted) == 0;
}

/* The number of the first call for data that is answered wrongly, or 0. */
static int odd_data(struct file file) {
    char *text = "";
    size_t length = 1;
    if (erd_check_data(NULL, 0, NULL, &text, &length) != ERD_NOT_JSON || !is_text(text, length, "\"not JSON\""))
        return 21;
    erd_free(text);
    if (erd_check_data(file.bytes, file.size, "", &text, &length) != ERD_GOOD || !is_text(text, length, "[]"))
        return 22;
    erd_free(text);
    if (erd_check_data(file.bytes, file.size, "\xff", &text, &length) != ERD_WRONG || text != NULL || length != 0)
        return 23;
    if (erd_check_data(file.bytes, 67108865, NULL, &text, &length) != ERD_WRONG || text != NULL || length != 0)
        return 24;
    if (erd_compare_data(file.bytes, file.size, file.bytes, 67108865, NULL, &text, &length) != ERD_WRONG || text != NULL)
        return 25;
    if (erd_compare_data(file.bytes, file.size, file.bytes, file.size, "fifteen bytes..", &text, &length) != ERD_GOOD
        || !is_text(text, length, "null"))
        return 26;
    erd_free(text);
    if (erd_compare_data(file.bytes, file.size, NULL, 0, "fourteen bytes", &text, &length) != ERD_NOT_JSON
        || !is_text(text, length, "{\"faults\":\"not JSON\",\"refused\":\"right\"}"))
        return 27;
    erd_free(text);
    if (erd_compare_data(NULL, 0, file.bytes, file.size, "", &text, &length) != ERD_NOT_JSON
        || !is_text(text, length, "{\"faults\":\"not JSON\",\"refused\":\"left\"}"))
        return 28;
    erd_free(text);
    return 0;
}

/* The number of the first command line that is answered wrongly, or 0. */
static int odd_lines(void) {
    static const char filter[] = "{\"command\":\"filter\",\"files\":[],\"json\":false,\"prefer\":null}";
    static const char check[] = "{\"command\":\"check\",\"files\":[\"a\"],\"json\":false,\"prefer\":null}";
    static const char empty[] = "{\"command\":\"check\",\"files\":[\"\"],\"json\":false,\"prefer\":null}";
    static const struct {
        const char *words;
        size_t size;
        enum erd_line line;
        const char *text;
    } lines[] = {
        {NULL, 0, ERD_LINE_REQUEST, filter},
        {"", 1, ERD_LINE_REQUEST, filter},
        {"erd", 3, ERD_LINE_REQUEST, filter},
        {"erd", 4, ERD_LINE_REQUEST, filter},
        {"erd\0check\0a", 12, ERD_LINE_REQUEST, check},
        {"erd\0check\0a", 11, ERD_LINE_REQUEST, check},
        {"\xc3\xa4\0check", 9, ERD_LINE_WRONG, NULL},
        {"erd\0check\0", 11, ERD_LINE_REQUEST, empty},
        {"erd\0check\0\xff", 12, ERD_LINE_WRONG, "the arguments are not text\n"},
        {"\xff", 2, ERD_LINE_WRONG, "the arguments are not text\n"},
    };
    for (size_t at = 0; at < sizeof lines / sizeof *lines; at++) {
        char *text = "";
        size_t length = 1;
        if (erd_command_line(lines[at].words, lines[at].size, &text, &length) != lines[at].line)
            return 41 + (int)at;
        if (lines[at].text == NULL ? length == 0 : !is_text(text, length, lines[at].text))
            return 41 + (int)at;
        erd_free(text);
    }
    size_t length = 1;
    return erd_command_line("erd", 4, NULL, &length) == ERD_LINE_REQUEST && length == strlen(filter) ? 0 : 51;
}

/* The number of the first report that is prepared wrongly, or 0. */
static int odd_preparations(void) {
#define REPORT "{\"@type\":\"ElectionResults.ElectionReport\""
#define NULLS(done)                                                                                                            \
    "[{\"changes\":[{\"before\":null,\"place\":[\"Notes\"]}],\"count\":1,\"done\":" done                                        \
    ",\"left\":[],\"left_count\":0,\"more\":false,\"step\":\"nulls\"}]\n"
    static const struct {
        const char *report, *steps;
        int others;
        enum erd_outcome outcome;
        const char *text;
    } rows[] = {
        {REPORT ",\"Notes\":null}", "nulls", 0, ERD_GOOD, NULLS("true") REPORT "}"},
        {REPORT ",\"Notes\":null}", "removed", 0, ERD_GOOD, NULLS("true") REPORT "}"},
        {REPORT ",\"Notes\":null}", "codes,nulls", 0, ERD_GOOD, NULLS("true") REPORT "}"},
        {REPORT ",\"Notes\":null}", "", 0, ERD_GOOD, "[]\n" REPORT ",\"Notes\":null}"},
        {REPORT ",\"Notes\":null}", NULL, 2, ERD_GOOD, NULLS("false") REPORT ",\"Notes\":null}"},
        {REPORT "}", "nulls,nosuch", 0, ERD_WRONG, NULL},
        {REPORT "}", "nulls,", 0, ERD_WRONG, NULL},
        {REPORT "}", "\xff", 0, ERD_WRONG, NULL},
        {REPORT, "nulls", 0, ERD_NOT_JSON, NULL},
    };
    for (size_t at = 0; at < sizeof rows / sizeof *rows; at++) {
        char *text = "";
        size_t length = 1;
        enum erd_outcome outcome = erd_prepare(rows[at].report, strlen(rows[at].report), rows[at].steps, rows[at].others, &text, &length);
        if (outcome != rows[at].outcome)
            return 61 + (int)at;
        if (rows[at].text == NULL ? text != NULL || length != 0 : !is_text(text, length, rows[at].text))
            return 61 + (int)at;
        erd_free(text);
    }
    return 0;
}

/* A report with a ballot: one contest, of which it lists a selection, or none. */
#define BALLOTS(listed)                                                                                                        \
    "{\"@type\":\"ElectionResults.ElectionReport\",\"Status\":\"pre-election\",\"GpUnit\":[{\"@id\":\"u7\","                   \
    "\"@type\":\"ElectionResults.ReportingUnit\",\"Type\":\"county\","                                                         \
    "\"ExternalIdentifier\":[{\"@type\":\"ElectionResults.ExternalIdentifier\",\"Type\":\"fips\","                             \
    "\"Value\":\"20\"}]}],\"Election\":[{\"@type\":\"ElectionResults.Election\",\"Name\":\"Test\","                            \
    "\"Type\":\"general\",\"StartDate\":\"2026-11-03\",\"EndDate\":\"2026-11-03\",\"ElectionScopeId\":\"u7\","                 \
    "\"ExternalIdentifier\":[{\"@type\":\"ElectionResults.ExternalIdentifier\",\"Type\":\"local-level\","                      \
    "\"Value\":\"E1\"}],\"Candidate\":[{\"@id\":\"k1\",\"@type\":\"ElectionResults.Candidate\","                               \
    "\"BallotName\":\"Ann\",\"ExternalIdentifier\":[{\"@type\":\"ElectionResults.ExternalIdentifier\","                        \
    "\"Type\":\"local-level\",\"Value\":\"K1\"}]}],\"Contest\":[{\"@id\":\"c1\","                                              \
    "\"@type\":\"ElectionResults.CandidateContest\",\"Name\":\"Mayor\",\"ElectionDistrictId\":\"u7\","                         \
    "\"VotesAllowed\":1,\"ExternalIdentifier\":[{\"@type\":\"ElectionResults.ExternalIdentifier\","                            \
    "\"Type\":\"local-level\",\"Value\":\"C1\"}],\"ContestSelection\":[{\"@id\":\"s2\","                                       \
    "\"@type\":\"ElectionResults.CandidateSelection\",\"IsWriteIn\":true},{\"@id\":\"s1\","                                    \
    "\"@type\":\"ElectionResults.CandidateSelection\",\"CandidateIds\":[\"k1\"]}]}],"                                          \
    "\"BallotStyle\":[{\"@type\":\"ElectionResults.BallotStyle\",\"GpUnitIds\":[\"u7\"],"                                      \
    "\"ExternalIdentifier\":[{\"@type\":\"ElectionResults.ExternalIdentifier\",\"Type\":\"local-level\","                      \
    "\"Value\":\"B1\"}],\"OrderedContent\":[{\"@type\":\"ElectionResults.OrderedContest\",\"ContestId\":\"c1\"" listed "}]}]}]}"
#define LISTED BALLOTS(",\"OrderedContestSelectionIds\":[\"s1\"]")
#define UNLISTED BALLOTS("")

/* The names of its selections, and the line of its contest, as JSON. */
#define ANN "[\"ElectionResults.CandidateSelection\",[[\"local-level\",\"\",\"K1\"]],false,null,null,null]"
#define WRITE_IN "[\"ElectionResults.CandidateSelection\",[],true,null,null,null]"
#define LINE(listed, names)                                                                                                    \
    "{\"depth\":0,\"listed\":" listed ",\"selections\":[" names "],\"what\":[\"contest\",[\"local-level\",\"\",\"C1\"]]}"

static enum erd_outcome ask_for_ballots(const char *left, const char *right, size_t position, const char *prefer, char **text,
                                        size_t *length) {
    if (right != NULL && position < SIZE_MAX)
        return erd_ballots_beside(left, strlen(left), right, strlen(right), prefer, 0, position, text, length);
    if (right != NULL)
        return erd_ballot_differences(left, strlen(left), right, strlen(right), prefer, text, length);
    if (position < SIZE_MAX)
        return erd_ballot(left, strlen(left), prefer, position, text, length);
    return erd_ballots(left, strlen(left), prefer, text, length);
}

/* The number of the first question on ballots that is answered wrongly, or 0. */
static int odd_ballots(void) {
    static const char faults[] = "[{\"name\":\"Election\",\"place\":[],\"reason\":2},{\"name\":\"Status\",\"place\":[],\"reason\":2}]";
    static const struct {
        const char *left, *right;
        size_t position;
        enum erd_outcome outcome;
        const char *text;
    } rows[] = {
        {LISTED, NULL, SIZE_MAX, ERD_GOOD,
         "[{\"at\":0,\"key\":[\"local-level\",\"\",\"B1\"],\"lines\":1,\"parties\":[],\"units\":[[\"fips\",\"\","
         "\"20\"]]}]"},
        {LISTED, NULL, 0, ERD_GOOD,
         "{\"election\":[\"local-level\",\"\",\"E1\"],\"key\":[\"local-level\",\"\",\"B1\"],"
         "\"lines\":[{\"depth\":0,\"listed\":true,"
         "\"selections\":[[\"ElectionResults.CandidateSelection\",[[\"local-level\",\"\",\"K1\"]],false,null,null,"
         "null]],\"what\":[\"contest\",[\"local-level\",\"\",\"C1\"]]}],\"parties\":[],\"units\":[[\"fips\",\"\","
         "\"20\"]]}"},
        {LISTED, NULL, 1, ERD_GOOD, "null"},
        {LISTED, LISTED, SIZE_MAX, ERD_GOOD, "[]"},
        {LISTED, UNLISTED, SIZE_MAX, ERD_BAD,
         "[{\"below\":\"  changed contest [\\\"local-level\\\",\\\"\\\",\\\"C1\\\"]\\n    added selection "
         "[\\\"ElectionResults.CandidateSelection\\\",[],true,null,null,null]\\n\",\"key\":[\"local-level\",\"\",\"B1\"],"
         "\"left\":0,\"right\":0}]"},
        {"{", NULL, SIZE_MAX, ERD_NOT_JSON, "\"not JSON\""},
        {"{", NULL, 0, ERD_NOT_JSON, "\"not JSON\""},
        {REPORT "}", NULL, SIZE_MAX, ERD_BAD, faults},
        {REPORT "}", NULL, 0, ERD_BAD, faults},
        {LISTED, "{", SIZE_MAX, ERD_NOT_JSON, "{\"faults\":\"not JSON\",\"refused\":\"right\"}"},
        {"{", LISTED, SIZE_MAX, ERD_NOT_JSON, "{\"faults\":\"not JSON\",\"refused\":\"left\"}"},
        {LISTED, UNLISTED, 0, ERD_GOOD,
         "{\"left\":[" LINE("true", ANN) "],\"right\":[" LINE("false", WRITE_IN "," ANN)
         "],\"rows\":[{\"how\":\"both\",\"left\":0,\"right\":0,\"selections\":[{\"how\":\"added\",\"name\":" WRITE_IN
         "},{\"how\":\"both\",\"name\":" ANN "}]}]}"},
        {LISTED, LISTED, 1, ERD_GOOD, "null"},
        {LISTED, "{", 0, ERD_NOT_JSON, "{\"faults\":\"not JSON\",\"refused\":\"right\"}"},
    };
    for (size_t at = 0; at < sizeof rows / sizeof *rows; at++) {
        char *text = "";
        size_t length = 1;
        if (ask_for_ballots(rows[at].left, rows[at].right, rows[at].position, at % 2 ? "fips" : NULL, &text, &length) != rows[at].outcome
            || !is_text(text, length, rows[at].text))
            return 81 + (int)at;
        erd_free(text);
        if (ask_for_ballots(rows[at].left, rows[at].right, rows[at].position, "\xff", &text, &length) != ERD_WRONG || text != NULL)
            return 81 + (int)at;
    }
    return 0;
}

/* A type of identifier of this many letters. */
static int preferred(struct file file, size_t size) {
    char *prefer = malloc(size + 1);
    if (prefer == NULL)
        return 9;
    memset(prefer, 't', size);
    prefer[size] = 0;
    enum erd_outcome outcome = erd_check(file.bytes, file.size, prefer, NULL, NULL);
    free(prefer);
    return outcome;
}

/* The number of the first call that is answered wrongly, or 0. */
static int odd(const char *name) {
    struct file file = read_file(name);
    char *text = "", *other;
    size_t length = 1;
    if (erd_check(NULL, 0, NULL, &text, &length) != ERD_NOT_JSON || strcmp(text, "not JSON\n") != 0 || length != 9)
        return 1;
    erd_free(text);
    erd_free(NULL);
    if (erd_check(file.bytes, file.size, "", &text, NULL) != ERD_GOOD || strcmp(text, "accepted\n") != 0)
        return 2;
    erd_free(text);
    if (erd_check(file.bytes, file.size, "\xff", &text, &length) != ERD_WRONG || text != NULL || length != 0)
        return 3;
    if (erd_canonical(file.bytes, 67108865, NULL, &text, &length) != ERD_WRONG || text != NULL || length != 0)
        return 4;
    if (erd_compare(file.bytes, file.size, file.bytes, 67108865, NULL, &text, &length) != ERD_WRONG || text != NULL)
        return 5;
    if (erd_canonical(file.bytes, file.size, NULL, NULL, &length) != ERD_GOOD || length == 0)
        return 6;
    if (erd_canonical(file.bytes, file.size, NULL, &text, NULL) != ERD_GOOD || strlen(text) != length)
        return 7;
    if (erd_compare(file.bytes, file.size, text, length, NULL, &other, NULL) != ERD_GOOD || strcmp(other, "same\n") != 0)
        return 8;
    for (size_t size = 0; size <= 65; size++)
        if (preferred(file, size) != ERD_GOOD)
            return 9;
    if (preferred(file, 70000) != ERD_GOOD)
        return 10;
    if (erd_canonical(file.bytes, SIZE_MAX, NULL, NULL, &length) != ERD_WRONG || length != 0)
        return 11;
    erd_free(text);
    erd_free(other);
    int wrong = odd_data(file);
    free(file.bytes);
    wrong = wrong ? wrong : odd_lines();
    wrong = wrong ? wrong : odd_ballots();
    return wrong ? wrong : odd_preparations();
}

int main(int count, char **words) {
    if (count == 1)
        return run("canon", NULL, NULL, NULL);
    if (strcmp(words[1], "line") == 0)
        return line(count - 2, words + 2);
    if (count == 3 && strcmp(words[1], "threads") == 0)
        return threads(words[2]);
    if (count == 3 && strcmp(words[1], "odd") == 0)
        return odd(words[2]);
    int prefers = count > 4 && strcmp(words[2], "--prefer") == 0;
    char **files = words + (prefers ? 4 : 2);
    return run(words[1], prefers ? words[3] : NULL, files[0], files[0] ? files[1] : NULL);
}
