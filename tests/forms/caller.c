/* Answers many calls of the library in one process, for forms of it whose programs start slowly. Each line of standard input is
 * a call: its name, the preferred type with `=` before it or `-` for none, and the names of its files, with tabs between them.
 * For each it writes a line with the outcome and the length of the text, and then the text. */
#include <erd.h>

#include <stdio.h>
#include <stdlib.h>
#include <string.h>
#ifdef _WIN32
#include <fcntl.h>
#include <io.h>
#endif

enum { MOST_WORDS = 4, LONGEST_LINE = 8192 };

struct file {
    char *bytes;
    size_t size;
};

static void stop(const char *why, const char *what) {
    fprintf(stderr, "%s: %s\n", why, what);
    exit(9);
}

static struct file read_file(const char *name) {
    FILE *from = fopen(name, "rb");
    struct file file = {NULL, 0};
    size_t room = 0, came;
    if (from == NULL)
        stop("cannot open", name);
    do {
        if (file.size == room && (file.bytes = realloc(file.bytes, room = 2 * room + 65536)) == NULL)
            stop("no memory for", name);
        came = fread(file.bytes + file.size, 1, room - file.size, from);
        file.size += came;
    } while (came > 0);
    fclose(from);
    return file;
}

typedef enum erd_outcome of_one(const void *, size_t, const char *, char **, size_t *);
typedef enum erd_outcome of_two(const void *, size_t, const void *, size_t, const char *, char **, size_t *);
typedef enum erd_outcome of_pieces(const void *, size_t, const void *, size_t, const char *, struct erd_piece *, char **, size_t *);

/* The steps stand where other calls have the preferred type. It is told too what the other steps would do. */
static enum erd_outcome prepared(const void *bytes, size_t size, const char *steps, char **text, size_t *length) {
    return erd_prepare(bytes, size, steps, 1, text, length);
}

static const struct {
    const char *name;
    of_one *call;
} of_one_report[] = {
    {"check", erd_check}, {"canon", erd_canonical}, {"check_data", erd_check_data}, {"prepare", prepared}};

static const struct {
    const char *name;
    of_two *call;
} of_two_reports[] = {{"compare", erd_compare}, {"compare_data", erd_compare_data}};

/* The calls that have a whole list where they get no piece. */
static const struct {
    const char *name;
    of_pieces *call;
} of_lists[] = {{"differences", erd_differences},
                {"differences_data", erd_differences_data},
                {"differences_values", erd_differences_values}};

#define COUNT(table) (sizeof(table) / sizeof(table)[0])

static enum erd_outcome ask(char **words, const char *prefer, struct file left, struct file right, char **text, size_t *length) {
    for (size_t i = 0; i < COUNT(of_one_report); i++)
        if (strcmp(words[0], of_one_report[i].name) == 0)
            return of_one_report[i].call(left.bytes, left.size, prefer, text, length);
    for (size_t i = 0; i < COUNT(of_two_reports); i++)
        if (strcmp(words[0], of_two_reports[i].name) == 0)
            return of_two_reports[i].call(left.bytes, left.size, right.bytes, right.size, prefer, text, length);
    for (size_t i = 0; i < COUNT(of_lists); i++)
        if (strcmp(words[0], of_lists[i].name) == 0)
            return of_lists[i].call(left.bytes, left.size, right.bytes, right.size, prefer, NULL, text, length);
    stop("no such call", words[0]);
    return ERD_WRONG;
}

/* The text that a word has in hexadecimal, in the place of the word. */
static char *text_of(char *word) {
    size_t length = strlen(word) / 2;
    for (size_t i = 0; i < length; i++) {
        char digits[3] = {word[2 * i], word[2 * i + 1], 0};
        word[i] = (char)strtol(digits, NULL, 16);
    }
    word[length] = 0;
    return word;
}

static void answer(char **words, int count) {
    struct file left = read_file(words[2]), right = {NULL, 0};
    char *text;
    size_t length;
    if (count > 3)
        right = read_file(words[3]);
    enum erd_outcome outcome = ask(words, words[1][0] == '=' ? text_of(words[1] + 1) : NULL, left, right, &text, &length);
    printf("%d %lu\n", (int)outcome, (unsigned long)length);
    if (length > 0 && fwrite(text, 1, length, stdout) != length)
        stop("no place for the text of", words[2]);
    erd_free(text);
    free(left.bytes);
    free(right.bytes);
}

int main(void) {
    char line[LONGEST_LINE];
    if (strcmp(erd_version(), ERD_VERSION) != 0)
        stop("the library and the header have other versions", erd_version());
#ifdef _WIN32
    _setmode(_fileno(stdin), _O_BINARY);
    _setmode(_fileno(stdout), _O_BINARY);
#endif
    while (fgets(line, sizeof line, stdin) != NULL) {
        char *words[MOST_WORDS] = {NULL};
        int count = 0;
        for (char *word = strtok(line, "\t\n"); word != NULL && count < MOST_WORDS; word = strtok(NULL, "\t\n"))
            words[count++] = word;
        if (count < 3)
            stop("no call", line);
        answer(words, count);
    }
    return 0;
}
