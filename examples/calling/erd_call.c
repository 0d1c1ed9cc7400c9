/* Checks a report, or compares two: `erd_call FILE` or `erd_call LEFT RIGHT`. Writes the text and ends with the status, as the
 * program erd does. */
#include <erd.h>

#include <stdio.h>
#include <stdlib.h>
#ifdef _WIN32
#include <fcntl.h>
#include <io.h>
#endif

struct report {
    char *bytes;
    size_t size;
};

static struct report read_report(const char *name) {
    struct report report = {NULL, 0};
    FILE *file = fopen(name, "rb");
    if (file == NULL || fseek(file, 0, SEEK_END) != 0) {
        perror(name);
        exit(ERD_WRONG);
    }
    long size = ftell(file);
    rewind(file);
    report.bytes = malloc(size + 1);
    if (report.bytes == NULL || fread(report.bytes, 1, size, file) != (size_t)size) {
        fprintf(stderr, "%s: read failed\n", name);
        exit(ERD_WRONG);
    }
    report.size = size;
    fclose(file);
    return report;
}

int main(int count, char **names) {
    if (count != 2 && count != 3) {
        fprintf(stderr, "usage: erd_call FILE, or erd_call LEFT RIGHT\n");
        return ERD_WRONG;
    }
#ifdef _WIN32
    _setmode(_fileno(stdout), _O_BINARY); /* or Windows writes two bytes for a line feed */
#endif
    char *text;
    size_t length;
    enum erd_outcome outcome;
    struct report left = read_report(names[1]);
    if (count == 2) {
        outcome = erd_check(left.bytes, left.size, NULL, &text, &length);
    } else {
        struct report right = read_report(names[2]);
        outcome = erd_compare(left.bytes, left.size, right.bytes, right.size, NULL, &text, &length);
        free(right.bytes);
    }
    if (outcome == ERD_NO_MEMORY)
        fprintf(stderr, "no memory\n");
    else if (outcome == ERD_WRONG)
        fprintf(stderr, "too long\n");
    else
        fwrite(text, 1, length, stdout);
    erd_free(text);
    free(left.bytes);
    return outcome;
}
