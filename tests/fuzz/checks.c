/* What is checked of each input, by the calls of the C library. A check that fails ends the program, which libFuzzer notices and
 * keeps the input. */
#include "../../bindings/c/erd.h"
#include "inputs.h"
#include "reference.h"

#include <stdio.h>
#include <stdlib.h>
#include <string.h>

/* What a call answered. A text is followed by a zero byte. */
struct answer {
    enum erd_outcome outcome;
    char *text;
    size_t length;
};

static void expect(bool holds, const char *promise) {
    if (holds)
        return;
    fprintf(stderr, "BROKEN: %s\n", promise);
    abort();
}

static bool is_text(struct answer answer, const char *wanted) {
    return answer.text != NULL && answer.length == strlen(wanted) && memcmp(answer.text, wanted, answer.length) == 0;
}

static bool same_text(struct answer one, struct answer other) {
    return one.text != NULL && other.text != NULL && one.length == other.length &&
           memcmp(one.text, other.text, one.length) == 0;
}

/* Memory may always run out. Nothing else is without an answer here, as no input is too long. */
static bool has_ended(struct answer answer) {
    if (answer.outcome == ERD_NO_MEMORY) {
        expect(answer.text == NULL && answer.length == 0, "out of memory comes without a text");
        return false;
    }
    expect(answer.outcome <= ERD_NOT_JSON, "an input that is not too long has an answer");
    expect(answer.text != NULL && answer.text[answer.length] == 0, "a zero byte follows a text");
    return true;
}

/* The bytes in memory of their own, so that a read beyond them is seen. */
static char *alone(struct span bytes) {
    char *copy = malloc(bytes.size > 0 ? bytes.size : 1);
    if (copy == NULL)
        abort();
    if (bytes.size > 0)
        memcpy(copy, bytes.at, bytes.size);
    return copy;
}

static struct answer one_call(enum erd_outcome call(const void *, size_t, const char *, char **, size_t *), struct span report,
                              const char *prefer) {
    struct answer answer = {ERD_WRONG, NULL, 1};
    char *bytes = alone(report);
    answer.outcome = call(bytes, report.size, prefer, &answer.text, &answer.length);
    free(bytes);
    return answer;
}

static struct answer pair_call(enum erd_outcome call(const void *, size_t, const void *, size_t, const char *, char **, size_t *),
                               struct span left, struct span right, const char *prefer) {
    struct answer answer = {ERD_WRONG, NULL, 1};
    char *left_bytes = alone(left), *right_bytes = alone(right);
    answer.outcome = call(left_bytes, left.size, right_bytes, right.size, prefer, &answer.text, &answer.length);
    free(left_bytes);
    free(right_bytes);
    return answer;
}

static struct span text_of(struct answer answer) {
    return (struct span){(const uint8_t *)answer.text, answer.length};
}

/* ---- a report */

/* What the library says of a report. */
struct verdict {
    struct answer check, canonical;
};

static void look_at_form(struct answer form, const char *prefer) {
    struct answer again = one_call(erd_canonical, text_of(form), prefer);
    struct answer check = one_call(erd_check, text_of(form), prefer);
    if (has_ended(again))
        expect(again.outcome == ERD_GOOD && same_text(form, again), "canonical bytes are their own form");
    if (has_ended(check))
        expect(check.outcome == ERD_GOOD && is_text(check, "accepted\n"), "canonical bytes are accepted");
    erd_free(again.text);
    erd_free(check.text);
}

static void look_at_data(struct answer check, struct span report, const char *prefer) {
    struct answer data = one_call(erd_check_data, report, prefer);
    if (has_ended(data) && check.text != NULL) {
        expect(data.outcome == check.outcome, "check answers alike in lines and as data");
        expect((data.outcome == ERD_GOOD) == is_text(data, "[]"), "the array of faults is empty if the report is accepted");
        expect((data.outcome == ERD_NOT_JSON) == is_text(data, "\"not JSON\""), "data says not JSON where the lines do");
    }
    erd_free(data.text);
}

static struct verdict judged(struct span report, const char *prefer) {
    struct verdict it = {one_call(erd_check, report, prefer), one_call(erd_canonical, report, prefer)};
    bool is_checked = has_ended(it.check), is_canonical = has_ended(it.canonical);
    if (is_checked) {
        expect((it.check.outcome == ERD_GOOD) == is_text(it.check, "accepted\n"), "check says accepted of accepted reports");
        expect((it.check.outcome == ERD_NOT_JSON) == is_text(it.check, "not JSON\n"), "check says not JSON of other bytes");
        expect(it.check.text[it.check.length - 1] == '\n', "a line is ended");
    }
    if (is_checked && is_canonical) {
        expect(it.check.outcome == it.canonical.outcome, "check and canonical agree");
        expect(it.check.outcome == ERD_GOOD || same_text(it.check, it.canonical), "check and canonical have the same lines");
    }
    if (is_canonical && it.canonical.outcome == ERD_GOOD)
        look_at_form(it.canonical, prefer);
    look_at_data(it.check, report, prefer);
    return it;
}

static void drop(struct verdict it) {
    erd_free(it.check.text);
    erd_free(it.canonical.text);
}

/* ---- two reports */

/* Whether the text is that of check, with `side` before each line. A line of check may have line feeds inside a name, so only the
 * length and the beginning are looked at. */
static bool tells_of(struct answer answer, const char *side, struct answer check) {
    size_t size = strlen(side);
    return answer.outcome == check.outcome && answer.length >= check.length + size && memcmp(answer.text, side, size) == 0;
}

static bool ends_with(struct answer answer, const char *end) {
    size_t size = strlen(end);
    return answer.length >= size && memcmp(answer.text + answer.length - size, end, size) == 0;
}

/* Whether two lines of compare tell of one difference, each from its side. */
static bool is_mirrored(struct answer one, struct answer other) {
    static const char left[] = ": only left\n", right[] = ": only right\n";
    if (ends_with(one, right))
        return is_mirrored(other, one);
    if (!ends_with(one, left))
        return same_text(one, other);
    size_t size = one.length - strlen(left);
    return ends_with(other, right) && other.length == size + strlen(right) && memcmp(one.text, other.text, size) == 0;
}

static void look_at_answer(struct answer answer, struct verdict left, struct verdict right, struct answer other_way) {
    if (left.check.outcome != ERD_GOOD) {
        expect(tells_of(answer, "left: ", left.check), "compare tells of a left report that is refused");
    } else if (right.check.outcome != ERD_GOOD) {
        expect(tells_of(answer, "right: ", right.check), "compare tells of a right report that is refused");
    } else {
        bool is_same = same_text(left.canonical, right.canonical);
        expect((answer.outcome == ERD_GOOD) == is_same, "compare agrees with equality of canonical bytes");
        expect(is_text(answer, "same\n") == is_same, "compare says same of such reports alone");
        expect(answer.outcome == other_way.outcome && is_mirrored(answer, other_way), "compare is symmetric");
    }
}

static void look_at_pair(const struct input *input, const char *prefer, struct verdict left, struct verdict right,
                         struct answer answer) {
    struct answer other_way = pair_call(erd_compare, input->right, input->left, prefer);
    struct answer data = pair_call(erd_compare_data, input->left, input->right, prefer);
    bool is_compared = has_ended(answer), is_other = has_ended(other_way), is_data = has_ended(data);
    if (is_compared && is_data) {
        expect(answer.outcome == data.outcome, "compare answers alike in lines and as data");
        expect((data.outcome == ERD_GOOD) == is_text(data, "null"), "the difference is null if the two mean the same");
    }
    if (is_compared && is_other && left.canonical.text != NULL && right.canonical.text != NULL && left.check.text != NULL &&
        right.check.text != NULL)
        look_at_answer(answer, left, right, other_way);
    erd_free(other_way.text);
    erd_free(data.text);
}

/* A report means what its canonical form means. */
static void look_at_meaning(struct span report, struct answer form, const char *prefer) {
    struct answer answer = pair_call(erd_compare, report, text_of(form), prefer);
    if (has_ended(answer))
        expect(answer.outcome == ERD_GOOD && is_text(answer, "same\n"), "a report means what its canonical form means");
    erd_free(answer.text);
}

/* ---- an input */

/* The preferred type as a string of C, or null. */
static const char *preferred(const struct input *input) {
    static char type[256];
    if (!input->prefers || input->prefer.size >= sizeof type || memchr(input->prefer.at, 0, input->prefer.size) != NULL)
        return NULL;
    memcpy(type, input->prefer.at, input->prefer.size);
    type[input->prefer.size] = 0;
    return type;
}

static struct told told_of(struct answer answer) {
    return (struct told){answer.outcome, text_of(answer)};
}

static void look_at(const struct input *input, const char *prefer, uint64_t mark) {
    struct verdict left = judged(input->left, prefer), right = judged(input->right, prefer);
    struct answer answer = pair_call(erd_compare, input->left, input->right, prefer);
    look_at_pair(input, prefer, left, right, answer);
    if (left.canonical.text != NULL && left.canonical.outcome == ERD_GOOD)
        look_at_meaning(input->left, left.canonical, prefer);
    if (left.check.text != NULL && left.canonical.text != NULL && answer.text != NULL && is_sampled(mark, prefer != NULL)) {
        struct told told[] = {told_of(left.check), told_of(left.canonical), told_of(answer)};
        const char *differs = differing(input, prefer, told);
        expect(differs == NULL, differs);
    }
    erd_free(answer.text);
    drop(left);
    drop(right);
}

/* A number that depends on the bytes alone. */
static uint64_t mark_of(const uint8_t *bytes, size_t size) {
    uint64_t mark = 0xcbf29ce484222325;
    for (size_t i = 0; i < size; i++)
        mark = (mark ^ bytes[i]) * 0x100000001b3;
    return mark ^ mark >> 32;
}

int LLVMFuzzerTestOneInput(const uint8_t *bytes, size_t size) {
    struct input input = input_of((struct span){bytes, size});
    const char *prefer = preferred(&input);
    struct answer check = one_call(erd_check, input.left, prefer);
    erd_free(check.text);
    /* A preferred type that is not UTF-8 has no answer, and that is right. */
    if (prefer != NULL && check.outcome == ERD_WRONG) {
        expect(check.text == NULL && check.length == 0, "a preferred type that is not UTF-8 has no text");
        return 0;
    }
    look_at(&input, prefer, mark_of(bytes, size));
    return 0;
}

int LLVMFuzzerInitialize(int *count, char ***words) {
    (void)count;
    (void)words;
    begin_reference();
    return 0;
}
