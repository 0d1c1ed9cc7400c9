#define _POSIX_C_SOURCE 200809L
#include "reference.h"

#include <errno.h>
#include <signal.h>
#include <stdio.h>
#include <stdlib.h>
#include <string.h>
#include <unistd.h>

static int to_reference = -1, from_reference = -1;
static uint64_t once_in = 64;

static void stop(const char *why) {
    fprintf(stderr, "fuzz: %s\n", why);
    _exit(70);
}

void begin_reference(void) {
    const char *command = getenv("REFERENCE"), *sample = getenv("SAMPLE");
    int questions[2], answers[2];
    if (command == NULL)
        return;
    if (sample != NULL && atoi(sample) > 0)
        once_in = (uint64_t)atoi(sample);
    signal(SIGPIPE, SIG_IGN);
    if (pipe(questions) != 0 || pipe(answers) != 0)
        stop("no pipe to the reference program");
    if (fork() == 0) {
        dup2(questions[0], 0);
        dup2(answers[1], 1);
        close(questions[1]);
        close(answers[0]);
        execl("/bin/sh", "sh", "-c", command, (char *)NULL);
        _exit(127);
    }
    close(questions[0]);
    close(answers[1]);
    to_reference = questions[1];
    from_reference = answers[0];
}

bool is_sampled(uint64_t mark, bool prefers) {
    return to_reference >= 0 && mark % once_in < (prefers ? 8 : 1);
}

static void send_bytes(const void *bytes, size_t size) {
    for (const char *at = bytes; size > 0;) {
        ssize_t gone = write(to_reference, at, size);
        if (gone < 0 && errno != EINTR)
            stop("the reference program takes no question");
        at += gone < 0 ? 0 : gone;
        size -= gone < 0 ? 0 : (size_t)gone;
    }
}

static void receive(void *to, size_t size) {
    for (char *at = to; size > 0;) {
        ssize_t came = read(from_reference, at, size);
        if (came == 0 || (came < 0 && errno != EINTR))
            stop("the reference program gives no answer");
        at += came < 0 ? 0 : came;
        size -= came < 0 ? 0 : (size_t)came;
    }
}

static void send_part(struct span bytes) {
    uint64_t size = bytes.size;
    send_bytes(&size, sizeof size);
    send_bytes(bytes.at, bytes.size);
}

/* Whether the next answer of the reference program is this one. */
static bool is_answered(struct told told) {
    uint64_t head[2];
    receive(head, sizeof head);
    char *text = malloc(head[1] + 1);
    if (text == NULL)
        stop("no memory for an answer of the reference program");
    receive(text, head[1]);
    bool is_same = head[0] == (uint64_t)told.outcome && head[1] == told.text.size && memcmp(text, told.text.at, head[1]) == 0;
    if (!is_same)
        fprintf(stderr, "the reference program: %llu %.*s\nthe library: %d %.*s\n", (unsigned long long)head[0], (int)head[1], text,
                told.outcome, (int)told.text.size, (const char *)told.text.at);
    free(text);
    return is_same;
}

const char *differing(const struct input *input, const char *prefer, const struct told told[3]) {
    static const char *const words[] = {
        "check is what the reference program says",
        "canon is what the reference program says",
        "compare is what the reference program says"};
    const char *first = NULL;
    send_part(span_of(prefer == NULL ? "" : "1"));
    send_part(span_of(prefer == NULL ? "" : prefer));
    send_part(input->left);
    send_part(input->right);
    for (size_t i = 0; i < 3; i++)
        if (!is_answered(told[i]) && first == NULL)
            first = words[i];
    return first;
}
