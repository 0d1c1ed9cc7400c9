/* Preloaded, refuses requests of memory, and adds a line for each to the file that REFUSE_LOG names.

   REFUSE_AT numbers the request of the process that is refused, from 1. A test may say itself what is refused: by a
   request of REFUSE + N bytes, which is granted on no machine, the N-th from there; by one of ASK bytes, none from there. The
   latter is granted, as a small block, if and only if a request was refused since the former. */
#define _GNU_SOURCE
#include <dlfcn.h>
#include <errno.h>
#include <fcntl.h>
#include <stdlib.h>
#include <unistd.h>

#define REFUSE ((size_t)1 << 62)
#define ASK ((size_t)1 << 61)

static unsigned long requests, at;
static int has_refused, known;

static void *wants_memory(void) {
    errno = ENOMEM;
    return NULL;
}

static int refused(void) {
    if (!known) {
        const char *text = getenv("REFUSE_AT");
        at = text ? strtoul(text, NULL, 10) : 0;
        known = 1;
    }
    if (++requests != at)
        return 0;
    has_refused = 1;
    const char *log = getenv("REFUSE_LOG");
    if (log) {
        int file = open(log, O_WRONLY | O_CREAT | O_APPEND, 0644);
        if (file >= 0) {
            ssize_t wrote = write(file, "refused\n", 8);
            (void)wrote;
            close(file);
        }
    }
    return 1;
}

void *malloc(size_t size) {
    static void *(*next)(size_t);
    if (!next)
        next = (void *(*)(size_t))dlsym(RTLD_NEXT, "malloc");
    if (size > REFUSE) {
        known = 1;
        at = requests + (size - REFUSE);
        has_refused = 0;
        return wants_memory();
    }
    if (size == ASK) {
        at = 0;
        return has_refused ? next(1) : wants_memory();
    }
    return refused() ? wants_memory() : next(size);
}

void *realloc(void *old, size_t size) {
    static void *(*next)(void *, size_t);
    if (!next)
        next = (void *(*)(void *, size_t))dlsym(RTLD_NEXT, "realloc");
    return refused() ? wants_memory() : next(old, size);
}

void *aligned_alloc(size_t align, size_t size) {
    static void *(*next)(size_t, size_t);
    if (!next)
        next = (void *(*)(size_t, size_t))dlsym(RTLD_NEXT, "aligned_alloc");
    return refused() ? wants_memory() : next(align, size);
}
