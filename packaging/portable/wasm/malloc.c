/* dlmalloc for erd.wasm: one thread, memory that only grows, no files and no clock. */
#include <stddef.h>

#define LACKS_ERRNO_H
#define LACKS_FCNTL_H
#define LACKS_SCHED_H
#define LACKS_STDLIB_H
#define LACKS_STRINGS_H
#define LACKS_STRING_H
#define LACKS_SYS_MMAN_H
#define LACKS_SYS_PARAM_H
#define LACKS_SYS_TYPES_H
#define LACKS_TIME_H
#define LACKS_UNISTD_H

#define ABORT __builtin_trap()
#define EINVAL 22
#define ENOMEM 12
#define HAVE_MMAP 0
#define MALLOC_FAILURE_ACTION
#define MORECORE_CANNOT_TRIM
#define NO_MALLINFO 1
#define NO_MALLOC_STATS 1
#define USE_LOCKS 0
#define malloc_getpagesize 65536

#define dlcalloc calloc
#define dlfree free
#define dlmalloc malloc
#define dlrealloc realloc

void *memcpy(void *restrict to, const void *restrict from, size_t size);
void *memset(void *to, int value, size_t size);
void *sbrk(ptrdiff_t more);

#include "../../../third_party/dlmalloc/malloc.c"
