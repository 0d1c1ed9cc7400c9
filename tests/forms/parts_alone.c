/* Tries packaging/portable/wasm/memory.c and packaging/portable/heap.c on this machine, with a heap and a memory of wasm that are made up.
 * Each line of main says a case, and the number of the first line that does not hold is the exit status. */
#include <stdint.h>
#include <stdio.h>
#include <string.h>

/* What wasm has: a memory of so many pages, which can grow to so many. */
static size_t held = 2, most = 11, grown;
static size_t grow_to(size_t more) {
    grown++;
    if (more > most - held)
        return (size_t)-1;
    held += more;
    return held - more;
}
#define __builtin_wasm_memory_size(memory) held
#define __builtin_wasm_memory_grow(memory, more) grow_to(more)
#define __builtin_memcpy(to, from, size) (copied = (size), real_copy(to, from, size))
#define __builtin_memset(to, value, size) (filled = (size), real_fill(to, value, size))
static size_t copied, filled;
static void *real_copy(void *to, const void *from, size_t size) { return memcpy(to, from, size); }
static void *real_fill(void *to, int value, size_t size) { return memset(to, value, size); }
#define memcpy wasm_memcpy
#define memmove wasm_memmove
#define memset wasm_memset
#define memcmp wasm_memcmp
#define bcmp wasm_bcmp
#define memchr wasm_memchr
#define strlen wasm_strlen
#define sbrk wasm_sbrk
#define __heap_base wasm_heap_base
#include "../../packaging/portable/wasm/memory.c"
#undef memcpy
#undef memmove
#undef memset
#undef memcmp
#undef bcmp
#undef memchr
#undef strlen

/* A heap that tells what was asked of it. */
static size_t asked;
static void *given, *old_one;
static char room[64];
static void *heap_malloc(size_t size) { asked = size; return given; }
static void *heap_realloc(void *old, size_t size) { old_one = old; asked = size; return given; }
static void heap_free(void *old) { old_one = old; }
#define malloc heap_malloc
#define realloc heap_realloc
#define free heap_free
#include "../../packaging/portable/heap.c"

#define HOLDS(what) if (!(what)) { printf("line %d: %s\n", __LINE__, #what); wrong = 1; }

int main(void) {
    int wrong = 0;
    uint8_t from[200], to[202];
    for (int i = 0; i < 200; i++) from[i] = (uint8_t)(i * 7 + 1);
    for (size_t size = 0; size <= 130; size++) {
        memset(to, 0xee, sizeof to);
        copied = filled = 0;
        HOLDS(wasm_memcpy(to + 1, from + 3, size) == to + 1)
        HOLDS(memcmp(to + 1, from + 3, size) == 0 && to[0] == 0xee && to[size + 1] == 0xee)
        HOLDS(copied == (size > 64 ? size : 0))
        HOLDS(wasm_memcmp(to + 1, from + 3, size) == 0 && wasm_bcmp(to + 1, from + 3, size) == 0)
        if (size > 0) {
            to[size]++;
            HOLDS(wasm_memcmp(to + 1, from + 3, size) > 0 && wasm_memcmp(from + 3, to + 1, size) < 0)
            HOLDS(wasm_memcmp(to + 1, from + 3, size - 1) == 0 && wasm_bcmp(to + 1, from + 3, size) != 0)
        }
        HOLDS(wasm_memset(to + 1, 0x1a5, size) == to + 1)
        for (size_t i = 0; i < size; i++) HOLDS(to[i + 1] == 0xa5)
        HOLDS(to[0] == 0xee && to[size + 1] == 0xee + 0 && filled == (size > 64 ? size : 0))
        /* The first of two such bytes, with others before it that differ in one bit, and none. */
        memset(to, 0x81, sizeof to);
        to[size] = to[size + 1] = 0x80;
        HOLDS(wasm_memchr(to, 0x180, 190) == to + size && wasm_memchr(to, 0x80, size) == NULL && wasm_memchr(to, 0x80, size + 1) == to + size)
        to[size] = 0;
        HOLDS(wasm_strlen((char *)to) == size)
    }
    memset(to, 1, sizeof to);
    memmove(to, "abcdef", 6);
    HOLDS(wasm_memmove(to + 1, to, 5) == to + 1 && memcmp(to, "aabcde", 6) == 0)
    HOLDS(wasm_memcmp("\x80", "\x7f", 1) > 0)

    /* The memory begins behind what the linker has placed, at a multiple of 16, and grows by a quarter where that is more. */
    HOLDS((uintptr_t)sbrk(0) == 0x10010 && grown == 0)
    HOLDS((uintptr_t)sbrk(0x20000 - 0x10010) == 0x10010 && grown == 0 && held == 2)
    HOLDS((uintptr_t)sbrk(0) == 0x20000)
    HOLDS((uintptr_t)sbrk(1) == 0x20000 && held == 3)
    HOLDS((uintptr_t)sbrk(0xffff) == 0x20001 && held == 3)
    HOLDS((uintptr_t)sbrk(0x50000) == 0x30000 && held == 8)
    HOLDS((uintptr_t)sbrk(1) == 0x80000 && held == 10)
    HOLDS((uintptr_t)sbrk(0x30000) == UINTPTR_MAX && held == 10)
    HOLDS((uintptr_t)sbrk(-1) == UINTPTR_MAX && (uintptr_t)sbrk(0) == 0x80001)
    HOLDS((uintptr_t)sbrk(0x20000) == 0x80001 && held == 11)

    /* The heap of the proved code. */
    given = room;
    struct place place = rattle_alloc(24, 8);
    HOLDS(asked == 24 && place.is_there == 1 && place.at == (uintptr_t)room)
    rattle_alloc(0, 16);
    HOLDS(asked == 16)
    place = rattle_realloc(to, 5, 40, 8);
    HOLDS(asked == 40 && old_one == to && place.is_there == 1 && place.at == (uintptr_t)room)
    rattle_realloc(to, 5, 0, 4);
    HOLDS(asked == 4)
    given = NULL;
    place = rattle_alloc(24, 8);
    HOLDS(place.is_there == 0 && place.at != 0 && place.at % 16 == 0)
    place = rattle_realloc(to, 5, 40, 8);
    HOLDS(place.is_there == 0 && place.at != 0)
    rattle_dealloc(room);
    HOLDS(old_one == room)
    return wrong;
}
