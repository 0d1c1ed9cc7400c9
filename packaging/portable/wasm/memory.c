/* What the library needs of C where there is no C library: the functions on bytes, and memory for dlmalloc. A run of more than
 * a few words goes to the engine's own copy and fill; fewer are done here, since a call of the engine costs more. */
#include <stddef.h>
#include <stdint.h>

enum { PAGE = 65536, WORD = 8, FEW = 64 };

typedef uint64_t word __attribute__((aligned(1), may_alias));

void *memcpy(void *restrict to, const void *restrict from, size_t size) {
    uint8_t *out = to;
    const uint8_t *in = from;
    if (size > FEW)
        return __builtin_memcpy(to, from, size);
    for (; size >= WORD; size -= WORD, out += WORD, in += WORD)
        *(word *)out = *(const word *)in;
    for (; size > 0; size--)
        *out++ = *in++;
    return to;
}

void *memmove(void *to, const void *from, size_t size) {
    return __builtin_memmove(to, from, size);
}

void *memset(void *to, int value, size_t size) {
    uint8_t *out = to;
    if (size > FEW)
        return __builtin_memset(to, value, size);
    for (; size > 0; size--)
        *out++ = (uint8_t)value;
    return to;
}

int memcmp(const void *left, const void *right, size_t size) {
    const uint8_t *one = left, *other = right;
    while (size >= WORD && *(const word *)one == *(const word *)other) {
        one += WORD;
        other += WORD;
        size -= WORD;
    }
    for (; size > 0; size--, one++, other++)
        if (*one != *other)
            return *one < *other ? -1 : 1;
    return 0;
}

int bcmp(const void *left, const void *right, size_t size) {
    return memcmp(left, right, size);
}

void *memchr(const void *bytes, int value, size_t size) {
    const uint64_t ones = 0x0101010101010101, highest = 0x8080808080808080, wanted = (uint8_t)value * ones;
    const uint8_t *at = bytes;
    for (; size >= WORD; size -= WORD, at += WORD) {
        uint64_t other = *(const word *)at ^ wanted;
        if (((other - ones) & ~other & highest) != 0)
            break;
    }
    for (; size > 0; size--, at++)
        if (*at == (uint8_t)value)
            return (void *)(uintptr_t)at;
    return NULL;
}

size_t strlen(const char *text) {
    size_t length = 0;
    while (text[length] != 0)
        length++;
    return length;
}

extern uint8_t __heap_base;

/* Memory from here up to the end is free. The first call sets it. */
static uintptr_t top;

static size_t left(void) {
    return __builtin_wasm_memory_size(0) * PAGE - top;
}

/* Makes the memory larger until so many bytes are left, or leaves it. Engines take long over each time, so it grows by a quarter
 * where it can. What memory.grow returns is not looked at: brought to 32 bits, it says another number where it has failed. */
static void grow(size_t wanted) {
    size_t pages = (wanted - left() + PAGE - 1) / PAGE, quarter = __builtin_wasm_memory_size(0) / 4;
    if (pages < quarter)
        __builtin_wasm_memory_grow(0, quarter);
    if (left() < wanted)
        __builtin_wasm_memory_grow(0, pages);
}

/* Hands dlmalloc the next bytes of the memory, which never shrinks. All bits are set where there are none. */
void *sbrk(ptrdiff_t more) {
    if (top == 0)
        top = ((uintptr_t)&__heap_base + 15) & ~(uintptr_t)15;
    if (more > 0 && (size_t)more > left())
        grow((size_t)more);
    if (more < 0 || (size_t)more > left())
        return (void *)~(size_t)0;
    uintptr_t start = top;
    top += (size_t)more;
    return (void *)start;
}
