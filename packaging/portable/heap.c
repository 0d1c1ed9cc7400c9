/* The heap that the proved code asks for: the C library's, as the kit's own C code for x86-64 Linux does it. The result of a
 * request is 1 and the place, or 0 and an address that is not null. A request for no bytes is one for as many as its
 * alignment, so that each place is another. */
#include <stdint.h>
#include <stdlib.h>

struct place {
    uint64_t is_there;
    uint64_t at;
};

static _Alignas(16) char nowhere[16];

static struct place place_at(void *at) {
    return (struct place){at != NULL, (uint64_t)(uintptr_t)(at != NULL ? at : nowhere)};
}

struct place rattle_alloc(uint64_t size, uint64_t alignment) {
    return place_at(malloc(size != 0 ? size : alignment));
}

struct place rattle_realloc(void *old, uint64_t old_size, uint64_t size, uint64_t alignment) {
    (void)old_size;
    return place_at(realloc(old, size != 0 ? size : alignment));
}

void rattle_dealloc(void *old) {
    free(old);
}
