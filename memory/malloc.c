/* The memory of the library: that of the C library. A server may link its own three functions in place of these. A
 * block is aligned to each power of two up to 16 that divides its size. */
#include <stdbool.h>
#include <stddef.h>
#include <stdint.h>
#include <stdlib.h>

/* Whether there is memory, and where. Without memory `at` is the address of a byte that nobody owns, not null. */
struct block {
    bool is_there;
    void *at;
};

struct block rattle_alloc(size_t size, size_t align);
struct block rattle_realloc(void *at, size_t kept, size_t size, size_t align);
void rattle_dealloc(void *at);

static struct block block_at(void *at) {
    static uint8_t nobodys;
    struct block block = {at != NULL, at != NULL ? at : &nobodys};
    return block;
}

/* A block of size 0 has a byte or more, so that its address is its own. */
static size_t some(size_t size, size_t align) { return size != 0 ? size : align; }

struct block rattle_alloc(size_t size, size_t align) { return block_at(malloc(some(size, align))); }

struct block rattle_realloc(void *at, size_t kept, size_t size, size_t align) {
    (void)kept;
    return block_at(realloc(at, some(size, align)));
}

void rattle_dealloc(void *at) { free(at); }
