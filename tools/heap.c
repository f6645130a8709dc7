/* By what the reports of the shared library allocate: what the toolchain's code calls for a block of memory, made of the C library's. A
   block of no bytes is one of a few, so that it has a place of its own; alignments are those that malloc keeps by itself, up to 16. */
#include <stdint.h>
#include <stdlib.h>

struct block {
    uint64_t is_there; /* 1 or 0 */
    void *bytes;       /* somewhere, but not null, if there is none */
};

struct block rattle_alloc(uint64_t size, uint64_t alignment);
struct block rattle_realloc(void *bytes, uint64_t old_size, uint64_t size, uint64_t alignment);
void rattle_dealloc(void *bytes);

static struct block block_of(void *bytes) {
    static uint64_t nothing[2];
    struct block block = {bytes != NULL, bytes != NULL ? bytes : nothing};
    return block;
}

struct block rattle_alloc(uint64_t size, uint64_t alignment) {
    return block_of(malloc(size != 0 ? size : alignment));
}

struct block rattle_realloc(void *bytes, uint64_t old_size, uint64_t size, uint64_t alignment) {
    (void)old_size;
    return block_of(realloc(bytes, size != 0 ? size : alignment));
}

void rattle_dealloc(void *bytes) { free(bytes); }
