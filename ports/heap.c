// The heap of the program and the library: the three functions that the toolchain's crate `libc` declares, over the C library's. The toolchain has them
// built for x86-64 alone. Nothing proves this file.
#include <stdint.h>
#include <stdlib.h>

// A block of memory, if `got` is 1.
struct tried {
    uint64_t got;
    void *block;
};

static char nothing;

static struct tried tried(void *block) {
    if (block == NULL) return (struct tried){0, &nothing};
    return (struct tried){1, block};
}

// Tries to get `size` bytes. `align` divides 16, which malloc's blocks are aligned to. A block of no bytes has an address too.
struct tried rattle_alloc(uint64_t size, uint64_t align) { return tried(malloc(size == 0 ? align : size)); }

// Tries to make a block one of `size` bytes. It keeps its bytes, as many as both have, and stays as it was if there is no memory.
struct tried rattle_realloc(void *block, uint64_t kept, uint64_t size, uint64_t align) {
    (void)kept;
    return tried(realloc(block, size == 0 ? align : size));
}

void rattle_dealloc(void *block) { free(block); }
