// The heap of the program: the functions that the toolchain's crate `libc` declares, over the memory of the module, which grows as it is needed. Nothing proves
// this file.
//
// Memory is a row of chunks, each with its size and that of the chunk before it, so that a freed chunk is joined to free ones beside it. Free chunks are in
// lists by their size, but for the last one, `top`, which reaches to the end of the memory.
#include "host.h"

// A block of memory, if `got` is 1.
struct tried {
    uint64_t got;
    void *block;
};

struct chunk {
    uint64_t before; // the size of the chunk before it; 0 if it is the first
    uint64_t size;   // its own size, with USED if it isn't free
    struct chunk *next, *previous; // in its list, if it is free; else the block begins here
};

enum { USED = 1, ALIGNMENT = 16, HEADER = 16, LEAST = 32, PAGE = 65536, LISTS = 256, LOOKED_AT = 16 };

static const uint64_t MOST = (uint64_t)1 << 32;

extern uint8_t __heap_base;

static uint8_t nothing;
static struct chunk *top;
static struct chunk *lists[LISTS];
static uint64_t filled[LISTS / 64]; // a bit for each list that isn't empty

static uint64_t size_of(const struct chunk *chunk) { return chunk->size & ~(uint64_t)USED; }
static struct chunk *after(struct chunk *chunk) { return (struct chunk *)((uint8_t *)chunk + size_of(chunk)); }
static struct chunk *chunk_of(void *block) { return (struct chunk *)((uint8_t *)block - HEADER); }

// The list of free chunks of a size: one for each up to 1,024, and then eight from each power of two to the next.
static unsigned list_of(uint64_t size) {
    if (size < 1024) return (unsigned)(size / ALIGNMENT);
    unsigned power = 63 - (unsigned)__builtin_clzll(size);
    unsigned list = 64 + (power - 10) * 8 + (unsigned)(size >> (power - 3) & 7);
    return list < LISTS ? list : LISTS - 1;
}

static void put_in(struct chunk *chunk) {
    unsigned list = list_of(chunk->size);
    chunk->previous = NULL;
    chunk->next = lists[list];
    if (chunk->next != NULL) chunk->next->previous = chunk;
    lists[list] = chunk;
    filled[list / 64] |= (uint64_t)1 << list % 64;
}

static void take_out(struct chunk *chunk) {
    unsigned list = list_of(chunk->size);
    if (chunk->next != NULL) chunk->next->previous = chunk->previous;
    if (chunk->previous != NULL) chunk->previous->next = chunk->next;
    else lists[list] = chunk->next;
    if (lists[list] == NULL) filled[list / 64] &= ~((uint64_t)1 << list % 64);
}

// Finds a free chunk of at least `size` bytes. It looks at some of its own list, and then takes one of the next list that has any.
static struct chunk *find(uint64_t size) {
    unsigned list = list_of(size);
    struct chunk *chunk = lists[list];
    for (unsigned tried = 0; chunk != NULL && tried < LOOKED_AT; tried++, chunk = chunk->next) {
        if (chunk->size >= size) return chunk;
    }
    for (unsigned from = list + 1; from < LISTS; from = (from / 64 + 1) * 64) {
        uint64_t more = filled[from / 64] & ~(uint64_t)0 << from % 64;
        if (more != 0) return lists[from / 64 * 64 + (unsigned)__builtin_ctzll(more)];
    }
    return NULL;
}

// Makes `top` reach further, so that it has room for a chunk of `size` bytes. The memory grows by an eighth at least, if it can. False if it can't grow.
static int grow(uint64_t size) {
    if (top == NULL) {
        uint64_t from = ((uint64_t)&__heap_base + ALIGNMENT - 1) / ALIGNMENT * ALIGNMENT;
        top = (struct chunk *)from;
        top->before = 0;
        top->size = __builtin_wasm_memory_size(0) * PAGE - from;
    }
    if (top->size >= size + LEAST) return 1;
    uint64_t wanted = (size + LEAST - top->size + PAGE - 1) / PAGE;
    uint64_t eighth = __builtin_wasm_memory_size(0) / 8;
    uint64_t pages = wanted > eighth ? wanted : eighth;
    if (__builtin_wasm_memory_grow(0, pages) == (uint64_t)-1) {
        pages = wanted;
        if (__builtin_wasm_memory_grow(0, pages) == (uint64_t)-1) return 0;
    }
    top->size += pages * PAGE;
    return 1;
}

// Ends a chunk after `size` bytes, and makes a free one of the rest. What follows is in use, or is `top`.
static void end_after(struct chunk *chunk, uint64_t size) {
    uint64_t rest = size_of(chunk) - size;
    struct chunk *next = after(chunk);
    if (next != top && rest < LEAST) {
        chunk->size |= USED;
        return;
    }
    chunk->size = size | USED;
    struct chunk *free_one = after(chunk);
    free_one->before = size;
    if (next == top) {
        free_one->size = rest + next->size;
        top = free_one;
    } else {
        free_one->size = rest;
        next->before = rest;
        put_in(free_one);
    }
}

// Joins to a chunk the free one after it, if there is one.
static void join_next(struct chunk *chunk) {
    struct chunk *next = after(chunk);
    if (next == top || (next->size & USED) != 0) return;
    take_out(next);
    chunk->size += next->size;
    after(chunk)->before = size_of(chunk);
}

// The size of the chunk for a block.
static uint64_t chunk_size(uint64_t size) {
    uint64_t whole = (size + HEADER + ALIGNMENT - 1) / ALIGNMENT * ALIGNMENT;
    return whole < LEAST ? LEAST : whole;
}

static void *get(uint64_t size) {
    if (size > MOST) return NULL;
    uint64_t whole = chunk_size(size);
    struct chunk *chunk = top == NULL ? NULL : find(whole);
    if (chunk != NULL) {
        take_out(chunk);
        end_after(chunk, whole);
    } else {
        if (!grow(whole)) return NULL;
        chunk = top;
        top = (struct chunk *)((uint8_t *)chunk + whole);
        top->before = whole;
        top->size = chunk->size - whole;
        chunk->size = whole | USED;
    }
    return (uint8_t *)chunk + HEADER;
}

static void give_back(void *block) {
    struct chunk *chunk = chunk_of(block);
    chunk->size = size_of(chunk);
    if (chunk->before != 0) {
        struct chunk *before = (struct chunk *)((uint8_t *)chunk - chunk->before);
        if ((before->size & USED) == 0) {
            take_out(before);
            before->size += chunk->size;
            chunk = before;
        }
    }
    join_next(chunk);
    struct chunk *next = after(chunk);
    if (next == top) {
        chunk->size += top->size;
        top = chunk;
    } else {
        next->before = chunk->size;
        put_in(chunk);
    }
}

// Makes a chunk one of `whole` bytes where it is, if what follows leaves the room.
static int resize(struct chunk *chunk, uint64_t whole) {
    if (size_of(chunk) < whole) join_next(chunk);
    uint64_t size = size_of(chunk);
    if (size < whole && after(chunk) == top) {
        if (!grow(whole - size)) return 0;
        chunk->size += top->size;
        top = (struct chunk *)((uint8_t *)chunk + whole);
        top->before = whole;
        top->size = size_of(chunk) - whole;
        chunk->size = whole | USED;
        return 1;
    }
    if (size < whole) return 0;
    join_next(chunk);
    end_after(chunk, whole);
    return 1;
}

static struct tried tried(void *block) {
    if (block == NULL) return (struct tried){0, &nothing};
    return (struct tried){1, block};
}

// Tries to get `size` bytes. `align` divides 16. A block of no bytes has an address too.
struct tried rattle_alloc(uint64_t size, uint64_t align) { return tried(get(size == 0 ? align : size)); }

// Tries to make a block one of `size` bytes. It keeps its bytes, as many as both have, and stays as it was if there is no memory.
struct tried rattle_realloc(void *block, uint64_t kept, uint64_t size, uint64_t align) {
    if (size == 0) size = align;
    if (size > MOST) return tried(NULL);
    if (resize(chunk_of(block), chunk_size(size))) return tried(block);
    void *moved = get(size);
    if (moved == NULL) return tried(NULL);
    __builtin_memcpy(moved, block, kept < size ? kept : size);
    give_back(block);
    return tried(moved);
}

void rattle_dealloc(void *block) { give_back(block); }

// C's own, for what is given to C.

void *malloc(uint64_t size) { return get(size == 0 ? 1 : size); }

void free(void *block) {
    if (block != NULL) give_back(block);
}
