/* The memory of the module, which has no C library below it: the functions of memory that the proved code calls (as
 * include/msc.h reports them), and two calls by which the page takes a block and gives it back.
 *
 * A block has one of some hundred sizes, and stands behind a head of 16 bytes that says which. What is given back is kept in
 * a list of its size, and taken again from there. Else a block is cut from what lies behind the last one. */
#ifdef __wasm__
/* (the kit has no headers) */
typedef _Bool bool;
typedef __SIZE_TYPE__ size_t;
typedef __UINT32_TYPE__ uint32_t;
typedef __UINT64_TYPE__ uint64_t;
typedef __UINTPTR_TYPE__ uintptr_t;
#define NULL ((void *)0)
#define UINT32_MAX 0xffffffffu
#define true 1
#define false 0
#else
#include <stdbool.h>
#include <stddef.h>
#include <stdint.h>
#endif

enum {
    HEAD = 16,                 /* so a block is aligned to 16, as WebAssembly's largest value wants it */
    PAGE = 65536,              /* what memory grows by */
    SPARE = 16 << 20,          /* as much as is taken beyond what is needed, at most */
    LEAST = 32,                /* the size of the smallest block, with its head */
    LARGEST_BITS = 32,         /* there are blocks of less than 2^32 bytes */
    SIZES = 4 * LARGEST_BITS
};

struct msc_block {
    bool ok;
    void *at;
};

/* The head of a block: the number of its size and, where it was given back, the next one of its list. */
struct head {
    uint64_t size;
    struct head *next;
};

/* Where what the linker has placed ends. */
extern char __heap_base;

static struct head *given_back[SIZES];
static uintptr_t top, limit;
static uint64_t blocks_in_use;

/* The number of the smallest size of at least so many bytes. The sizes from 32 on are four to each power of two:
 * 32, 40, 48, 56, 64, 80, ..; those that are no multiple of 16 aren't used. */
static unsigned size_for(uint64_t bytes) {
    unsigned bits, quarter;
    if (bytes <= LEAST) return 0;
    bits = 63 - (unsigned)__builtin_clzll(bytes - 1);
    quarter = (unsigned)((bytes - 1) >> (bits - 2)) & 3;
    quarter = 4 * (bits - 5) + quarter + 1;
    return quarter < 4 ? (quarter + 1) & ~1u : quarter;
}

static uint64_t bytes_of(unsigned size) {
    return (uint64_t)(4 + size % 4) << (size / 4 + 3);
}

/* Sees that memory reaches up to there. */
static bool reaches(uintptr_t end) {
    uintptr_t spare, pages;
    if (limit == 0) limit = (uintptr_t)__builtin_wasm_memory_size(0) * PAGE;
    if (end <= limit) return true;
    spare = limit < SPARE ? limit : SPARE;
    for (;;) {
        pages = (end - limit + spare + PAGE - 1) / PAGE;
        /* (refused it is -1, or where its addresses have become those of 32 bits 2^32 - 1) */
        if ((uint32_t)__builtin_wasm_memory_grow(0, pages) != UINT32_MAX) break;
        if (spare == 0) return false;
        spare = 0;
    }
    limit += pages * PAGE;
    return true;
}

#ifdef REFUSES_MEMORY
/* How many requests are left until one is refused, 0 where none will be, and how many were made. */
static uint64_t left_to_grant, asked;

void memory_refuse(uint64_t number) {
    left_to_grant = number;
    asked = 0;
}

uint64_t memory_asked(void) { return asked; }

static bool is_refused(void) {
    asked++;
    return left_to_grant != 0 && --left_to_grant == 0;
}
#else
static bool is_refused(void) { return false; }
#endif

static struct head *head_of(void *at) { return (struct head *)((char *)at - HEAD); }

static void *take(uint64_t bytes) {
    unsigned size;
    struct head *head;
    if (bytes >= (1ull << LARGEST_BITS) - 2 * PAGE) return NULL;
    size = size_for(bytes + HEAD);
    head = given_back[size];
    if (head != NULL) {
        given_back[size] = head->next;
    } else {
        if (top == 0) top = ((uintptr_t)&__heap_base + HEAD - 1) / HEAD * HEAD;
        if (!reaches(top + bytes_of(size))) return NULL;
        head = (struct head *)top;
        head->size = size;
        top += bytes_of(size);
    }
    blocks_in_use++;
    return (char *)head + HEAD;
}

static void give(void *at) {
    struct head *head = head_of(at);
    head->next = given_back[head->size];
    given_back[head->size] = head;
    blocks_in_use--;
}

/* Makes a block larger where it stands: that is, where nothing stands behind it. Not so where one of that size was given
 * back: else each round of the same requests would cut another block of the old size, and memory would grow for ever. */
static bool stretches(struct head *head, uint64_t bytes) {
    unsigned size = size_for(bytes + HEAD);
    if (given_back[size] != NULL || (uintptr_t)head + bytes_of((unsigned)head->size) != top) return false;
    if (!reaches((uintptr_t)head + bytes_of(size))) return false;
    head->size = size;
    top = (uintptr_t)head + bytes_of(size);
    return true;
}

static struct msc_block block(void *at) {
    struct msc_block answer = {at != NULL, at};
    return answer;
}

struct msc_block rattle_alloc(size_t size, size_t align) {
    (void)align;
    return block(is_refused() ? NULL : take(size));
}

struct msc_block rattle_realloc(void *at, size_t used, size_t size, size_t align) {
    void *moved;
    (void)align;
    if (is_refused()) return block(NULL);
    if (size <= bytes_of((unsigned)head_of(at)->size) - HEAD) return block(at);
    if (size < (1ull << LARGEST_BITS) - 2 * PAGE && stretches(head_of(at), size)) return block(at);
    moved = take(size);
    if (moved == NULL) return block(NULL);
    __builtin_memcpy(moved, at, used);
    give(at);
    return block(moved);
}

void rattle_dealloc(void *at) {
    if (at != NULL) give(at);
}

/* Memory for the page, or 0 where there is none. */
void *page_take(size_t size) { return take(size); }

void page_give(void *at) { rattle_dealloc(at); }

/* How many blocks are in use. */
uint64_t page_blocks(void) { return blocks_in_use; }
