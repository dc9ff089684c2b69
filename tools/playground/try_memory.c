/* Tries memory.c and numbers.c on the machine itself, in memory of its own: some hundred thousand requests drawn at random, of
 * blocks that must not touch each other, must be aligned, must keep what is in them, and all come back; the same requests
 * again and again; memory that is refused; products and shifts. */
#include <stdint.h>
#include <stdio.h>
#include <stdlib.h>
#include <string.h>

enum { ROOM = 64 << 20, AT_ONCE = 400 };

/* (memory.c knows its first byte alone, by the name that the linker gives it) */
_Alignas(65536) char heap[ROOM] __asm__("heap_base");
static uint64_t pages_had = 1, most_pages = ROOM / 65536;

static uint64_t grow(uint64_t more) {
    if (pages_had + more > most_pages) return UINT32_MAX;
    pages_had += more;
    return pages_had - more;
}

/* (its memory begins at the address 0, and here it doesn't: so addresses are counted from the beginning of the heap) */
#define __builtin_wasm_memory_size(which) (pages_had + (uintptr_t)heap / 65536)
#define __builtin_wasm_memory_grow(which, more) grow(more)
#define __heap_base heap_base
#include "memory.c"
#define __multi3 product_of
#define __ashlti3 shifted_left
#define __lshrti3 shifted_right
#define __ashrti3 shifted_with_sign
#include "numbers.c"

static struct {
    unsigned char *at, byte;
    size_t size;
} kept[AT_ONCE];

static uint64_t state = 1;

static uint64_t draw(void) {
    state = state * 6364136223846793005u + 1442695040888963407u;
    return state >> 20;
}

static void fail(const char *what) {
    printf("%s\n", what);
    exit(1);
}

static size_t drawn_size(void) {
    switch (draw() % 8) {
    case 0: return 0;
    case 1: return draw() % 200000;
    case 2: return draw() % 5000;
    default: return draw() % 300;
    }
}

static void is_kept(unsigned i) {
    size_t place;
    for (place = 0; place < kept[i].size; place++)
        if (kept[i].at[place] != kept[i].byte) fail("a block has lost what was in it");
}

static void fill(unsigned i) {
    kept[i].byte = (unsigned char)draw();
    memset(kept[i].at, kept[i].byte, kept[i].size);
}

static void step(void) {
    unsigned i = (unsigned)(draw() % AT_ONCE);
    size_t size = drawn_size();
    struct msc_block got;
    if (kept[i].at == NULL) {
        got = rattle_alloc(size, 16);
        if (!got.ok) return;
        if ((uintptr_t)got.at % 16 != 0) fail("a block isn't aligned");
        if ((char *)got.at < heap || (char *)got.at + size > heap + pages_had * 65536) fail("a block lies outside of memory");
        kept[i].at = got.at;
        kept[i].size = size;
        fill(i);
    } else if (draw() % 3 == 0) {
        size_t used = size < kept[i].size ? size : kept[i].size;
        got = rattle_realloc(kept[i].at, used, size, 16);
        if (!got.ok) return;
        kept[i].at = got.at;
        kept[i].size = used;
        is_kept(i);
        kept[i].size = size;
        fill(i);
    } else {
        is_kept(i);
        rattle_dealloc(kept[i].at);
        kept[i].at = NULL;
    }
}

static void all_back(void) {
    unsigned i;
    for (i = 0; i < AT_ONCE; i++) {
        if (kept[i].at != NULL) {
            is_kept(i);
            rattle_dealloc(kept[i].at);
            kept[i].at = NULL;
        }
    }
    if (page_blocks() != 0) fail("blocks are left");
}

static __int128 drawn_number(void) {
    uint64_t high = draw() << 30 ^ draw(), low = draw() << 30 ^ draw();
    return (__int128)((unsigned __int128)high << 64 | low);
}

static void products(void) {
    int i;
    for (i = 0; i < 200000; i++) {
        __int128 a = drawn_number(), b = drawn_number();
        if (i % 3 == 1) a >>= draw() % 127;
        if (i % 3 == 2) b = -(b >> draw() % 127);
        if (product_of(a, b) != (__int128)((unsigned __int128)a * (unsigned __int128)b)) fail("a product is wrong");
        if (shifted_left(a, i % 128) != (__int128)((unsigned __int128)a << i % 128)) fail("a shift to the left is wrong");
        if (shifted_right(a, i % 128) != (__int128)((unsigned __int128)a >> i % 128)) fail("a shift to the right is wrong");
        if (shifted_with_sign(a, i % 128) != a >> i % 128) fail("a shift with the sign is wrong");
    }
}

/* Grows blocks beside each other as vectors grow, and gives them back: round by round no more memory is needed. */
static void grow_in_turn(void) {
    void *at[3] = {NULL};
    size_t size, i;
    for (size = 16; size <= 65536; size *= 2) {
        for (i = 0; i < 3; i++) {
            struct msc_block got = at[i] == NULL ? rattle_alloc(size, 16) : rattle_realloc(at[i], size / 2, size, 16);
            if (!got.ok) fail("no memory");
            at[i] = got.at;
        }
    }
    for (i = 0; i < 3; i++) rattle_dealloc(at[(i + size) % 3]);
}

int main(void) {
    uint64_t size, steps, before;
    uintptr_t reached;
    grow_in_turn();
    grow_in_turn();
    reached = top;
    for (steps = 0; steps < 1000; steps++) grow_in_turn();
    if (top != reached) fail("the same requests take more memory each time");
    for (size = 0; size < 300000; size++) {
        unsigned number = size_for(size);
        if (bytes_of(number) < size || bytes_of(number) % 16 != 0) fail("a size is too small");
        if (size > LEAST && bytes_of(number) > size + size / 4 + 16) fail("a size is too large");
    }
    if (size_for((1ull << LARGEST_BITS) - PAGE) >= SIZES) fail("a size has no list");
    for (steps = 0; steps < 100000; steps++) step();
    all_back();
    before = pages_had;
    for (steps = 0; steps < 20000; steps++) step();
    all_back();
    /* (with no memory left to be had) */
    most_pages = pages_had;
    for (steps = 0; steps < 20000; steps++) step();
    all_back();
    if (take(ROOM) != NULL || take(UINT64_MAX) != NULL || take(1ull << LARGEST_BITS) != NULL) fail("a block that there is no room for");
    if (page_blocks() != 0) fail("blocks are left");
    products();
    printf("%lu pages, %lu then\n", (unsigned long)before, (unsigned long)pages_had);
    return 0;
}
