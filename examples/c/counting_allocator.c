/* An allocator of the program's own in place of libmsc_malloc.a: it counts what the library takes and gives back.
 *
 *     cc counting_allocator.c -lmsc && ./a.out
 */
#include <msc.h>
#include <stdio.h>
#include <stdlib.h>

static size_t blocks, bytes, most;

/* Before each block lies its size, in as many bytes as keep the block at a multiple of 16. */
enum { BEFORE = 16 };

static struct msc_block counted(size_t *at, size_t size) {
    struct msc_block block = {at != NULL, NULL};
    if (at == NULL) return block;
    *at = size;
    block.at = (char *)at + BEFORE;
    blocks++;
    bytes += size;
    if (bytes > most) most = bytes;
    return block;
}

static size_t *given_back(void *at) {
    size_t *before = (size_t *)(void *)((char *)at - BEFORE);
    blocks--;
    bytes -= *before;
    return before;
}

struct msc_block rattle_alloc(size_t size, size_t align) {
    (void)align;
    return counted(malloc(size + BEFORE), size);
}

struct msc_block rattle_realloc(void *at, size_t used, size_t size, size_t align) {
    struct msc_block block = rattle_alloc(size, align);
    if (!block.ok) return block;
    memcpy(block.at, at, used < size ? used : size);
    rattle_dealloc(at);
    return block;
}

void rattle_dealloc(void *at) {
    if (at != NULL) free(given_back(at));
}

int main(void) {
    msc_post posts[2] = {MSC_POST_INIT};
    msc_arrival came;
    msc_open(posts, 2, 8);
    printf("a board of two: %zu blocks, %zu bytes\n", blocks, bytes);
    for (int i = 0; i < 1000; i++) {
        msc_send(&posts[0], 2, "m", "0123456789abcdef", 16, NULL);
        msc_receive(&posts[1], 1, &came);
    }
    printf("after 1000 messages: %zu blocks, %zu bytes\n", blocks, bytes);
    msc_free(&posts[0]);
    msc_free(&posts[1]);
    printf("at the end: %zu blocks, %zu bytes of at most %zu\n", blocks, bytes, most);
    return bytes != 0;
}
