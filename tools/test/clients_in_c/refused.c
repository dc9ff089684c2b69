/* Each request for memory refused in turn, by an allocator of the caller's own that counts: each call answers
 * MSC_NO_MEMORY and has changed nothing, the same call is made again, and at the end all blocks are given back. */
#include <msc.h>
#include <stdio.h>
#include <stdlib.h>

static long asked, refused = -1, live;

struct msc_block rattle_alloc(size_t size, size_t align) {
    struct msc_block block = {0, NULL};
    if (++asked == refused) return block;
    block.at = malloc(size ? size : align);
    block.ok = block.at != NULL;
    live += block.ok;
    return block;
}

struct msc_block rattle_realloc(void *at, size_t used, size_t size, size_t align) {
    struct msc_block block = {0, NULL};
    (void)used;
    if (++asked == refused) return block;
    block.at = realloc(at, size ? size : align);
    block.ok = block.at != NULL;
    return block;
}

void rattle_dealloc(void *at) {
    live -= at != NULL;
    free(at);
}

static int failures, met;

/* Whether a receive of several went on where a request was refused: without room for all it takes one after another. */
static int went_on;

/* Makes the call again where memory was refused, once. */
#define AGAIN(call)                        \
    do {                                   \
        int answer_ = (call);              \
        if (answer_ == MSC_NO_MEMORY) {    \
            met++;                         \
            answer_ = (call);              \
        }                                  \
        if (answer_ != MSC_DONE) {         \
            printf("%s: %d\n", #call, answer_); \
            failures++;                    \
        }                                  \
    } while (0)

/* Takes the next messages by calls of several, as many as are wanted: none is lost or comes twice, whatever is refused. */
static void take_several(msc_post *post, uint32_t from, size_t wanted) {
    msc_arrival came[8];
    size_t all = 0, count, length, i;
    int answer;
    char body;
    while (all < wanted) {
        long before = asked;
        answer = msc_receive_up_to(post, from, came, wanted - all, &count);
        if (answer != MSC_NO_MEMORY && before < refused && refused <= asked) went_on = 1;
        if (answer == MSC_NO_MEMORY) met++;
        else if (answer != MSC_DONE || count == 0) {
            printf("several: %d, %zu messages\n", answer, count);
            failures++;
            return;
        }
        for (i = 0; i < count; i++, all++)
            if (msc_body_of(post, i, &body, 1, &length) != MSC_DONE || length != 1 || body != (char)('a' + all)) failures++;
    }
}

static void round_trip(void) {
    static const char *const names[] = {"client", "server", "logger"};
    static char text[4096];
    static const msc_message one[] = {{4, 3}}, four[] = {{1, 1}, {1, 1}, {1, 1}, {1, 1}};
    size_t carried[3];
    msc_post posts[3] = {MSC_POST_INIT};
    msc_board board = MSC_BOARD_INIT;
    msc_report report;
    msc_left left;
    msc_arrival came;
    uint32_t races[8];
    size_t count;
    unsigned i;
    AGAIN(msc_open(posts, 3, 4));
    for (i = 0; i < 3; i++) {
        AGAIN(msc_send(&posts[0], 3, "left", "0123456789abcdef", 16, NULL));
        AGAIN(msc_send(&posts[1], 3, "right", "0123456789abcdef", 16, NULL));
        AGAIN(msc_any(&posts[2], &came));
        AGAIN(msc_any(&posts[2], &came));
        AGAIN(msc_races(&posts[2], races, 8, &count));
        AGAIN(msc_send(&posts[2], 1, "back", NULL, 0, NULL));
        AGAIN(msc_receive(&posts[0], 3, &came));
    }
    AGAIN(msc_send_all(&posts[0], 3, "manbmcnd", 8, four, 4, NULL));
    take_several(&posts[2], 1, 4);
    AGAIN(msc_close(&posts[0], 3));
    AGAIN(msc_reserve(&posts[0], 64));
    AGAIN(msc_meet(posts, 3));
    AGAIN(msc_send_all(&posts[0], 2, "itemtea", 7, one, 1, NULL));
    AGAIN(msc_send(&posts[0], 2, "waits", "0123456789abcdef", 16, NULL));
    AGAIN(msc_gather(posts, 3, &board));
    AGAIN(msc_board_text(&board, names, 3, text, sizeof text, &count));
    if (count > sizeof text) failures++;
    AGAIN(msc_board_report(&board, 1, &report, races, 8));
    AGAIN(msc_board_left(&board, 1, 2, 1, &left, NULL, 0, NULL, 0));
    AGAIN(msc_open(posts, 3, 4));
    AGAIN(msc_carry_over(&board, posts, 3, carried));
    AGAIN(msc_receive(&posts[1], 1, &came));
    msc_board_free(&board);
    for (i = 0; i < 3; i++) msc_free(&posts[i]);
}

int main(void) {
    long all, n;
    round_trip();
    all = asked;
    for (n = 1; n <= all; n++) {
        asked = 0;
        refused = n;
        met = 0;
        went_on = 0;
        round_trip();
        if (met != !went_on) {
            printf("the %ld. request was refused, and %d calls reported it\n", n, met);
            failures++;
        }
        if (live != 0) {
            printf("the %ld. request was refused, and %ld blocks are left\n", n, live);
            failures++;
        }
    }
    printf("%ld requests\n", all);
    return failures != 0;
}
