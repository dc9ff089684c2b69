/* A long run: a hundred boards one after the other, on three threads that pass two tokens on, with a barrier of their own
 * between. A line has 4,096 events, so a run that goes on gathers its board and opens the next one: what still waits, the
 * tokens here, is carried over to it. Each board has a chart of its own.
 *
 * A race whose earlier event is a carried send may be enforced by what the earlier board saw: such races are left out. The
 * carried sends are the first events of their instance.
 *
 *     cc hundred_boards.c -lmsc -lmsc_malloc -pthread && ./a.out
 */
#include <msc.h>
#include <pthread.h>
#include <sched.h>
#include <stdio.h>
#include <stdlib.h>

enum { INSTANCES = 3, BOARDS = 100, ROUNDS = 20 };

static msc_post posts[INSTANCES];
static pthread_barrier_t barrier;
static size_t carried[INSTANCES]; /* how many sends each instance carried over to this board */
static size_t messages, races, left_out;

static void must(const char *what, int answer) {
    if (answer == MSC_DONE) return;
    fprintf(stderr, "%s: %s\n", what, msc_refusal_text(answer));
    exit(1);
}

/* Receives a token from the instance before, and passes it on to the next one, ROUNDS times. */
static void pass(int me) {
    uint32_t next = (uint32_t)((me + 1) % INSTANCES + 1), before = (uint32_t)((me + INSTANCES - 1) % INSTANCES + 1);
    msc_arrival came;
    for (int round = 0; round < ROUNDS; round++) {
        char name[33] = {0};
        size_t length;
        int answer;
        while ((answer = msc_receive(&posts[me], before, &came)) == MSC_NOTHING) sched_yield();
        must("receive", answer);
        must("name", msc_name(&posts[me], name, 32, &length));
        must("send", msc_send(&posts[me], next, name, NULL, 0, NULL));
    }
}

/* Counts the races of a board, except those whose earlier event is a carried send. */
static void count_races(msc_board *board) {
    uint32_t earlier[4096];
    msc_report report;
    for (size_t number = 1; msc_board_report(board, number, &report, earlier, 4096) == MSC_DONE; number++) {
        messages++;
        for (size_t i = 0; i < report.races; i++)
            if (earlier[i] <= carried[report.instance - 1]) left_out++;
            else races++;
    }
}

/* Gathers the board, opens the next one, and carries over to it what still waits. All others wait meanwhile. */
static void go_on(void) {
    msc_board board = MSC_BOARD_INIT;
    must("gather", msc_gather(posts, INSTANCES, &board));
    count_races(&board);
    must("open", msc_open(posts, INSTANCES, 4));
    must("carry over", msc_carry_over(&board, posts, INSTANCES, carried));
    msc_board_free(&board);
}

static void *run(void *arg) {
    int me = (int)(intptr_t)arg;
    for (int board = 0; board < BOARDS; board++) {
        pass(me);
        pthread_barrier_wait(&barrier);
        if (me == 0) go_on();
        pthread_barrier_wait(&barrier);
    }
    return NULL;
}

int main(void) {
    pthread_t threads[INSTANCES];
    must("open", msc_open(posts, INSTANCES, 4));
    must("send", msc_send(&posts[0], 2, "first", NULL, 0, NULL));
    must("send", msc_send(&posts[1], 3, "second", NULL, 0, NULL));
    pthread_barrier_init(&barrier, NULL, INSTANCES);
    for (intptr_t i = 0; i < INSTANCES; i++) pthread_create(&threads[i], NULL, run, (void *)i);
    for (int i = 0; i < INSTANCES; i++) pthread_join(threads[i], NULL);
    for (int i = 0; i < INSTANCES; i++) msc_free(&posts[i]);
    pthread_barrier_destroy(&barrier);
    printf("%d boards, %zu messages, %zu races, %zu left out\n", BOARDS, messages, races, left_out);
    return messages != (size_t)BOARDS * ROUNDS * INSTANCES;
}
