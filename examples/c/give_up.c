/* A client asks a server, which gives up when nothing comes for a while, and informs a logger. Three threads, a post each.
 * Each race is printed as it comes. At the end the board is gathered, and its chart is printed, which mscrun check and
 * mscview read.
 *
 *     cc give_up.c -lmsc -lmsc_malloc -pthread && ./a.out
 */
#include <msc.h>
#include <pthread.h>
#include <stdio.h>
#include <time.h>

enum { CLIENT = 1, SERVER, LOGGER, INSTANCES = 3 };

static const char *const names[] = {"", "client", "server", "logger"};

/* Posts never wait: who finds nothing tries again after a pause, which gets longer up to a millisecond. */
static void back_off(unsigned *tries) {
    struct timespec pause = {0, 1000L << (*tries < 10 ? *tries : 10)};
    ++*tries;
    nanosleep(&pause, NULL);
}

static void send(msc_post *post, uint32_t to, const char *name, const char *body) {
    unsigned tries = 0;
    int answer;
    while ((answer = msc_send(post, to, name, body, strlen(body), NULL)) == MSC_FULL) back_off(&tries);
    if (answer != MSC_DONE) fprintf(stderr, "send %s: %s\n", name, msc_refusal_text(answer));
}

/* Prints the message that came, and its races. */
static void show(int me, msc_post *post, const msc_arrival *came) {
    char name[33] = {0};
    uint32_t races[16];
    size_t length, count, i;
    msc_name(post, name, 32, &length);
    printf("%s: event %u is %s from %s\n", names[me], came->event, name, names[came->from]);
    msc_races(post, races, 16, &count);
    for (i = 0; i < count && i < 16; i++)
        printf("race %s %u %u\n", names[me], races[i], came->event);
}

/* Waits for the next message from any instance, this many tries. */
static int next(int me, msc_post *post, unsigned most, msc_arrival *came) {
    unsigned tries = 0;
    int answer;
    while ((answer = msc_any(post, came)) == MSC_NOTHING && tries < most) back_off(&tries);
    if (answer == MSC_DONE) show(me, post, came);
    return answer;
}

static void *client(void *arg) {
    msc_post *post = arg;
    msc_arrival came;
    send(post, LOGGER, "begins", "");
    send(post, SERVER, "ask", "what time is it?");
    while (next(CLIENT, post, 1000, &came) == MSC_NOTHING) {}
    msc_close(post, SERVER);
    msc_close(post, LOGGER);
    return NULL;
}

static void *server(void *arg) {
    msc_post *post = arg;
    msc_arrival came;
    if (next(SERVER, post, 20, &came) == MSC_DONE) {
        send(post, CLIENT, "answer", "late");
        send(post, LOGGER, "answered", "");
    } else {
        send(post, CLIENT, "gives_up", "");
        send(post, LOGGER, "gave_up", "");
    }
    msc_close(post, CLIENT);
    msc_close(post, LOGGER);
    return NULL;
}

static void *logger(void *arg) {
    msc_post *post = arg;
    msc_arrival came;
    while (next(LOGGER, post, 1000, &came) != MSC_ENDED) {}
    return NULL;
}

/* Gathers the board, and prints its chart and what still waits. */
static int show_board(msc_post *posts) {
    static char text[1 << 16];
    msc_board board = MSC_BOARD_INIT;
    msc_left left;
    size_t length = 0;
    uint32_t from, to;
    int answer = msc_gather(posts, INSTANCES, &board);
    if (answer == MSC_DONE) answer = msc_board_text(&board, names + 1, INSTANCES, text, sizeof text, &length);
    if (answer != MSC_DONE) fprintf(stderr, "gather: %s\n", msc_refusal_text(answer));
    fwrite(text, 1, length < sizeof text ? length : sizeof text, stdout);
    for (from = 1; from <= INSTANCES; from++)
        for (to = 1; to <= INSTANCES; to++)
            if (msc_board_left(&board, from, to, 1, &left, NULL, 0, NULL, 0) == MSC_DONE)
                printf("something waits from %s to %s\n", names[from], names[to]);
    msc_board_free(&board);
    return answer != MSC_DONE;
}

int main(void) {
    static void *(*const run[])(void *) = {client, server, logger};
    msc_post posts[INSTANCES] = {MSC_POST_INIT};
    pthread_t threads[INSTANCES];
    int i, answer = msc_open(posts, INSTANCES, 8);
    if (answer != MSC_DONE) {
        fprintf(stderr, "open: %s\n", msc_refusal_text(answer));
        return 1;
    }
    for (i = 0; i < INSTANCES; i++) pthread_create(&threads[i], NULL, run[i], &posts[i]);
    for (i = 0; i < INSTANCES; i++) pthread_join(threads[i], NULL);
    answer = show_board(posts);
    for (i = 0; i < INSTANCES; i++) msc_free(&posts[i]);
    return answer;
}
