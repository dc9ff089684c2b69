/* Crossing messages over wild runs: 2 to 8 threads, each sends to all others and receives what comes. What is received
 * has to be what was sent, in the order of its lane. Then the board is gathered: its reports have to be the races as they
 * came, what is left on its lanes nothing, its text the lines of the posts, and msc_perform has to find just these races.
 * The text and the races are written to files, for mscrun check.
 *
 *     wild RUNS FOLDER
 */
#include <msc.h>
#include <pthread.h>
#include <sched.h>
#include <stdio.h>
#include <stdlib.h>

enum { MOST = 8, MESSAGES = 40 };

static int threads, failures;

static void fails(const char *what, int answer) {
    printf("%s: %d\n", what, answer);
    __atomic_fetch_add(&failures, 1, __ATOMIC_SEQ_CST);
}

struct player {
    msc_post *post;
    int number;
    unsigned seed;
    char *races; /* their lines, as they came */
    size_t written;
};

static void take(struct player *me, const msc_arrival *came, unsigned *next) {
    unsigned body = 0;
    uint32_t races[1024];
    size_t length, i;
    if (came->body_length != sizeof body || msc_body(me->post, &body, sizeof body, &length) != MSC_DONE)
        fails("body", (int)came->body_length);
    if (body != next[came->from]) fails("order", (int)body);
    next[came->from] = body + 1;
    if (msc_races(me->post, races, 1024, &length) != MSC_DONE || length != came->races || length > 1024)
        fails("races", (int)length);
    for (i = 0; i < length && i < 1024; i++)
        me->written += (size_t)sprintf(me->races + me->written, "race p%d %u %u\n", me->number, races[i], came->event);
}

static void *play(void *arg) {
    struct player *me = arg;
    unsigned next[MOST + 1] = {0}, sent[MOST + 1] = {0}, left = (unsigned)(threads - 1) * MESSAGES;
    msc_arrival came;
    int ended = 0, answer;
    while (left > 0 || !ended) {
        int to = 1 + (int)(rand_r(&me->seed) % (unsigned)threads);
        if (left > 0 && to != me->number && sent[to] < MESSAGES) {
            answer = msc_send(me->post, (uint32_t)to, "m", &sent[to], sizeof sent[to], NULL);
            if (answer == MSC_DONE) {
                sent[to]++;
                left--;
                if (sent[to] == MESSAGES && (answer = msc_close(me->post, (uint32_t)to)) != MSC_DONE) fails("close", answer);
            } else if (answer != MSC_FULL) {
                fails("send", answer);
                return NULL;
            }
        }
        answer = msc_any(me->post, &came);
        if (answer == MSC_DONE) take(me, &came, next);
        else if (answer == MSC_ENDED) ended = 1;
        else if (answer != MSC_NOTHING) {
            fails("any", answer);
            return NULL;
        } else sched_yield();
    }
    for (int i = 1; i <= threads; i++)
        if (i != me->number && next[i] != MESSAGES) fails("count", (int)next[i]);
    return NULL;
}

enum { TEXT = 1 << 20, OWN_RACES = 8 << 20, RACES = MOST * OWN_RACES };

/* The chart of the run, each post's line as it reports it. */
static size_t own_lines(char *text, msc_post *posts) {
    msc_event event;
    char name[33];
    size_t written = (size_t)sprintf(text, "msc run;\n");
    for (int i = 0; i < threads; i++) {
        written += (size_t)sprintf(text + written, "instance p%d;\n", i + 1);
        for (uint32_t number = 1; msc_line_event(&posts[i], number, &event, name, 32) == MSC_DONE; number++) {
            name[event.name_length] = 0;
            written += (size_t)sprintf(text + written, event.receives ? "in %s from p%u;\n" : "out %s to p%u;\n", name, event.partner);
        }
        written += (size_t)sprintf(text + written, "endinstance;\n");
    }
    return written + (size_t)sprintf(text + written, "endmsc;\n");
}

/* The races of the gathered board, in their order. */
static size_t gathered_races(char *text, msc_board *board) {
    uint32_t races[1024];
    msc_report report;
    size_t written = 0, number, i;
    for (number = 1; msc_board_report(board, number, &report, races, 1024) == MSC_DONE; number++)
        for (i = 0; i < report.races && i < 1024; i++)
            written += (size_t)sprintf(text + written, "race p%u %u %u\n", report.instance, races[i], report.event);
    return written;
}

static void write_file(const char *folder, unsigned seed, const char *kind, const char *text, size_t length) {
    char path[4096];
    FILE *file;
    snprintf(path, sizeof path, "%s/%u.%s", folder, seed, kind);
    if ((file = fopen(path, "w")) == NULL) exit(2);
    fwrite(text, 1, length, file);
    fclose(file);
}

static void same(const char *what, const char *one, size_t one_length, const char *other, size_t other_length) {
    if (one_length != other_length || memcmp(one, other, one_length) != 0) fails(what, (int)one_length);
}

/* Gathers the board, and compares what it came to with what the posts and their threads reported. */
static void audit(msc_post *posts, const char *races, size_t races_length, unsigned seed, const char *folder) {
    static const char *const names[MOST] = {"p1", "p2", "p3", "p4", "p5", "p6", "p7", "p8"};
    static char lines[TEXT], text[TEXT], found[RACES], err[256];
    msc_board board = MSC_BOARD_INIT;
    msc_left left;
    size_t lines_length = own_lines(lines, posts), length, err_length;
    int answer, i, j;
    if ((answer = msc_gather(posts, (size_t)threads, &board)) != MSC_DONE) fails("gather", answer);
    if ((answer = msc_board_text(&board, names, (size_t)threads, text, TEXT, &length)) != MSC_DONE) fails("text", answer);
    same("the text of the board", text, length, lines, lines_length);
    same("the reports of the board", found, gathered_races(found, &board), races, races_length);
    for (i = 1; i <= threads; i++)
        for (j = 1; j <= threads; j++)
            if ((answer = msc_board_left(&board, (uint32_t)i, (uint32_t)j, 1, &left, NULL, 0, NULL, 0)) != MSC_NOTHING)
                fails("what is left", answer);
    msc_board_free(&board);
    answer = msc_perform(MSC_CHECK, 0, text, length, found, RACES, &length, err, sizeof err, &err_length);
    if (answer != (races_length > 0)) fails("check", answer);
    same("the races by check", found, length, races, races_length);
    write_file(folder, seed, "chart", lines, lines_length);
    write_file(folder, seed, "races", races, races_length);
}

static void run(int many, unsigned seed, const char *folder) {
    msc_post posts[MOST] = {MSC_POST_INIT};
    struct player players[MOST];
    pthread_t ids[MOST];
    char *all = malloc(RACES);
    size_t length = 0;
    int i, answer;
    threads = many;
    if (all == NULL) exit(2);
    if ((answer = msc_open(posts, (size_t)many, 1 + seed % 8)) != MSC_DONE) fails("open", answer);
    for (i = 0; i < many; i++) {
        players[i] = (struct player){&posts[i], i + 1, seed * 16 + (unsigned)i, malloc(OWN_RACES), 0};
        if (players[i].races == NULL) exit(2);
        pthread_create(&ids[i], NULL, play, &players[i]);
    }
    for (i = 0; i < many; i++) pthread_join(ids[i], NULL);
    for (i = 0; i < many; i++) {
        memcpy(all + length, players[i].races, players[i].written);
        length += players[i].written;
        free(players[i].races);
    }
    audit(posts, all, length, seed, folder);
    free(all);
    for (i = 0; i < many; i++) msc_free(&posts[i]);
}

int main(int count, char **words) {
    unsigned runs, seed;
    if (count != 3) return 2;
    runs = (unsigned)atoi(words[1]);
    for (seed = 0; seed < runs; seed++) run(2 + (int)(seed % (MOST - 1)), seed, words[2]);
    printf("%u runs\n", runs);
    return failures != 0;
}
