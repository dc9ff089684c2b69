/* msc_receive_up_to: what comes and why no more does, each message asked for by its place, cut buffers, misuse, a line that
 * is full behind some messages, and three threads that send to a fourth. Then null pointers for the calls of msc.h that
 * misuse.c leaves out. */
#include <msc.h>
#include <pthread.h>
#include <sched.h>
#include <stdio.h>
#include <stdlib.h>

static int failures;

static void is(const char *what, int answer, int wanted) {
    if (answer == wanted) return;
    printf("%s: %d and not %d\n", what, answer, wanted);
    failures++;
}

static void is_text(const char *what, const char *text, size_t length, const char *wanted) {
    if (length == strlen(wanted) && memcmp(text, wanted, length) == 0) return;
    printf("%s: %.*s and not %s\n", what, (int)length, text, wanted);
    failures++;
}

static void misuse(void) {
    msc_post post = MSC_POST_INIT;
    msc_arrival came[2];
    uint32_t race;
    size_t count = 9;
    is("by none", msc_receive_up_to(NULL, 1, came, 2, &count), MSC_MISUSE);
    is("none came", (int)count, 0);
    is("into none", msc_receive_up_to(&post, 1, NULL, 2, &count), MSC_MISUSE);
    is("without a count", msc_receive_up_to(&post, 1, came, 2, NULL), MSC_MISUSE);
    count = 9;
    is("by an empty one", msc_receive_up_to(&post, 1, came, 2, &count), MSC_MISUSE);
    is("none came", (int)count, 0);
    is("a name of none", msc_name_of(NULL, 0, NULL, 0, &count), MSC_MISUSE);
    is("a name without room", msc_name_of(&post, 0, NULL, 1, &count), MSC_MISUSE);
    is("a name without a length", msc_name_of(&post, 0, NULL, 0, NULL), MSC_MISUSE);
    is("a name of an empty one", msc_name_of(&post, 0, NULL, 0, &count), MSC_MISUSE);
    is("a body of none", msc_body_of(NULL, 0, NULL, 0, &count), MSC_MISUSE);
    is("a body without room", msc_body_of(&post, 0, NULL, 1, &count), MSC_MISUSE);
    is("a body of an empty one", msc_body_of(&post, 0, NULL, 0, &count), MSC_MISUSE);
    is("races of none", msc_races_of(NULL, 0, &race, 1, &count), MSC_MISUSE);
    is("races without room", msc_races_of(&post, 0, NULL, 1, &count), MSC_MISUSE);
    is("races of an empty one", msc_races_of(&post, 0, &race, 1, &count), MSC_MISUSE);
}

static void other_misuse(void) {
    msc_post post = MSC_POST_INIT;
    msc_arrival came;
    msc_event event;
    is("at once by none", msc_receive_into(NULL, 1, &came, NULL, 0, NULL, 0), MSC_MISUSE);
    is("at once into none", msc_receive_into(&post, 1, NULL, NULL, 0, NULL, 0), MSC_MISUSE);
    is("at once without room for a name", msc_receive_into(&post, 1, &came, NULL, 1, NULL, 0), MSC_MISUSE);
    is("at once without room for a body", msc_receive_into(&post, 1, &came, NULL, 0, NULL, 1), MSC_MISUSE);
    is("a coregion opened by none", msc_open_coregion(NULL), MSC_MISUSE);
    is("a coregion closed by none", msc_close_coregion(NULL), MSC_MISUSE);
    is("an event of none", msc_line_event(NULL, 1, &event, NULL, 0), MSC_MISUSE);
    is("an event into none", msc_line_event(&post, 1, NULL, NULL, 0), MSC_MISUSE);
    is("an event without room for a name", msc_line_event(&post, 1, &event, NULL, 1), MSC_MISUSE);
}

/* Three messages that wait, by two calls: each has its own name, body and races. */
static void in_parts(void) {
    static const msc_message three[] = {{5, 2}, {6, 0}, {5, 16}};
    msc_post posts[3] = {MSC_POST_INIT};
    msc_arrival came[4] = {{9, 9, 9, 9, 9}, {9, 9, 9, 9, 9}, {9, 9, 9, 9, 9}, {9, 9, 9, 9, 9}};
    msc_arrival one;
    uint32_t races[4] = {0};
    char text[64];
    size_t count = 9, length;
    is("a board", msc_open(posts, 3, 4), MSC_DONE);
    is("from 0", msc_receive_up_to(&posts[2], 0, came, 4, &count), MSC_NO_SUCH_INSTANCE);
    is("from 4", msc_receive_up_to(&posts[2], 4, came, 4, &count), MSC_NO_SUCH_INSTANCE);
    is("from itself", msc_receive_up_to(&posts[2], 3, came, 4, &count), MSC_TO_ITSELF);
    is("none are wanted", msc_receive_up_to(&posts[2], 1, came, 0, &count), MSC_MISUSE);
    is("none waits", msc_receive_up_to(&posts[2], 1, came, 4, &count), MSC_NOTHING);
    is("none came", (int)count, 0);
    is("nothing is reported", (int)came[0].from, 9);
    is("no message yet", msc_name_of(&posts[2], 0, text, 64, &length), MSC_MISUSE);
    is("another's send", msc_send(&posts[1], 3, "other", NULL, 0, NULL), MSC_DONE);
    is("a receive", msc_receive(&posts[2], 2, &one), MSC_DONE);
    is("its name by its place", msc_name_of(&posts[2], 0, text, 64, &length), MSC_DONE);
    is_text("its name by its place", text, length, "other");
    is("no second", msc_name_of(&posts[2], 1, text, 64, &length), MSC_MISUSE);
    is("three messages", msc_send_all(&posts[0], 3, "first12secondthird0123456789abcdef", 34, three, 3, NULL), MSC_DONE);
    is("two of them", msc_receive_up_to(&posts[2], 1, came, 2, &count), MSC_DONE);
    is("two came", (int)count, 2);
    is("the first one's event", (int)came[0].event, 2);
    is("the second one's event", (int)came[1].event, 3);
    is("the first one's sender", (int)came[0].from, 1);
    is("its name's length", (int)came[0].name_length, 5);
    is("its body's length", (int)came[0].body_length, 2);
    is("its races", (int)came[0].races, 1);
    is("the second one's races", (int)came[1].races, 1);
    is("no third is reported", (int)came[2].from, 9);
    is("the first name", msc_name_of(&posts[2], 0, text, 64, &length), MSC_DONE);
    is_text("the first name", text, length, "first");
    is("the second name", msc_name_of(&posts[2], 1, text, 64, &length), MSC_DONE);
    is_text("the second name", text, length, "second");
    is("the last name", msc_name(&posts[2], text, 64, &length), MSC_DONE);
    is_text("the last name", text, length, "second");
    is("the first body", msc_body_of(&posts[2], 0, text, 64, &length), MSC_DONE);
    is_text("the first body", text, length, "12");
    is("the second body", msc_body_of(&posts[2], 1, text, 64, &length), MSC_DONE);
    is("is empty", (int)length, 0);
    is("the first one's races", msc_races_of(&posts[2], 0, races, 4, &length), MSC_DONE);
    is("it raced with another's", (int)races[0], 1);
    length = 7;
    is("no third", msc_name_of(&posts[2], 2, text, 64, &length), MSC_MISUSE);
    is("no last place", msc_body_of(&posts[2], (size_t)-1, text, 64, &length), MSC_MISUSE);
    is("no races of a third", msc_races_of(&posts[2], 2, races, 4, &length), MSC_MISUSE);
    is("no length of it", (int)length, 7);
    is("they stay after a refusal", msc_receive_up_to(&posts[2], 3, came, 4, &count), MSC_TO_ITSELF);
    is("the first name again", msc_name_of(&posts[2], 0, text, 64, &length), MSC_DONE);
    is("the rest", msc_receive_up_to(&posts[2], 1, came, 4, &count), MSC_NOTHING);
    is("one came", (int)count, 1);
    is("its event", (int)came[0].event, 4);
    is("what was reported before stays behind it", (int)came[1].event, 3);
    text[4] = '!';
    is("its name, cut", msc_name_of(&posts[2], 0, text, 4, &length), MSC_DONE);
    is("the whole length", (int)length, 5);
    is_text("the cut name", text, 5, "thir!");
    text[10] = '!';
    is("its body, cut", msc_body_of(&posts[2], 0, text, 10, &length), MSC_DONE);
    is("the whole length", (int)length, 16);
    is_text("the cut body", text, 11, "0123456789!");
    is("its races' number alone", msc_races_of(&posts[2], 0, NULL, 0, &length), MSC_DONE);
    is("is one", (int)length, 1);
    is("a close", msc_close(&posts[0], 3), MSC_DONE);
    is("the end", msc_receive_up_to(&posts[2], 1, came, 4, &count), MSC_ENDED);
    is("none came", (int)count, 0);
    is("the last message stays", msc_name_of(&posts[2], 0, text, 64, &length), MSC_DONE);
    for (int i = 0; i < 3; i++) msc_free(&posts[i]);
}

/* A line with room for two events more: two come, and the third is still there for whoever gathers. */
static void full_line(void) {
    msc_post posts[3] = {MSC_POST_INIT};
    msc_board board = MSC_BOARD_INIT;
    msc_arrival came[8];
    msc_left left;
    char text[64];
    size_t count, length, i;
    is("a board", msc_open(posts, 3, 8), MSC_DONE);
    for (i = 0; i < 4094; i++) {
        is("a send", msc_send(&posts[i % 2], 3, "m", NULL, 0, NULL), MSC_DONE);
        is("a receive", msc_receive(&posts[2], 1 + (uint32_t)(i % 2), &came[0]), MSC_DONE);
    }
    is("a send", msc_send(&posts[0], 3, "last_but_one", NULL, 0, NULL), MSC_DONE);
    is("a send", msc_send(&posts[0], 3, "last", NULL, 0, NULL), MSC_DONE);
    is("a send", msc_send(&posts[0], 3, "too_many", NULL, 0, NULL), MSC_DONE);
    is("a full line", msc_receive_up_to(&posts[2], 1, came, 8, &count), MSC_LINE_FULL);
    is("two came before", (int)count, 2);
    is("the last event", (int)came[1].event, 4096);
    is("the first name", msc_name_of(&posts[2], 0, text, 64, &length), MSC_DONE);
    is_text("the first name", text, length, "last_but_one");
    is("the second name", msc_name_of(&posts[2], 1, text, 64, &length), MSC_DONE);
    is_text("the second name", text, length, "last");
    is("still full", msc_receive_up_to(&posts[2], 1, came, 8, &count), MSC_LINE_FULL);
    is("none came", (int)count, 0);
    is("gather", msc_gather(posts, 3, &board), MSC_DONE);
    is("what waits", msc_board_left(&board, 1, 3, 1, &left, text, 64, NULL, 0), MSC_DONE);
    is_text("what waits", text, left.name_length, "too_many");
    is("no more waits", msc_board_left(&board, 1, 3, 2, &left, text, 64, NULL, 0), MSC_NOTHING);
    msc_board_free(&board);
}

enum { SENDERS = 3, MESSAGES = 1000, MOST = 5 };

struct sender {
    msc_post *post;
    int answer;
};

static void *send_all(void *arg) {
    struct sender *me = arg;
    unsigned number = 0;
    while (number < MESSAGES) {
        me->answer = msc_send(me->post, SENDERS + 1, "m", &number, sizeof number, NULL);
        if (me->answer == MSC_DONE) number++;
        else if (me->answer == MSC_FULL) sched_yield();
        else return NULL;
    }
    me->answer = msc_close(me->post, SENDERS + 1);
    return NULL;
}

/* What comes is in its order; its races are kept, by events. */
static void take(msc_post *post, const msc_arrival *came, size_t count, unsigned *next, uint32_t (*first)[2]) {
    for (size_t i = 0; i < count; i++) {
        unsigned body = 0;
        size_t length;
        is("a body", msc_body_of(post, i, &body, sizeof body, &length), MSC_DONE);
        is("its order", (int)body, (int)next[came[i].from]);
        next[came[i].from] = body + 1;
        first[came[i].event][0] = (uint32_t)came[i].races;
        is("races", msc_races_of(post, i, &first[came[i].event][1], 1, &length), MSC_DONE);
        is("how many", (int)length, (int)came[i].races);
    }
}

static void threads(void) {
    static uint32_t first[SENDERS * MESSAGES + 1][2];
    msc_post posts[SENDERS + 1] = {MSC_POST_INIT};
    msc_board board = MSC_BOARD_INIT;
    msc_report report;
    struct sender senders[SENDERS];
    pthread_t ids[SENDERS];
    msc_arrival came[MOST];
    unsigned next[SENDERS + 1] = {0};
    uint32_t race;
    size_t count, number, all = 0;
    int i, answer, ended = 0;
    is("a board", msc_open(posts, SENDERS + 1, 8), MSC_DONE);
    for (i = 0; i < SENDERS; i++) {
        senders[i] = (struct sender){&posts[i], 0};
        pthread_create(&ids[i], NULL, send_all, &senders[i]);
    }
    while (ended < SENDERS) {
        ended = 0;
        for (i = 1; i <= SENDERS; i++) {
            answer = msc_receive_up_to(&posts[SENDERS], (uint32_t)i, came, 1 + all % MOST, &count);
            if (answer < 0) is("several", answer, MSC_DONE);
            ended += answer == MSC_ENDED;
            take(&posts[SENDERS], came, count, next, first);
            all += count;
            if (answer < 0) return;
        }
        sched_yield();
    }
    for (i = 0; i < SENDERS; i++) {
        pthread_join(ids[i], NULL);
        is("a sender", senders[i].answer, MSC_DONE);
        is("all of its messages", (int)next[i + 1], MESSAGES);
    }
    is("gather", msc_gather(posts, SENDERS + 1, &board), MSC_DONE);
    for (number = 1; msc_board_report(&board, number, &report, &race, 1) == MSC_DONE; number++) {
        is("the races of the board", (int)report.races, (int)first[report.event][0]);
        if (report.races > 0) is("the first of them", (int)race, (int)first[report.event][1]);
    }
    is("a report for each", (int)number - 1, SENDERS * MESSAGES);
    msc_board_free(&board);
}

int main(void) {
    misuse();
    other_misuse();
    in_parts();
    full_line();
    threads();
    return failures != 0;
}
