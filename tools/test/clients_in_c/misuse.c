/* Each call of msc.h, misused and refused: each answer by its number, and nothing lost. */
#include <msc.h>
#include <stdio.h>
#include <stdlib.h>

static int failures;

static void is(const char *what, int answer, int wanted) {
    if (answer == wanted) return;
    printf("%s: %d and not %d\n", what, answer, wanted);
    failures++;
}

static void is_text(const char *what, const char *text, size_t length, const char *wanted) {
    if (length == strlen(wanted) && memcmp(text, wanted, length) == 0) return;
    printf("%s: %.*s and not %s\n", what, (int)length, text, wanted);
    failures++;
}

static const char *const names[] = {"client", "server", "logger"};

static void null_pointers(void) {
    static const char *const none[] = {NULL};
    msc_post post = MSC_POST_INIT;
    msc_board board = MSC_BOARD_INIT;
    msc_report report;
    msc_left left;
    msc_arrival came;
    size_t length;
    is("open of none", msc_open(NULL, 2, 1), MSC_MISUSE);
    is("send by none", msc_send(NULL, 1, "m", NULL, 0, NULL), MSC_MISUSE);
    is("send without a name", msc_send(&post, 1, NULL, NULL, 0, NULL), MSC_MISUSE);
    is("send without a body", msc_send(&post, 1, "m", NULL, 1, NULL), MSC_MISUSE);
    is("sends by none", msc_send_all(NULL, 1, NULL, 0, NULL, 0, NULL), MSC_MISUSE);
    is("sends without bytes", msc_send_all(&post, 1, NULL, 1, NULL, 0, NULL), MSC_MISUSE);
    is("sends without lengths", msc_send_all(&post, 1, NULL, 0, NULL, 1, NULL), MSC_MISUSE);
    is("receive by none", msc_receive(NULL, 1, &came), MSC_MISUSE);
    is("receive into none", msc_receive(&post, 1, NULL), MSC_MISUSE);
    is("any by none", msc_any(NULL, &came), MSC_MISUSE);
    is("name of none", msc_name(NULL, NULL, 0, &length), MSC_MISUSE);
    is("name without room", msc_name(&post, NULL, 1, &length), MSC_MISUSE);
    is("body of none", msc_body(NULL, NULL, 0, &length), MSC_MISUSE);
    is("races of none", msc_races(NULL, NULL, 0, &length), MSC_MISUSE);
    is("close by none", msc_close(NULL, 1), MSC_MISUSE);
    is("reserve by none", msc_reserve(NULL, 1), MSC_MISUSE);
    is("a meeting of none", msc_meet(NULL, 1), MSC_MISUSE);
    is("gather of none", msc_gather(NULL, 1, &board), MSC_MISUSE);
    is("gather into none", msc_gather(&post, 1, NULL), MSC_MISUSE);
    is("text of none", msc_board_text(NULL, names, 2, NULL, 0, &length), MSC_MISUSE);
    is("text without names", msc_board_text(&board, NULL, 2, NULL, 0, &length), MSC_MISUSE);
    is("text with a name that is none", msc_board_text(&board, none, 1, NULL, 0, &length), MSC_MISUSE);
    is("text without room", msc_board_text(&board, names, 2, NULL, 1, &length), MSC_MISUSE);
    is("text without a length", msc_board_text(&board, names, 2, NULL, 0, NULL), MSC_MISUSE);
    is("report of none", msc_board_report(NULL, 1, &report, NULL, 0), MSC_MISUSE);
    is("report into none", msc_board_report(&board, 1, NULL, NULL, 0), MSC_MISUSE);
    is("report without room", msc_board_report(&board, 1, &report, NULL, 1), MSC_MISUSE);
    is("carrying from none", msc_carry_over(NULL, &post, 1, NULL), MSC_MISUSE);
    is("carrying to none", msc_carry_over(&board, NULL, 1, NULL), MSC_MISUSE);
    is("left of none", msc_board_left(NULL, 1, 2, 1, &left, NULL, 0, NULL, 0), MSC_MISUSE);
    is("left into none", msc_board_left(&board, 1, 2, 1, NULL, NULL, 0, NULL, 0), MSC_MISUSE);
    is("left without room for a name", msc_board_left(&board, 1, 2, 1, &left, NULL, 1, NULL, 0), MSC_MISUSE);
    is("left without room for a body", msc_board_left(&board, 1, 2, 1, &left, NULL, 0, NULL, 1), MSC_MISUSE);
    is("no text to perform", msc_perform(MSC_CHECK, 0, NULL, 1, NULL, 0, &length, NULL, 0, &length), MSC_MISUSE);
    is("no room to perform in", msc_perform(MSC_CHECK, 0, "", 0, NULL, 1, &length, NULL, 0, &length), MSC_MISUSE);
    is("no length to perform in", msc_perform(MSC_CHECK, 0, "", 0, NULL, 0, NULL, NULL, 0, &length), MSC_MISUSE);
    is("a task below 0", msc_perform(-1, 0, "", 0, NULL, 0, &length, NULL, 0, &length), MSC_MISUSE);
    is("a task that is none", msc_perform(3, 0, "", 0, NULL, 0, &length, NULL, 0, &length), MSC_MISUSE);
    msc_board_free(NULL);
    msc_free(NULL);
}

static void empty_handles(void) {
    msc_post post = MSC_POST_INIT;
    msc_board board = MSC_BOARD_INIT;
    msc_report report;
    msc_left left;
    msc_arrival came;
    size_t length = 7;
    is("send by an empty one", msc_send(&post, 1, "m", NULL, 0, NULL), MSC_MISUSE);
    is("sends by an empty one", msc_send_all(&post, 1, NULL, 0, NULL, 0, NULL), MSC_MISUSE);
    is("receive by an empty one", msc_receive(&post, 1, &came), MSC_MISUSE);
    is("any by an empty one", msc_any(&post, &came), MSC_MISUSE);
    is("name of an empty one", msc_name(&post, NULL, 0, &length), MSC_MISUSE);
    is("close by an empty one", msc_close(&post, 1), MSC_MISUSE);
    is("reserve by an empty one", msc_reserve(&post, 1), MSC_MISUSE);
    is("a meeting of empty ones", msc_meet(&post, 1), MSC_MISUSE);
    is("gather of empty ones", msc_gather(&post, 1, &board), MSC_MISUSE);
    is("text of an empty board", msc_board_text(&board, names, 3, NULL, 0, &length), MSC_MISUSE);
    is("report of an empty board", msc_board_report(&board, 1, &report, NULL, 0), MSC_MISUSE);
    is("carrying from an empty board", msc_carry_over(&board, &post, 1, NULL), MSC_MISUSE);
    is("left of an empty board", msc_board_left(&board, 1, 2, 1, &left, NULL, 0, NULL, 0), MSC_MISUSE);
    msc_board_free(&board);
    if (length != 7) is("a length", (int)length, 7);
    msc_free(&post);
    msc_free(&post);
}

static void boards(void) {
    msc_post posts[33] = {MSC_POST_INIT};
    is("a board of one", msc_open(posts, 1, 1), MSC_BAD_SIZE);
    is("a board of 33", msc_open(posts, 33, 1), MSC_BAD_SIZE);
    is("lanes of no slot", msc_open(posts, 2, 0), MSC_BAD_CAPACITY);
    is("lanes of 65 slots", msc_open(posts, 2, 65), MSC_BAD_CAPACITY);
    is("a board", msc_open(posts, 2, 1), MSC_DONE);
    is("a board over posts", msc_open(posts + 1, 2, 1), MSC_IN_USE);
    is("its second post still sends", msc_send(&posts[1], 1, "m", NULL, 0, NULL), MSC_DONE);
    msc_free(&posts[0]);
    is("a freed post", msc_send(&posts[0], 2, "m", NULL, 0, NULL), MSC_MISUSE);
    msc_free(&posts[1]);
    is("a board of 32", msc_open(posts, 32, 64), MSC_DONE);
    for (int i = 0; i < 32; i++) msc_free(&posts[i]);
}

static void refusals(void) {
    msc_post posts[3] = {MSC_POST_INIT};
    msc_arrival came;
    char text[64];
    unsigned char body[4097] = {0};
    uint32_t event = 9, races[4] = {0};
    size_t length;
    is("a board", msc_open(posts, 3, 1), MSC_DONE);
    is("room for events", msc_reserve(&posts[0], 10), MSC_DONE);
    is("room for more than a line has", msc_reserve(&posts[0], 4000000000u), MSC_DONE);
    is("to 0", msc_send(&posts[0], 0, "m", NULL, 0, &event), MSC_NO_SUCH_INSTANCE);
    is("to 4", msc_send(&posts[0], 4, "m", NULL, 0, &event), MSC_NO_SUCH_INSTANCE);
    is("to 4,000,000,000", msc_send(&posts[0], 4000000000u, "m", NULL, 0, &event), MSC_NO_SUCH_INSTANCE);
    is("to itself", msc_send(&posts[0], 1, "m", NULL, 0, &event), MSC_TO_ITSELF);
    is("no name", msc_send(&posts[0], 2, "", NULL, 0, &event), MSC_NAME_EMPTY);
    is("a name of 33", msc_send(&posts[0], 2, "a23456789012345678901234567890123", NULL, 0, &event), MSC_NAME_TOO_LONG);
    is("a bad byte", msc_send(&posts[0], 2, "a-b", NULL, 0, &event), MSC_NAME_BAD_BYTE);
    is("a word of the text", msc_send(&posts[0], 2, "in", NULL, 0, &event), MSC_NAME_RESERVED);
    is("a body of 4,097", msc_send(&posts[0], 2, "m", body, 4097, &event), MSC_BODY_TOO_LONG);
    is("an event that is kept", (int)event, 9);
    is("a body of 4,096", msc_send(&posts[0], 2, "long_body", body, 4096, &event), MSC_DONE);
    is("its event", (int)event, 1);
    is("a full lane", msc_send(&posts[0], 2, "m", NULL, 0, &event), MSC_FULL);
    is("from 0", msc_receive(&posts[1], 0, &came), MSC_NO_SUCH_INSTANCE);
    is("from 4", msc_receive(&posts[1], 4, &came), MSC_NO_SUCH_INSTANCE);
    is("from itself", msc_receive(&posts[1], 2, &came), MSC_TO_ITSELF);
    is("nothing", msc_receive(&posts[1], 3, &came), MSC_NOTHING);
    is("no message yet", msc_name(&posts[1], text, 64, &length), MSC_MISUSE);
    is("a receive", msc_receive(&posts[1], 1, &came), MSC_DONE);
    is("from", (int)came.from, 1);
    is("event", (int)came.event, 1);
    is("name's length", (int)came.name_length, 9);
    is("body's length", (int)came.body_length, 4096);
    is("races", (int)came.races, 0);
    is("its name", msc_name(&posts[1], text, 64, &length), MSC_DONE);
    is_text("its name", text, length, "long_body");
    text[4] = '!';
    is("its name, cut", msc_name(&posts[1], text, 4, &length), MSC_DONE);
    is("the whole length", (int)length, 9);
    is_text("the cut name", text, 5, "long!");
    is("its name, asked for its length", msc_name(&posts[1], NULL, 0, &length), MSC_DONE);
    is("the length alone", (int)length, 9);
    is("it stays after nothing", msc_receive(&posts[1], 1, &came), MSC_NOTHING);
    is("its name once more", msc_name(&posts[1], text, 64, &length), MSC_DONE);
    is_text("its name once more", text, length, "long_body");
    is("a send", msc_send(&posts[1], 3, "reply", "abc", 3, &event), MSC_DONE);
    is("another's", msc_send(&posts[0], 3, "first", "xyz", 3, &event), MSC_DONE);
    is("any", msc_any(&posts[2], &came), MSC_DONE);
    is("any, the second", msc_any(&posts[2], &came), MSC_DONE);
    is("its races", (int)came.races, 1);
    is("the race", msc_races(&posts[2], races, 4, &length), MSC_DONE);
    is("the raced event", (int)races[0], 1);
    is("any, none", msc_any(&posts[2], &came), MSC_NOTHING);
    is("a close", msc_close(&posts[0], 3), MSC_DONE);
    is("a second close", msc_close(&posts[0], 3), MSC_CLOSED);
    is("a send after it", msc_send(&posts[0], 3, "m", NULL, 0, &event), MSC_CLOSED);
    is("the end", msc_receive(&posts[2], 1, &came), MSC_ENDED);
    is("any while one is open", msc_any(&posts[2], &came), MSC_NOTHING);
    is("the other close", msc_close(&posts[1], 3), MSC_DONE);
    is("any at the end", msc_any(&posts[2], &came), MSC_ENDED);
    is("a close to itself", msc_close(&posts[0], 1), MSC_TO_ITSELF);
    is("a close to none", msc_close(&posts[0], 9), MSC_NO_SUCH_INSTANCE);
    for (int i = 0; i < 3; i++) msc_free(&posts[i]);
}

static void full_line(void) {
    msc_post posts[2] = {MSC_POST_INIT};
    msc_arrival came;
    is("a board", msc_open(posts, 2, 64), MSC_DONE);
    for (int i = 0; i < 4096; i++) {
        is("a send", msc_send(&posts[0], 2, "m", NULL, 0, NULL), MSC_DONE);
        is("a receive", msc_receive(&posts[1], 1, &came), MSC_DONE);
    }
    is("a send too many", msc_send(&posts[0], 2, "m", NULL, 0, NULL), MSC_LINE_FULL);
    msc_free(&posts[0]);
    msc_free(&posts[1]);
}

static const char *const chart = "msc run;\n"
                                 "instance client;\n"
                                 "out order to server;\n"
                                 "out more to server;\n"
                                 "endinstance;\n"
                                 "instance server;\n"
                                 "out hello to client;\n"
                                 "in order from client;\n"
                                 "endinstance;\n"
                                 "instance logger;\n"
                                 "endinstance;\n"
                                 "endmsc;\n";

/* A board that is gathered: what lacks, what is wrong, and what it came to. */
static void whole_boards(void) {
    static const char *const twice[] = {"client", "server", "client"}, *const bad[] = {"client", "in", ""};
    static const char *const long_one[] = {"client", "a23456789012345678901234567890123", "logger"};
    msc_post posts[3] = {MSC_POST_INIT}, others[3] = {MSC_POST_INIT}, swapped;
    msc_board board = MSC_BOARD_INIT, second = MSC_BOARD_INIT;
    msc_arrival came;
    msc_report report = {9, 9, 9};
    msc_left left = {9, 9};
    char text[512] = {0}, name[33];
    unsigned char body[8];
    uint32_t races[4] = {0};
    size_t length = 9;
    is("a board", msc_open(posts, 3, 4), MSC_DONE);
    is("another board", msc_open(others, 3, 4), MSC_DONE);
    is("a send", msc_send(&posts[1], 1, "hello", "h", 1, NULL), MSC_DONE);
    is("a send", msc_send(&posts[0], 2, "order", "tea", 3, NULL), MSC_DONE);
    is("a send", msc_send(&posts[0], 2, "more", "milk", 4, NULL), MSC_DONE);
    is("a receive", msc_receive(&posts[1], 1, &came), MSC_DONE);
    is("a meeting of no posts", msc_meet(posts, 0), MSC_NOT_ALL_POSTS);
    is("a meeting of two of three", msc_meet(posts, 2), MSC_NOT_ALL_POSTS);
    is("a meeting", msc_meet(posts, 3), MSC_DONE);
    is("gather of no posts", msc_gather(posts, 0, &board), MSC_NOT_ALL_POSTS);
    is("gather of two of three", msc_gather(posts, 2, &board), MSC_NOT_ALL_POSTS);
    swapped = posts[2], posts[2] = others[2], others[2] = swapped;
    is("a meeting of two boards", msc_meet(posts, 3), MSC_MISUSE);
    is("gather of two boards", msc_gather(posts, 3, &board), MSC_MISUSE);
    swapped = posts[2], posts[2] = others[2], others[2] = swapped;
    is("the posts are still there", msc_name(&posts[1], name, 32, &length), MSC_DONE);
    is_text("the last message stays", name, length, "order");
    swapped = posts[0], posts[0] = posts[2], posts[2] = swapped;
    is("gather in another order", msc_gather(posts, 3, &board), MSC_DONE);
    is("the posts are empty", msc_send(&posts[2], 2, "m", NULL, 0, NULL), MSC_MISUSE);
    is("gathered twice", msc_gather(posts, 3, &second), MSC_MISUSE);
    is("gather over a board", msc_gather(others, 3, &board), MSC_MISUSE);
    is("two names for three", msc_board_text(&board, names, 2, text, 512, &length), MSC_MISUSE);
    is("33 names", msc_board_text(&board, names, 33, text, 512, &length), MSC_MISUSE);
    is("one name for two", msc_board_text(&board, twice, 3, text, 512, &length), MSC_NAME_TWICE);
    is("a word of the text", msc_board_text(&board, bad, 3, text, 512, &length), MSC_NAME_RESERVED);
    is("a name of 33", msc_board_text(&board, long_one, 3, text, 512, &length), MSC_NAME_TOO_LONG);
    is("nothing is written", text[0], 0);
    is("its text", msc_board_text(&board, names, 3, text, 512, &length), MSC_DONE);
    is_text("its text", text, length, chart);
    text[4] = '!';
    is("its text, cut", msc_board_text(&board, names, 3, text, 4, &length), MSC_DONE);
    is("the whole length", (int)length, (int)strlen(chart));
    is_text("the cut text", text, 5, "msc !");
    is("the length alone", msc_board_text(&board, names, 3, NULL, 0, &length), MSC_DONE);
    is("no report 0", msc_board_report(&board, 0, &report, races, 4), MSC_NO_SUCH_EVENT);
    is("a report", msc_board_report(&board, 1, &report, races, 4), MSC_DONE);
    is("of the server", (int)report.instance, 2);
    is("its receive", (int)report.event, 2);
    is("its races", (int)report.races, 1);
    is("the earlier event", (int)races[0], 1);
    is("no second report", msc_board_report(&board, 2, &report, races, 4), MSC_NO_SUCH_EVENT);
    is("what waits", msc_board_left(&board, 1, 2, 1, &left, name, 32, body, 8), MSC_DONE);
    is_text("its name", name, left.name_length, "more");
    is_text("its body", (char *)body, left.body_length, "milk");
    is("the first of another lane", msc_board_left(&board, 2, 1, 1, &left, name, 2, body, 0), MSC_DONE);
    is("its name's length", (int)left.name_length, 5);
    is("its body's length", (int)left.body_length, 1);
    is("no second message", msc_board_left(&board, 1, 2, 2, &left, name, 32, body, 8), MSC_NOTHING);
    is("no message 0", msc_board_left(&board, 1, 2, 0, &left, name, 32, body, 8), MSC_NOTHING);
    is("no such lane", msc_board_left(&board, 7, 7, 1, &left, name, 32, body, 8), MSC_NOTHING);
    msc_board_free(&board);
    msc_board_free(&board);
    is("a freed board", msc_board_report(&board, 1, &report, races, 4), MSC_MISUSE);
    is("the other board", msc_gather(others, 3, &board), MSC_DONE);
    msc_board_free(&board);
    is("a board over gathered posts", msc_open(posts, 3, 4), MSC_DONE);
    for (int i = 0; i < 3; i++) msc_free(&posts[i]);
}

/* What a board left goes to the next one: in its order, with the lanes that were closed, and once. */
static void boards_in_a_row(void) {
    msc_post posts[3] = {MSC_POST_INIT}, next[3] = {MSC_POST_INIT}, others[3] = {MSC_POST_INIT}, swapped;
    msc_board board = MSC_BOARD_INIT;
    msc_arrival came;
    msc_left left;
    char name[33], body[8];
    size_t carried[3] = {9, 9, 9}, length;
    is("a board", msc_open(posts, 3, 2), MSC_DONE);
    is("a send", msc_send(&posts[0], 2, "first", "1", 1, NULL), MSC_DONE);
    is("a send", msc_send(&posts[0], 2, "second", "2", 1, NULL), MSC_DONE);
    is("a send", msc_send(&posts[1], 3, "third", "3", 1, NULL), MSC_DONE);
    is("a close", msc_close(&posts[1], 3), MSC_DONE);
    is("a close", msc_close(&posts[2], 1), MSC_DONE);
    is("gather", msc_gather(posts, 3, &board), MSC_DONE);
    is("the next board", msc_open(next, 3, 3), MSC_DONE);
    is("another board", msc_open(others, 3, 3), MSC_DONE);
    is("carrying to empty posts", msc_carry_over(&board, posts, 3, carried), MSC_MISUSE);
    is("carrying to two of three", msc_carry_over(&board, next, 2, carried), MSC_NOT_ALL_POSTS);
    is("carrying to no post", msc_carry_over(&board, next, 0, carried), MSC_NOT_ALL_POSTS);
    swapped = next[2], next[2] = others[2], others[2] = swapped;
    is("carrying to two boards", msc_carry_over(&board, next, 3, carried), MSC_MISUSE);
    swapped = next[2], next[2] = others[2], others[2] = swapped;
    is("a send", msc_send(&others[0], 2, "m", NULL, 0, NULL), MSC_DONE);
    is("carrying to a board in use", msc_carry_over(&board, others, 3, carried), MSC_MISUSE);
    is("no count is reported", (int)carried[0], 9);
    is("what was left stays", msc_board_left(&board, 1, 2, 2, &left, name, 32, body, 8), MSC_DONE);
    is_text("the second of it", name, left.name_length, "second");
    swapped = next[0], next[0] = next[1], next[1] = swapped;
    is("carrying over", msc_carry_over(&board, next, 3, carried), MSC_DONE);
    swapped = next[0], next[0] = next[1], next[1] = swapped;
    is("the first's sends", (int)carried[0], 2);
    is("the second's sends", (int)carried[1], 1);
    is("the third's sends", (int)carried[2], 0);
    is("nothing is left", msc_board_left(&board, 1, 2, 1, &left, name, 32, body, 8), MSC_NOTHING);
    is("the first message", msc_receive(&next[1], 1, &came), MSC_DONE);
    is("its body", msc_body(&next[1], body, 8, &length), MSC_DONE);
    is_text("its body", body, length, "1");
    is("the second message", msc_receive(&next[1], 1, &came), MSC_DONE);
    is("its name", msc_name(&next[1], name, 32, &length), MSC_DONE);
    is_text("its name", name, length, "second");
    is("no more", msc_receive(&next[1], 1, &came), MSC_NOTHING);
    is("the third message", msc_receive(&next[2], 2, &came), MSC_DONE);
    is("the end of its lane", msc_receive(&next[2], 2, &came), MSC_ENDED);
    is("a send on a lane that was closed", msc_send(&next[2], 1, "m", NULL, 0, NULL), MSC_CLOSED);
    is("a send on one that wasn't", msc_send(&next[0], 3, "m", NULL, 0, NULL), MSC_DONE);
    msc_board_free(&board);
    for (int i = 0; i < 3; i++) {
        msc_free(&next[i]);
        msc_free(&others[i]);
    }
}

/* What the program would print, cut and whole. */
static void performed(void) {
    char out[512] = {0}, err[64] = {0};
    size_t out_length = 9, err_length = 9;
    is("a task that is none", msc_perform(3, 0, chart, strlen(chart), out, 512, &out_length, err, 64, &err_length), MSC_MISUSE);
    is("nothing is reported of it", (int)(out_length + err_length), 18);
    is("a chart with a race", msc_perform(MSC_CHECK, 0, chart, strlen(chart), out, 512, &out_length, err, 64, &err_length), 1);
    is_text("its race", out, out_length, "race server 1 2\n");
    is("nothing on standard error", (int)err_length, 0);
    out[4] = '!';
    is("the same, cut", msc_perform(MSC_CHECK, 0, chart, strlen(chart), out, 4, &out_length, err, 64, &err_length), 1);
    is("its whole length", (int)out_length, 16);
    is_text("the cut race", out, 5, "race!");
    is("no chart", msc_perform(MSC_CHECK, 0, "", 0, out, 512, &out_length, err, 64, &err_length), 2);
    is("nothing on standard output", (int)out_length, 0);
    is("why", (int)(err_length > 0 && memcmp(err, "refused: ", 9) == 0), 1);
}

/* MSC_TREE_VERSION is the number of the file VERSION. */
static void versions(void) {
    is("the header's version", MSC_VERSION, MSC_TREE_VERSION);
    is("the library's version", (int)msc_version(), MSC_TREE_VERSION);
}

int main(void) {
    versions();
    null_pointers();
    empty_handles();
    boards();
    refusals();
    full_line();
    whole_boards();
    boards_in_a_row();
    performed();
    return failures != 0;
}
