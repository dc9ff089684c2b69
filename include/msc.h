/* msc.h: message passing between threads that reports message races as they happen. For C programmers;
 * docs/guide/c.md is an introduction, and msc.hpp has these calls for C++.
 *
 * A board has 2 to 32 instances, with a lane from each to every other. A lane has 1 to 64 slots, and delivers messages
 * in the order in which they were sent. An instance acts through its post: it sends, receives and closes lanes. Each
 * message comes with the races of its receive: the earlier events of this instance that came before it only by luck. In
 * another run they may come after it.
 *
 * At the end all posts of a board are gathered. An msc_board then keeps its chart, its races and what still waits.
 *
 * Link with -lmsc -lmsc_malloc. The second library has the memory functions at the end of this file, over malloc; a
 * program may define its own instead.
 *
 * OWNERSHIP. An msc_post is two words in the caller's memory. It owns its resources until msc_free, and an msc_board
 * does so until msc_board_free. No pointer is kept across calls: names, bodies, races and texts are copied into the
 * caller's buffers. Like snprintf, a call writes as much as fits and returns the whole length. It adds no zero byte.
 *
 * WHAT THE CALLER PROMISES, and no proof can see:
 *   - A post or a board is zero at first (MSC_POST_INIT, MSC_BOARD_INIT). It is never copied, nor written by others.
 *   - One thread at a time uses a post, even to read it. Another thread may take over behind a lock, a thread's start
 *     or a join. Different threads may use the posts of one board at the same time: that is what they are for.
 *   - Several threads may read an msc_board at the same time: msc_board_text, msc_board_report and msc_board_left only
 *     read it. During every other call with it, no other thread uses it.
 *   - Where a call wants all posts of a board, no other thread uses one of them. Posts of two boards are refused. The
 *     exception is a program compiled with the header of version 1.0: there the posts are of one board.
 *   - No thread ends within a call, by a cancellation, an exception or longjmp. A post whose thread ended between two
 *     calls may go on in another thread.
 *   - Buffers are as long as stated. What a call writes overlaps nothing else that it writes or reads, and no post or
 *     board. The exception is *EVENT of msc_send and msc_send_all, which is written last: it may lie in what they read.
 *   - All calls use one allocator. No call is made in a signal handler, nor in a forked child of a process with
 *     threads.
 *
 * ANSWERS. No call waits. 0 is done. 1 means that no message waits. 2 means that none waits and none will come. A
 * number below 0 is a refusal: -N for the refusal FN, -100 for a misuse. A misuse is a null pointer, a handle wrongly
 * empty or in use, posts of two boards, or a wrong number of names. New calls of version 1.1 and msc_open answer a
 * misuse by its cause, from -101 on: MSC_IS_MISUSE. A refused call changes nothing, except that the post may have seen
 * more. Which of several refusals is first: docs/reference/refusals.md. In words: msc_refusal_text.
 */
#ifndef MSC_H
#define MSC_H

#include <stdbool.h>
#include <stddef.h>
#include <stdint.h>
#include <string.h>

#ifdef __cplusplus
extern "C" {
#endif

/* The post of an instance. Its words are for the library alone; it is empty when both are zero. */
typedef struct {
    uint64_t state_;
    void *at_;
} msc_post;

#define MSC_POST_INIT {0, NULL}

/* The version of this header: major * 10000 + minor * 100 + patch. Header and library have the same calls if
 * msc_version() / 100 == MSC_VERSION / 100. */
#define MSC_VERSION 10000

enum {
    MSC_DONE = 0,
    MSC_NOTHING = 1,            /* no message waits */
    MSC_ENDED = 2,              /* no message waits, and none will come */
    MSC_NAME_EMPTY = -1,        /* F1 */
    MSC_NAME_TOO_LONG = -2,     /* F2: more than 32 bytes */
    MSC_NAME_BAD_BYTE = -3,     /* F3: a name is a letter followed by letters, digits and _ */
    MSC_NAME_RESERVED = -4,     /* F4: a reserved word of the chart's text, as "in" */
    MSC_BODY_TOO_LONG = -5,     /* F5: more than 4096 bytes */
    MSC_NO_MEMORY = -6,         /* F6: an allocation was refused */
    MSC_LINE_FULL = -7,         /* F7: the instance has 4096 events */
    MSC_BAD_SIZE = -8,          /* F8: a board has 2 to 32 instances */
    MSC_BAD_CAPACITY = -9,      /* F9: a lane has 1 to 64 slots */
    MSC_FULL = -11,             /* F11: as many messages wait as the lane has slots */
    MSC_CLOSED = -12,           /* F12: this post closed the lane */
    MSC_TO_ITSELF = -13,        /* F13: an instance has no lane to itself */
    MSC_NO_SUCH_INSTANCE = -14, /* F14: instances are numbered from 1 to the board's size */
    MSC_NOT_ALL_POSTS = -15,    /* F15: there are no posts, or not all posts of their board */
    MSC_NAME_TWICE = -22,       /* F22: two instances would have the same name */
    MSC_TOO_MANY = -27,         /* F27: more messages in one call than the lane has slots */
    MSC_COREGION_OPEN = -28,    /* F28: a coregion is open */
    MSC_COREGION_NOT_OPEN = -29, /* F29: no coregion is open */
    MSC_IN_COREGION = -30,      /* F30: a coregion contains no sends */
    MSC_NO_SUCH_EVENT = -31,    /* F31: the line has no event with this number */
    MSC_MISUSE = -100,          /* a misuse; from a call of version 1.1: one without a cause below */
    MSC_EMPTY = -101,           /* a handle is empty, or was freed */
    MSC_IN_USE = -103,          /* a handle that should be empty is in use */
    MSC_WRONG_NUMBER = -104,    /* a number or a count that doesn't fit the rest of the call */
    MSC_OTHER_BOARD = -105      /* the posts are of two boards */
};

/* Whether an answer is a misuse, of any cause. */
#define MSC_IS_MISUSE(answer) ((answer) <= MSC_MISUSE && (answer) >= MSC_OTHER_BOARD)

/* The result of gathering a board. Its words are for the library alone; it is empty when both are zero. */
typedef struct {
    uint64_t state_;
    void *at_;
} msc_board;

#define MSC_BOARD_INIT {0, NULL}

/* The lengths of the name and the body of a message that msc_send_all sends, in bytes. */
typedef struct {
    size_t name_length;
    size_t body_length;
} msc_message;

/* Describes a message that was received. */
typedef struct {
    uint32_t from;      /* the number of its sender, from 1 */
    uint32_t event;     /* the number of its receive among this instance's events, from 1 */
    size_t name_length; /* in bytes, 1 to 32 */
    size_t body_length; /* in bytes, 0 to 4096 */
    size_t races;       /* how many earlier events came before this receive only by luck */
} msc_arrival;

/* Describes an event of a post's line. */
typedef struct {
    uint32_t receives;  /* 1 for a receive, 0 for a send */
    uint32_t partner;   /* the number of the instance at the other end of the message, from 1 */
    uint32_t region;    /* the number of its coregion, from 1, or 0 outside of one */
    size_t name_length; /* the length of the message's name, in bytes */
} msc_event;

/* Describes a report of a gathered board. */
typedef struct {
    uint32_t instance; /* the number of the instance that received, from 1 */
    uint32_t event;    /* the number of the receive among that instance's events, from 1 */
    size_t races;      /* how many earlier events came before it only by luck */
} msc_report;

/* A message that waits on a gathered board, by its sender, its receiver and its number on that lane, from 1. */
typedef struct {
    uint32_t from;
    uint32_t to;
    size_t number;
} msc_place;

/* Describes a message that waits on a gathered board. */
typedef struct {
    size_t name_length; /* in bytes, 1 to 32 */
    size_t body_length; /* in bytes, 0 to 4096 */
} msc_left;

/* The tasks of msc_perform. */
enum {
    MSC_REPLAY = 0, /* replays a schedule, as mscrun replay does */
    MSC_RANDOM = 1, /* replays a schedule in an order that the seed draws, as mscrun random does */
    MSC_CHECK = 2   /* checks a chart, as mscrun check does */
};

/* The lengths of the texts that msc_perform writes, in bytes. */
typedef struct {
    size_t out;
    size_t err;
} msc_lengths;

/* The exports of the library. Call the functions below instead: they check for NULL. */
int32_t msc_open_(msc_post *posts, size_t count, uint32_t capacity);
int32_t msc_open_numbered_(msc_post *posts, size_t count, uint32_t capacity, uint64_t origin, uint64_t number);
int32_t msc_send_(msc_post *post, uint32_t to, const uint8_t *name, size_t name_length, const uint8_t *body,
                  size_t body_length, uint32_t *event);
int32_t msc_send_all_(msc_post *post, uint32_t to, const uint8_t *bytes, size_t length, const msc_message *messages,
                      size_t count, uint32_t *event);
int32_t msc_receive_(msc_post *post, uint32_t from, msc_arrival *arrival);
int32_t msc_any_(msc_post *post, msc_arrival *arrival);
int32_t msc_receive_up_to_(msc_post *post, uint32_t from, msc_arrival *arrivals, size_t most, size_t *count);
int32_t msc_name_(const msc_post *post, uint8_t *buffer, size_t room, size_t *length);
int32_t msc_body_(const msc_post *post, uint8_t *buffer, size_t room, size_t *length);
int32_t msc_races_(const msc_post *post, uint32_t *buffer, size_t room, size_t *count);
int32_t msc_name_of_(const msc_post *post, size_t which, uint8_t *buffer, size_t room, size_t *length);
int32_t msc_body_of_(const msc_post *post, size_t which, uint8_t *buffer, size_t room, size_t *length);
int32_t msc_races_of_(const msc_post *post, size_t which, uint32_t *buffer, size_t room, size_t *count);
int32_t msc_close_(msc_post *post, uint32_t to);
int32_t msc_open_coregion_(msc_post *post);
int32_t msc_close_coregion_(msc_post *post);
int32_t msc_reserve_(msc_post *post, uint32_t events);
int32_t msc_event_(const msc_post *post, uint32_t number, msc_event *event, uint8_t *buffer, size_t room);
int32_t msc_gather_(msc_post *posts, size_t count, msc_board *board);
int32_t msc_meet_(msc_post *posts, size_t count);
int32_t msc_carry_over_(msc_board *board, msc_post *posts, size_t count, size_t *carried, size_t room, size_t *total);
int32_t msc_board_text_(const msc_board *board, const uint8_t *names, size_t names_length, const size_t *lengths,
                        size_t count, uint8_t *buffer, size_t room, size_t *length);
int32_t msc_board_report_(const msc_board *board, size_t number, msc_report *report, uint32_t *buffer, size_t room);
int32_t msc_board_left_(const msc_board *board, const msc_place *place, msc_left *left, uint8_t *name, size_t name_room,
                        uint8_t *body, size_t body_room);
int32_t msc_perform_(uint32_t task, uint64_t seed, const uint8_t *text, size_t length, uint8_t *out, size_t out_room,
                     uint8_t *err, size_t err_room, msc_lengths *lengths);
void msc_free_(void *handle);

/* The version of the library, in the form of MSC_VERSION. */
uint32_t msc_version(void);

/* A valid address for a buffer of no bytes: the library requires one even then. */
static uint64_t msc_no_bytes_;

/* How many boards this translation unit has opened. With its address, which no other counter has, the count numbers a
 * board: no two boards of a process have the same pair. By it the library refuses posts of two boards. */
static uint64_t msc_boards_opened_;

/* Opens a board of COUNT instances (2 to 32) whose lanes have CAPACITY slots (1 to 64). posts[i] becomes the post of
 * instance i + 1. All posts have to be empty (else MSC_IN_USE). On MSC_BAD_SIZE, MSC_BAD_CAPACITY or MSC_NO_MEMORY they
 * stay so. Any thread may call. */
static inline int msc_open(msc_post *posts, size_t count, uint32_t capacity) {
    if (posts == NULL) return MSC_MISUSE;
    return msc_open_numbered_(posts, count, capacity, (uint64_t)(uintptr_t)&msc_boards_opened_,
                              __atomic_add_fetch(&msc_boards_opened_, 1, __ATOMIC_RELAXED));
}

/* Sends a message to the instance TO. NAME is a C string: a letter followed by letters, digits and _, 1 to 32 bytes in
 * all. BODY has LENGTH bytes, at most 4096; it may be NULL if LENGTH is 0. Both are copied. *EVENT receives the number
 * of the send among this instance's events; EVENT may be NULL. The call never waits. MSC_FULL: the lane has no free
 * slot, so try again later. A body takes one allocation. */
static inline int msc_send(msc_post *post, uint32_t to, const char *name, const void *body, size_t length,
                           uint32_t *event) {
    uint32_t number = 0;
    int answer;
    if (post == NULL || name == NULL || (body == NULL && length != 0)) return MSC_MISUSE;
    if (body == NULL) body = &msc_no_bytes_;
    answer = msc_send_(post, to, (const uint8_t *)name, strlen(name), (const uint8_t *)body, length, &number);
    if (answer == MSC_DONE && event != NULL) *event = number;
    return answer;
}

/* Sends COUNT messages to the instance TO, one directly after another and with one store: all of them or none. BYTES
 * has LENGTH bytes: the first message's name, its body, the second one's name, and so on. MESSAGES gives the length of
 * each; together they are LENGTH (else MSC_MISUSE, and nothing is looked at). All bytes are copied. *EVENT receives the
 * number of the first send among this instance's events, or 0 if COUNT is 0; the others have the next numbers. EVENT
 * may be NULL. A refusal of one message refuses all. MSC_TOO_MANY: the lane has fewer slots. MSC_FULL: fewer slots are
 * free. */
static inline int msc_send_all(msc_post *post, uint32_t to, const void *bytes, size_t length,
                               const msc_message *messages, size_t count, uint32_t *event) {
    uint32_t number = 0;
    int answer;
    if (post == NULL || (bytes == NULL && length != 0) || (messages == NULL && count != 0)) return MSC_MISUSE;
    if (bytes == NULL) bytes = &msc_no_bytes_;
    if (messages == NULL) messages = (const msc_message *)(const void *)&msc_no_bytes_;
    answer = msc_send_all_(post, to, (const uint8_t *)bytes, length, messages, count, &number);
    if (answer == MSC_DONE && event != NULL) *event = number;
    return answer;
}

/* Receives the first message that waits on the lane from the instance FROM, and describes it in *ARRIVAL. It stays in
 * the post until the next one comes. MSC_NOTHING: none waits. MSC_ENDED: none waits, and the lane is closed. */
static inline int msc_receive(msc_post *post, uint32_t from, msc_arrival *arrival) {
    if (post == NULL || arrival == NULL) return MSC_MISUSE;
    return msc_receive_(post, from, arrival);
}

/* Receives the first message that it finds on the lanes from all other instances. It looks at them in turn, beginning
 * after the sender of the last message. MSC_ENDED: nothing waits, and all lanes are closed. */
static inline int msc_any(msc_post *post, msc_arrival *arrival) {
    if (post == NULL || arrival == NULL) return MSC_MISUSE;
    return msc_any_(post, arrival);
}

/* Receives the first messages that wait on the lane from the instance FROM, at most MOST of them, in order. ARRIVALS
 * has room for MOST and describes them. *COUNT receives how many came: 0 if none did or the call is refused. The answer
 * is why no more came. MSC_DONE: MOST came. MSC_NOTHING: fewer waited, or none. MSC_ENDED: none waited, and the lane is
 * closed. MSC_LINE_FULL, MSC_NO_MEMORY: the next message was refused, even if others came before it, and is still the
 * first of its lane. MSC_MISUSE: MOST is 0.
 *
 * All of them stay in the post until the next call that receives one or more: msc_name_of, msc_body_of and msc_races_of
 * read each. Their slots are free at once. The call allocates a list of them, and never waits. */
static inline int msc_receive_up_to(msc_post *post, uint32_t from, msc_arrival *arrivals, size_t most, size_t *count) {
    if (count != NULL) *count = 0;
    if (post == NULL || arrivals == NULL || count == NULL) return MSC_MISUSE;
    return msc_receive_up_to_(post, from, arrivals, most, count);
}

/* Copies the name, the body or the races of the last message into BUFFER, as much as fits. ROOM is in bytes, and for
 * races in numbers. *LENGTH or *COUNT receives the whole length. A race is the number of the earlier event among this
 * instance's events, from 1. After msc_receive_up_to the last message is the last of its array. MSC_MISUSE: no message
 * has come yet. */
static inline int msc_name(const msc_post *post, char *buffer, size_t room, size_t *length) {
    if (post == NULL || length == NULL || (buffer == NULL && room != 0)) return MSC_MISUSE;
    return msc_name_(post, buffer == NULL ? (uint8_t *)&msc_no_bytes_ : (uint8_t *)buffer, room, length);
}

static inline int msc_body(const msc_post *post, void *buffer, size_t room, size_t *length) {
    if (post == NULL || length == NULL || (buffer == NULL && room != 0)) return MSC_MISUSE;
    return msc_body_(post, buffer == NULL ? (uint8_t *)&msc_no_bytes_ : (uint8_t *)buffer, room, length);
}

static inline int msc_races(const msc_post *post, uint32_t *buffer, size_t room, size_t *count) {
    if (post == NULL || count == NULL || (buffer == NULL && room != 0)) return MSC_MISUSE;
    return msc_races_(post, buffer == NULL ? (uint32_t *)&msc_no_bytes_ : buffer, room, count);
}

/* The same for the message that ARRIVALS[WHICH] of the last msc_receive_up_to describes. After a receive of one
 * message, WHICH is 0. MSC_MISUSE: fewer came. */
static inline int msc_name_of(const msc_post *post, size_t which, char *buffer, size_t room, size_t *length) {
    if (post == NULL || length == NULL || (buffer == NULL && room != 0)) return MSC_MISUSE;
    return msc_name_of_(post, which, buffer == NULL ? (uint8_t *)&msc_no_bytes_ : (uint8_t *)buffer, room, length);
}

static inline int msc_body_of(const msc_post *post, size_t which, void *buffer, size_t room, size_t *length) {
    if (post == NULL || length == NULL || (buffer == NULL && room != 0)) return MSC_MISUSE;
    return msc_body_of_(post, which, buffer == NULL ? (uint8_t *)&msc_no_bytes_ : (uint8_t *)buffer, room, length);
}

static inline int msc_races_of(const msc_post *post, size_t which, uint32_t *buffer, size_t room, size_t *count) {
    if (post == NULL || count == NULL || (buffer == NULL && room != 0)) return MSC_MISUSE;
    return msc_races_of_(post, which, buffer == NULL ? (uint32_t *)&msc_no_bytes_ : buffer, room, count);
}

/* Receives as msc_receive does, and copies name and body at once: one call instead of three. Parts that don't fit are
 * cut; the lengths are in *ARRIVAL, and all of it stays in the post. */
static inline int msc_receive_into(msc_post *post, uint32_t from, msc_arrival *arrival, char *name, size_t name_room,
                                   void *body, size_t body_room) {
    size_t length;
    int answer;
    if ((name == NULL && name_room != 0) || (body == NULL && body_room != 0)) return MSC_MISUSE;
    answer = msc_receive(post, from, arrival);
    if (answer != MSC_DONE) return answer;
    (void)msc_name(post, name, name_room, &length);
    (void)msc_body(post, body, body_room, &length);
    return MSC_DONE;
}

/* Closes the lane to the instance TO. Messages that wait on it can still be received; then the lane has ended. */
static inline int msc_close(msc_post *post, uint32_t to) {
    if (post == NULL) return MSC_MISUSE;
    return msc_close_(post, to);
}

/* Opens a coregion: the order of the receives in it isn't claimed, and is no race. All receives of this post are in it,
 * and nothing is sent, until msc_close_coregion. MSC_COREGION_OPEN, MSC_COREGION_NOT_OPEN. */
static inline int msc_open_coregion(msc_post *post) {
    if (post == NULL) return MSC_MISUSE;
    return msc_open_coregion_(post);
}

static inline int msc_close_coregion(msc_post *post) {
    if (post == NULL) return MSC_MISUSE;
    return msc_close_coregion_(post);
}

/* Allocates room for the next EVENTS events of this post, at most 4096. While some room is left, msc_send allocates
 * only for a body that isn't empty. This holds on boards of up to 8 instances, and on each board until this post
 * receives. MSC_NO_MEMORY: nothing has changed. */
static inline int msc_reserve(msc_post *post, uint32_t events) {
    if (post == NULL) return MSC_MISUSE;
    return msc_reserve_(post, events);
}

/* Describes in *EVENT the event with this NUMBER, from 1, among those that this post has sent and received. Copies the
 * message's name, as much as its ROOM allows. MSC_NO_SUCH_EVENT: there are fewer. */
static inline int msc_line_event(const msc_post *post, uint32_t number, msc_event *event, char *name, size_t room) {
    if (post == NULL || event == NULL || (name == NULL && room != 0)) return MSC_MISUSE;
    return msc_event_(post, number, event, name == NULL ? (uint8_t *)&msc_no_bytes_ : (uint8_t *)name, room);
}

/* Frees a post, which is then empty and may be opened anew. An empty one stays empty. This closes no lane, and the
 * board can't be gathered any more (MSC_NOT_ALL_POSTS). The memory of a board goes with the last of its posts, in any
 * thread. */
static inline void msc_free(msc_post *post) {
    if (post != NULL) msc_free_(post);
}

/* Lets all COUNT posts of a board meet, in any order: then each has seen all that any of them did, in one history. It
 * adds no event and removes no race. No other thread may use one of the posts. On MSC_NOT_ALL_POSTS, MSC_NO_MEMORY or
 * MSC_MISUSE (also for posts of two boards) nothing has changed. MSC_NO_MEMORY may come first: lists are allocated
 * before posts are counted. */
static inline int msc_meet(msc_post *posts, size_t count) {
    if (posts == NULL) return MSC_MISUSE;
    return msc_meet_(posts, count);
}

/* Gathers a whole board: COUNT posts, all those of one board in any order, become empty. *BOARD receives the result:
 * the board's chart, the races of each receive, and the messages that still wait. *BOARD has to be empty, and no other
 * thread may use one of the posts. On MSC_NOT_ALL_POSTS, MSC_NO_MEMORY (which may come first, as in msc_meet) or
 * MSC_MISUSE (also for posts of two boards) the posts are as they were. */
static inline int msc_gather(msc_post *posts, size_t count, msc_board *board) {
    if (posts == NULL || board == NULL) return MSC_MISUSE;
    return msc_gather_(posts, count, board);
}

/* Copies the text of the board's chart into BUFFER, as much as its ROOM allows; *LENGTH receives its whole length in
 * bytes. No zero byte is added. NAMES are the names of the COUNT instances, in order: C strings like names of messages,
 * no two the same. MSC_MISUSE: COUNT isn't the board's number of instances. Else the fault of the first bad name,
 * MSC_NAME_EMPTY to MSC_NAME_RESERVED or MSC_NAME_TWICE. MSC_NO_MEMORY. `mscrun check` and `mscview` read it. */
static inline int msc_board_text(const msc_board *board, const char *const *names, size_t count, char *buffer,
                                 size_t room, size_t *length) {
    /* A name is passed on with at most one byte too many, by which the library sees that it is too long. */
    enum { MOST = 32, ENOUGH = 33 };
    uint8_t joined[MOST * ENOUGH];
    size_t lengths[MOST], used = 0, i, n;
    if (board == NULL || names == NULL || length == NULL || (buffer == NULL && room != 0) || count > MOST)
        return MSC_MISUSE;
    joined[0] = 0;
    lengths[0] = 0;
    for (i = 0; i < count; i++) {
        if (names[i] == NULL) return MSC_MISUSE;
        for (n = 0; n < ENOUGH && names[i][n] != 0; n++) joined[used + n] = (uint8_t)names[i][n];
        lengths[i] = n;
        used += n;
    }
    return msc_board_text_(board, joined, used, lengths, count,
                           buffer == NULL ? (uint8_t *)&msc_no_bytes_ : (uint8_t *)buffer, room, length);
}

/* Describes in *REPORT the report with this NUMBER, from 1: each receive of the board has one, by instance and event.
 * Its races, which are numbers of earlier events of the same instance, go to BUFFER, as many as its ROOM allows (in
 * numbers). MSC_NO_SUCH_EVENT: the board has fewer receives. */
static inline int msc_board_report(const msc_board *board, size_t number, msc_report *report, uint32_t *buffer,
                                   size_t room) {
    if (board == NULL || report == NULL || (buffer == NULL && room != 0)) return MSC_MISUSE;
    return msc_board_report_(board, number, report, buffer == NULL ? (uint32_t *)&msc_no_bytes_ : buffer, room);
}

/* Describes in *LEFT the message with this NUMBER, from 1, that still waits on the lane from the instance FROM to the
 * instance TO. Copies its name and its body, as much as there is room for. MSC_NOTHING: fewer wait. */
static inline int msc_board_left(const msc_board *board, uint32_t from, uint32_t to, size_t number, msc_left *left,
                                 char *name, size_t name_room, void *body, size_t body_room) {
    msc_place place;
    if (board == NULL || left == NULL || (name == NULL && name_room != 0) || (body == NULL && body_room != 0))
        return MSC_MISUSE;
    place.from = from;
    place.to = to;
    place.number = number;
    return msc_board_left_(board, &place, left, name == NULL ? (uint8_t *)&msc_no_bytes_ : (uint8_t *)name, name_room,
                           body == NULL ? (uint8_t *)&msc_no_bytes_ : (uint8_t *)body, body_room);
}

/* Carries over what *BOARD left to all COUNT posts of a new board, in any order: so a run with full lines goes on. Each
 * message that still waited is sent again by its sender, lane by lane, in the order in which it waited. Each lane that
 * was closed is closed again. Then *BOARD has no message left and no closed lane. CARRIED, which may be NULL, has room
 * for COUNT numbers: how many sends each instance carried, by instance. These are the first events of its line.
 *
 * MSC_MISUSE also if the new board has another number of instances, or lanes of fewer slots. The same if a post of it
 * did something already: an event, a close, an open coregion.
 *
 * A race whose earlier event is a carried send may be enforced by what the earlier board saw: leave it out. No other
 * reported race is touched. Races between an event of the earlier board and a receive on the new one are lost: no board
 * reports them. An open coregion isn't carried over, nor the instance with which msc_any begins.
 *
 * On MSC_NOT_ALL_POSTS, MSC_NO_MEMORY (which may come first, as in msc_meet) or MSC_MISUSE nothing was sent, and what
 * was left stays in *BOARD. */
static inline int msc_carry_over(msc_board *board, msc_post *posts, size_t count, size_t *carried) {
    size_t total;
    if (board == NULL || posts == NULL) return MSC_MISUSE;
    return msc_carry_over_(board, posts, count, carried == NULL ? (size_t *)&msc_no_bytes_ : carried,
                           carried == NULL ? 0 : count, &total);
}

/* Frees the result of gathering a board, which is then empty. An empty one stays empty. */
static inline void msc_board_free(msc_board *board) {
    if (board != NULL) msc_free_(board);
}

/* Does with the bytes of a file what the program mscrun does. TASK is MSC_REPLAY, MSC_CHECK, or MSC_RANDOM with this
 * SEED. TEXT has the LENGTH bytes of the file. OUT receives the program's standard output and ERR its standard error,
 * as much of each as its room allows. *OUT_LENGTH and *ERR_LENGTH receive their whole lengths. The answer is the
 * program's exit status: 0, 1 if there are races, 2 if the text or memory is refused. With 2, ERR has a line that says
 * why (docs/reference/refusals.md). MSC_MISUSE: another TASK. It uses no post, and any thread may call. */
static inline int msc_perform(int task, uint64_t seed, const char *text, size_t length, char *out, size_t out_room,
                              size_t *out_length, char *err, size_t err_room, size_t *err_length) {
    msc_lengths lengths = {0, 0};
    int answer;
    if ((text == NULL && length != 0) || (out == NULL && out_room != 0) || (err == NULL && err_room != 0) ||
        out_length == NULL || err_length == NULL || task < 0)
        return MSC_MISUSE;
    if (text == NULL) text = (const char *)&msc_no_bytes_;
    answer = msc_perform_((uint32_t)task, seed, (const uint8_t *)text, length,
                          out == NULL ? (uint8_t *)&msc_no_bytes_ : (uint8_t *)out, out_room,
                          err == NULL ? (uint8_t *)&msc_no_bytes_ : (uint8_t *)err, err_room, &lengths);
    if (answer < 0) return answer;
    *out_length = lengths.out;
    *err_length = lengths.err;
    return answer;
}

/* The meaning of an answer, in words. The text is constant. */
static inline const char *msc_refusal_text(int answer) {
    switch (answer) {
    case MSC_DONE: return "done";
    case MSC_NOTHING: return "no message waits";
    case MSC_ENDED: return "no message waits, and none will come";
    case MSC_NAME_EMPTY: return "the name is empty";
    case MSC_NAME_TOO_LONG: return "the name is longer than 32 bytes";
    case MSC_NAME_BAD_BYTE: return "a byte doesn't belong in a name";
    case MSC_NAME_RESERVED: return "the name is a reserved word";
    case MSC_BODY_TOO_LONG: return "the body is longer than 4096 bytes";
    case MSC_NO_MEMORY: return "out of memory";
    case MSC_LINE_FULL: return "the line is full";
    case MSC_BAD_SIZE: return "a board has 2 to 32 instances";
    case MSC_BAD_CAPACITY: return "a lane has 1 to 64 slots";
    case MSC_FULL: return "the lane is full";
    case MSC_CLOSED: return "the lane is closed";
    case MSC_TO_ITSELF: return "an instance has no lane to itself";
    case MSC_NO_SUCH_INSTANCE: return "the board has no such instance";
    case MSC_NOT_ALL_POSTS: return "not all posts of the board";
    case MSC_NAME_TWICE: return "two instances have one name";
    case MSC_TOO_MANY: return "more messages than the lane has slots";
    case MSC_COREGION_OPEN: return "a coregion is open";
    case MSC_COREGION_NOT_OPEN: return "no coregion is open";
    case MSC_IN_COREGION: return "nothing is sent in a coregion";
    case MSC_NO_SUCH_EVENT: return "the line has no event of this number";
    case MSC_MISUSE: return "misuse: no pointer, an empty handle, or what doesn't belong together";
    case MSC_EMPTY: return "misuse: a handle is empty";
    case MSC_IN_USE: return "misuse: a handle is in use";
    case MSC_WRONG_NUMBER: return "misuse: a number doesn't fit the call";
    case MSC_OTHER_BOARD: return "misuse: the posts are of two boards";
    default: return "no answer of this library";
    }
}

/* The memory functions that the library calls: those of libmsc_malloc.a, or the program's own. SIZE may be 0, and ALIGN
 * is a power of two up to 16. Without memory they return ok = false, and the block of rattle_realloc is as it was. It
 * keeps the first USED bytes. None may unwind, by an exception or longjmp. */
struct msc_block {
    bool ok;
    void *at;
};

struct msc_block rattle_alloc(size_t size, size_t align);
struct msc_block rattle_realloc(void *at, size_t used, size_t size, size_t align);
void rattle_dealloc(void *at);

/* The bytes of a word or a text, where they are; for the library alone. */
typedef struct {
    const uint8_t *at_;
    size_t length_;
} msc_bytes_;

/* The export of the library. Call the function below instead. */
int32_t msc_view_(const msc_bytes_ *words, size_t count, const msc_bytes_ *texts, size_t many, uint8_t *out,
                  size_t out_room, uint8_t *err, size_t err_room, msc_lengths *lengths);

/* Does what the program mscview does for a command line whose files are in memory. WORDS are its COUNT words, C
 * strings, without the program's name: {"races", "--json", "run.msc"}. They read TEXTS files, in the order in which
 * they name them: the i-th one is the length[i] bytes at text[i]. These are not copied. No file is opened: a file's
 * word can be anything, and stands where the program writes a file's name. If no file is named, or one is `-`, standard
 * input is one of the texts.
 *
 * OUT receives the program's standard output and ERR its standard error, as much of each as its room allows.
 * *OUT_LENGTH and *ERR_LENGTH receive their whole lengths. The answer is the program's exit status: 0, 1 for a race or
 * another finding, 2 if a word, a text or memory is refused. It is 3 if what was asked for isn't known. With 2 and 3,
 * ERR has a line that says why (docs/reference/refusals.md). MSC_MISUSE also if the words read another number of files
 * than TEXTS; then nothing is written. It uses no post, and any thread may call. */
static inline int msc_view(int count, const char *const *words, size_t texts, const char *const *text,
                           const size_t *length, char *out, size_t out_room, size_t *out_length, char *err,
                           size_t err_room, size_t *err_length) {
    static const char refused[] = "refused: F6 Memory\n";
    msc_lengths lengths = {0, sizeof refused - 1};
    struct msc_block block;
    msc_bytes_ *all;
    size_t many, i;
    int answer;
    if (count < 0 || (words == NULL && count != 0) || ((text == NULL || length == NULL) && texts != 0) ||
        (out == NULL && out_room != 0) || (err == NULL && err_room != 0) || out_length == NULL || err_length == NULL ||
        texts > SIZE_MAX / sizeof(msc_bytes_) / 2)
        return MSC_MISUSE;
    many = (size_t)count;
    for (i = 0; i < many; i++)
        if (words[i] == NULL) return MSC_MISUSE;
    for (i = 0; i < texts; i++)
        if (text[i] == NULL && length[i] != 0) return MSC_MISUSE;
    block = rattle_alloc((many + texts + 1) * sizeof(msc_bytes_), sizeof(void *));
    if (!block.ok) {
        for (i = 0; i < sizeof refused - 1 && i < err_room; i++) err[i] = refused[i];
        answer = 2;
    } else {
        all = (msc_bytes_ *)block.at;
        for (i = 0; i < many; i++) {
            all[i].at_ = (const uint8_t *)words[i];
            all[i].length_ = strlen(words[i]);
        }
        for (i = 0; i < texts; i++) {
            all[many + i].at_ = text[i] == NULL ? (const uint8_t *)&msc_no_bytes_ : (const uint8_t *)text[i];
            all[many + i].length_ = length[i];
        }
        answer = msc_view_(all, many, all + many, texts, out == NULL ? (uint8_t *)&msc_no_bytes_ : (uint8_t *)out, out_room,
                           err == NULL ? (uint8_t *)&msc_no_bytes_ : (uint8_t *)err, err_room, &lengths);
        rattle_dealloc(block.at);
    }
    if (answer < 0) return answer;
    *out_length = lengths.out;
    *err_length = lengths.err;
    return answer;
}

#ifdef __cplusplus
}
#endif

#endif
