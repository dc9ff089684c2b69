/* From raw recordings to logs: what the parts of the settling program share. */
#ifndef CHART_SETTLE_H
#define CHART_SETTLE_H

#include <stdbool.h>
#include <stddef.h>

#include "events.h"

enum { MOST_HOSTS = 32, MOST_LINE = 4096 };

/* A communicator as all its members know it: who made it, of whom, and which of several such it is. */
struct group {
    int parent;
    int size;
    int *members;
    int turn;
};

struct rank_recording {
    const struct recording_head *head;
    const struct event *events;
    long count;
    /* the groups of the rank's own numbers */
    int *groups;
    int communicators;
};

/* What is sent: a message of the program, a part of a collective by its hub, or one between two ranks. */
enum form { MESSAGE, BY_HUB, DIRECTLY };

/* What names a message on its lane. `tag` is a collective's number where it is one. */
struct label {
    enum form form;
    int group;
    int tag;
    long turn;
};

/* Whom and what a receive would have taken; ANYTHING for each of them. */
struct take {
    int peer;
    int group;
    int tag;
};

struct entry {
    bool is_send;
    int peer;
    struct label label;
    long first_take;
    long takes;
    /* of a receive, the place of its send on its line, or -1 */
    long send_place;
};

struct line {
    struct entry *entries;
    long count;
    long room;
    /* so many are written */
    long limit;
};

/* The host of a group's collectives with one root. */
struct hub {
    int group;
    int root;
    long entries;
    bool is_left_out;
};

struct settled {
    struct rank_recording *ranks;
    int size;
    struct group *groups;
    int group_count;
    struct hub *hubs;
    int hub_count;
    struct line *lines;
    struct take *takes;
    long take_count;
    long take_room;
    long calls_left_out;
};

/* A list of `room` elements of `size` bytes, with room for one more than `count`. It ends the program without memory. */
void *grown(void *list, long count, long *room, size_t size);
void *claimed(size_t bytes);

void read_recordings(struct settled *settled, const char *folder);
void make_lines(struct settled *settled);
void make_hub_lines(struct settled *settled);
void choose_window(struct settled *settled, long most);
void write_logs(const struct settled *settled, const char *folder);

#endif
