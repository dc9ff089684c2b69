/* Makes the line of each rank: its sends and receives, each with its turn, and what each receive would have taken. */
#include <stdint.h>
#include <stdlib.h>

#include "settle.h"

/* How many there were of a group, a peer and a tag. */
struct counter {
    int group;
    int peer;
    int tag;
    long count;
};

struct counters {
    struct counter *table;
    size_t room;
    size_t used;
};

static struct counter *place_of(struct counters *counters, int group, int peer, int tag) {
    uint64_t bits = ((uint64_t)(uint32_t)group * 31 + (uint64_t)(uint32_t)peer) * 0x9E3779B97F4A7C15u + (uint32_t)tag;
    size_t at = (size_t)((bits * 0x9E3779B97F4A7C15u) >> 32) & (counters->room - 1);
    for (;;) {
        struct counter *found = &counters->table[at];
        if (found->count == 0 || (found->group == group && found->peer == peer && found->tag == tag)) {
            return found;
        }
        at = (at + 1) & (counters->room - 1);
    }
}

static void make_room(struct counters *counters) {
    struct counters old = *counters;
    if (2 * old.used < old.room) {
        return;
    }
    counters->room = old.room == 0 ? 256 : 2 * old.room;
    counters->table = claimed(sizeof *counters->table * counters->room);
    for (size_t at = 0; at < old.room; at++) {
        if (old.table[at].count > 0) {
            *place_of(counters, old.table[at].group, old.table[at].peer, old.table[at].tag) = old.table[at];
        }
    }
    free(old.table);
}

/* The turn of one more, from 1. */
static long next_turn(struct counters *counters, int group, int peer, int tag) {
    struct counter *found;
    make_room(counters);
    found = place_of(counters, group, peer, tag);
    if (found->count == 0) {
        counters->used++;
    }
    *found = (struct counter){group, peer, tag, found->count + 1};
    return found->count;
}

/* A receive that was posted: what it asked for, and what it got. */
struct post {
    struct take asked;
    bool is_done;
    int source;
    int tag;
    long turn;
};

struct posts {
    struct post *list;
    long count;
    long room;
};

static int group_of(const struct rank_recording *rank, int communicator) { return rank->groups[communicator]; }

/* The receives of a sender, tag and communicator count in the order in which they were posted. */
static struct posts posts_of(const struct rank_recording *rank) {
    struct posts posts = {0};
    struct counters counters = {0};
    for (long at = 0; at < rank->count; at++) {
        const struct event *event = &rank->events[at];
        if (event->kind == EVENT_POST) {
            struct take asked = {event->peer, group_of(rank, event->communicator), event->tag};
            posts.list = grown(posts.list, posts.count, &posts.room, sizeof *posts.list);
            posts.list[posts.count++] = (struct post){asked, false, NOBODY, 0, 0};
        } else if (event->kind == EVENT_DONE && event->number < posts.count) {
            struct post *post = &posts.list[event->number];
            post->is_done = true;
            post->source = event->peer;
            post->tag = event->tag;
        }
    }
    for (long number = 0; number < posts.count; number++) {
        struct post *post = &posts.list[number];
        if (post->is_done) {
            post->turn = next_turn(&counters, post->asked.group, post->source, post->tag);
        }
    }
    free(counters.table);
    return posts;
}

static void add_take(struct settled *settled, long first, struct take take) {
    for (long at = first; at < settled->take_count; at++) {
        const struct take *other = &settled->takes[at];
        if (other->peer == take.peer && other->group == take.group && other->tag == take.tag) {
            return;
        }
    }
    settled->takes = grown(settled->takes, settled->take_count, &settled->take_room, sizeof *settled->takes);
    settled->takes[settled->take_count++] = take;
}

static void add_entry(struct line *line, struct entry entry) {
    line->entries = grown(line->entries, line->count, &line->room, sizeof *line->entries);
    line->entries[line->count++] = entry;
}

/* The hub of a group's collectives with a root, as a host. */
static int hub_host(struct settled *settled, int group, int root) {
    static long room;
    int number = 0;
    while (number < settled->hub_count && (settled->hubs[number].group != group || settled->hubs[number].root != root)) {
        number++;
    }
    if (number == settled->hub_count) {
        settled->hubs = grown(settled->hubs, number, &room, sizeof *settled->hubs);
        settled->hubs[settled->hub_count++] = (struct hub){group, root, 0, false};
    }
    settled->hubs[number].entries++;
    return settled->size + number;
}

static void add_collective(struct settled *settled, int rank, const struct event *event) {
    int group = group_of(&settled->ranks[rank], event->communicator);
    bool is_send = event->kind == EVENT_GIVE || event->kind == EVENT_GIVE_DIRECTLY;
    bool by_hub = event->kind == EVENT_GIVE || event->kind == EVENT_TAKE;
    int peer = by_hub ? hub_host(settled, group, event->peer) : event->peer;
    struct label label = {by_hub ? BY_HUB : DIRECTLY, group, event->tag, event->number};
    add_entry(&settled->lines[rank], (struct entry){is_send, peer, label, 0, 0, -1});
}

static void add_receive(struct settled *settled, int rank, const struct post *post, long first) {
    struct label label = {MESSAGE, post->asked.group, post->tag, post->turn};
    if (first == settled->take_count) {
        add_take(settled, first, post->asked);
    }
    add_entry(&settled->lines[rank],
              (struct entry){false, post->source, label, first, settled->take_count - first, -1});
}

static void add_rank(struct settled *settled, int rank, const struct posts *posts) {
    const struct rank_recording *recording = &settled->ranks[rank];
    struct counters sends = {0};
    long first = settled->take_count;
    for (long at = 0; at < recording->count; at++) {
        const struct event *event = &recording->events[at];
        if (event->kind == EVENT_SEND) {
            int group = group_of(recording, event->communicator);
            long turn = next_turn(&sends, group, event->peer, event->tag);
            struct label label = {MESSAGE, group, event->tag, turn};
            add_entry(&settled->lines[rank], (struct entry){true, event->peer, label, 0, 0, -1});
        } else if (event->kind == EVENT_OTHER_POST && event->number >= 0 && event->number < posts->count) {
            add_take(settled, first, posts->list[event->number].asked);
        } else if (event->kind == EVENT_PROBED) {
            struct take asked = {event->peer, group_of(recording, event->communicator), event->tag};
            add_take(settled, first, asked);
        } else if (event->kind == EVENT_DONE && event->number < posts->count) {
            add_receive(settled, rank, &posts->list[event->number], first);
            first = settled->take_count;
        } else if (event->kind >= EVENT_GIVE && event->kind <= EVENT_TAKE_DIRECTLY) {
            add_collective(settled, rank, event);
        }
    }
    free(sends.table);
}

void make_lines(struct settled *settled) {
    settled->lines = claimed(sizeof *settled->lines * (size_t)settled->size);
    for (int rank = 0; rank < settled->size; rank++) {
        struct posts posts = posts_of(&settled->ranks[rank]);
        add_rank(settled, rank, &posts);
        free(posts.list);
    }
}
