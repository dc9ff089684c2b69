/* The lines of the hubs, and which part of all lines is written. */
#include <stdio.h>
#include <stdlib.h>
#include <string.h>

#include "settle.h"

/* Hubs with the fewest events are left out until a chart has room for the others. */
static void leave_out_hubs(struct settled *settled) {
    int kept = settled->hub_count;
    while (settled->size + kept > MOST_HOSTS) {
        struct hub *least = NULL;
        for (int number = 0; number < settled->hub_count; number++) {
            struct hub *hub = &settled->hubs[number];
            if (!hub->is_left_out && (least == NULL || hub->entries < least->entries)) {
                least = hub;
            }
        }
        least->is_left_out = true;
        kept--;
        fprintf(stderr, "settle: %ld events of one communicator's collectives are left out, for 32 instances\n",
                least->entries);
    }
}

static void drop_left_out(struct settled *settled, struct line *line) {
    long kept = 0;
    for (long at = 0; at < line->count; at++) {
        const struct entry *entry = &line->entries[at];
        if (entry->peer < settled->size || !settled->hubs[entry->peer - settled->size].is_left_out) {
            line->entries[kept++] = *entry;
        }
    }
    line->count = kept;
}

/* A rank's part of a collective, seen from its hub. */
struct hub_part {
    int rank;
    bool gives;
    struct label label;
};

/* By collective, who gives before who takes, and by rank. */
static int part_order(const void *one, const void *other) {
    const struct hub_part *first = one, *second = other;
    if (first->label.turn != second->label.turn) {
        return first->label.turn < second->label.turn ? -1 : 1;
    }
    if (first->gives != second->gives) {
        return first->gives ? -1 : 1;
    }
    return first->rank - second->rank;
}

static void make_hub_line(struct settled *settled, int host) {
    struct line *line = &settled->lines[host];
    struct hub_part *parts = NULL;
    long count = 0, room = 0;
    for (int rank = 0; rank < settled->size; rank++) {
        for (long at = 0; at < settled->lines[rank].count; at++) {
            const struct entry *entry = &settled->lines[rank].entries[at];
            if (entry->peer == host) {
                parts = grown(parts, count, &room, sizeof *parts);
                parts[count++] = (struct hub_part){rank, entry->is_send, entry->label};
            }
        }
    }
    qsort(parts, (size_t)count, sizeof *parts, part_order);
    line->entries = claimed(sizeof *line->entries * (size_t)count);
    for (line->count = 0; line->count < count; line->count++) {
        const struct hub_part *part = &parts[line->count];
        line->entries[line->count] = (struct entry){!part->gives, part->rank, part->label, 0, 0, -1};
    }
    free(parts);
}

void make_hub_lines(struct settled *settled) {
    int hosts = settled->size + settled->hub_count;
    leave_out_hubs(settled);
    for (int rank = 0; rank < settled->size; rank++) {
        drop_left_out(settled, &settled->lines[rank]);
    }
    settled->lines = realloc(settled->lines, sizeof *settled->lines * (size_t)hosts);
    if (settled->lines == NULL) {
        exit(2);
    }
    memset(settled->lines + settled->size, 0, sizeof *settled->lines * (size_t)settled->hub_count);
    for (int host = settled->size; host < hosts; host++) {
        if (!settled->hubs[host - settled->size].is_left_out) {
            make_hub_line(settled, host);
        }
    }
}

/* A send, for its receive to be found. */
struct sent {
    int host;
    int peer;
    struct label label;
    long place;
};

static int compared(long one, long other) { return one < other ? -1 : one > other; }

static int sent_order(const void *one, const void *other) {
    const struct sent *first = one, *second = other;
    long differences[] = {
        compared(first->host, second->host),           compared(first->peer, second->peer),
        compared(first->label.form, second->label.form), compared(first->label.group, second->label.group),
        compared(first->label.tag, second->label.tag),   compared(first->label.turn, second->label.turn),
    };
    for (size_t at = 0; at < sizeof differences / sizeof *differences; at++) {
        if (differences[at] != 0) {
            return (int)differences[at];
        }
    }
    return 0;
}

static struct sent *all_sends(const struct settled *settled, int hosts, long *count) {
    struct sent *sends = NULL;
    long room = 0;
    *count = 0;
    for (int host = 0; host < hosts; host++) {
        for (long at = 0; at < settled->lines[host].count; at++) {
            const struct entry *entry = &settled->lines[host].entries[at];
            if (entry->is_send) {
                sends = grown(sends, *count, &room, sizeof *sends);
                sends[(*count)++] = (struct sent){host, entry->peer, entry->label, at};
            }
        }
    }
    qsort(sends, (size_t)*count, sizeof *sends, sent_order);
    return sends;
}

static void find_sends(struct settled *settled, int hosts) {
    long count;
    struct sent *sends = all_sends(settled, hosts, &count);
    for (int host = 0; host < hosts; host++) {
        for (long at = 0; at < settled->lines[host].count; at++) {
            struct entry *entry = &settled->lines[host].entries[at];
            struct sent wanted = {entry->peer, host, entry->label, 0};
            const struct sent *found;
            if (entry->is_send) {
                continue;
            }
            found = bsearch(&wanted, sends, (size_t)count, sizeof *sends, sent_order);
            entry->send_place = found == NULL ? -1 : found->place;
        }
    }
    free(sends);
}

/* A line ends before the first receive whose send isn't written. */
static bool shorten(struct settled *settled, int host) {
    struct line *line = &settled->lines[host];
    for (long at = 0; at < line->limit; at++) {
        const struct entry *entry = &line->entries[at];
        if (!entry->is_send && entry->send_place >= settled->lines[entry->peer].limit) {
            line->limit = at;
            return true;
        }
    }
    return false;
}

void choose_window(struct settled *settled, long most) {
    int hosts = settled->size + settled->hub_count;
    bool is_shortened = true;
    find_sends(settled, hosts);
    for (int host = 0; host < hosts; host++) {
        struct line *line = &settled->lines[host];
        line->limit = line->count < most ? line->count : most;
    }
    while (is_shortened) {
        is_shortened = false;
        for (int host = 0; host < hosts; host++) {
            is_shortened = shorten(settled, host) || is_shortened;
        }
    }
}
