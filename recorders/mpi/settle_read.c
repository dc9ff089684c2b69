/* Reads the ranks' recordings, and finds which of their communicators are the same. */
#include <fcntl.h>
#include <stdio.h>
#include <stdlib.h>
#include <string.h>
#include <sys/mman.h>
#include <sys/stat.h>
#include <unistd.h>

#include "settle.h"

static void refuse(const char *path, const char *why) {
    fprintf(stderr, "settle: %s %s\n", path, why);
    exit(2);
}

/* A rank's file, or false where there is none. */
static bool map_recording(const char *folder, int rank, struct rank_recording *recording) {
    char path[4096];
    struct stat about;
    int file;
    void *mapped;
    snprintf(path, sizeof path, "%s/rank_%d.raw", folder, rank);
    file = open(path, O_RDONLY);
    if (file < 0) {
        return false;
    }
    if (fstat(file, &about) != 0 || (size_t)about.st_size < sizeof(struct recording_head)) {
        refuse(path, "is no recording");
    }
    mapped = mmap(NULL, (size_t)about.st_size, PROT_READ, MAP_SHARED, file, 0);
    close(file);
    if (mapped == MAP_FAILED) {
        refuse(path, "can't be mapped");
    }
    recording->head = mapped;
    recording->events = (const struct event *)(recording->head + 1);
    recording->count = (long)recording->head->count;
    if (strcmp(recording->head->form, RECORDING_FORM) != 0 || recording->head->rank != rank) {
        refuse(path, "is no recording of this rank");
    }
    return true;
}

/* The number of a group among all, which is a new one where no rank before reported it. */
static int group_number(struct settled *settled, struct group found) {
    static long room;
    for (int number = 0; number < settled->group_count; number++) {
        const struct group *other = &settled->groups[number];
        if (other->parent == found.parent && other->size == found.size && other->turn == found.turn &&
            memcmp(other->members, found.members, sizeof(int) * (size_t)found.size) == 0) {
            free(found.members);
            return number;
        }
    }
    settled->groups = grown(settled->groups, settled->group_count, &room, sizeof *settled->groups);
    settled->groups[settled->group_count] = found;
    return settled->group_count++;
}

/* Whether two groups have one parent and the same members. */
static bool are_alike(const struct group *one, const struct group *other) {
    return one->parent == other->parent && one->size == other->size &&
           memcmp(one->members, other->members, sizeof(int) * (size_t)one->size) == 0;
}

/*
 * The group of a communicator. Each member of a group takes part each time that its like is made from this parent, so
 * they all count alike.
 */
static int group_of(struct settled *settled, struct rank_recording *rank, long at) {
    const struct event *event = &rank->events[at];
    struct group found = {event->peer >= 0 ? rank->groups[event->peer] : ANYTHING, (int)event->extra, NULL, 0};
    found.members = claimed(sizeof(int) * (size_t)found.size);
    for (int member = 0; member < found.size && at + 1 + member < rank->count; member++) {
        found.members[member] = rank->events[at + 1 + member].peer;
    }
    for (int number = 0; number < rank->communicators; number++) {
        if (rank->groups[number] >= 0 && are_alike(&settled->groups[rank->groups[number]], &found)) {
            found.turn++;
        }
    }
    return group_number(settled, found);
}

static void find_groups(struct settled *settled, struct rank_recording *rank) {
    long room = 0;
    for (long at = 0; at < rank->count; at++) {
        int number = rank->events[at].communicator;
        if (rank->events[at].kind == EVENT_LEFT_OUT) {
            settled->calls_left_out++;
        }
        if (rank->events[at].kind != EVENT_COMMUNICATOR) {
            continue;
        }
        /* (numbers of communicators that are left out are skipped) */
        while (rank->communicators <= number) {
            rank->groups = grown(rank->groups, rank->communicators, &room, sizeof(int));
            rank->groups[rank->communicators++] = -1;
        }
        rank->groups[number] = group_of(settled, rank, at);
    }
}

void read_recordings(struct settled *settled, const char *folder) {
    struct rank_recording first = {0};
    if (!map_recording(folder, 0, &first)) {
        refuse(folder, "has no recording of rank 0");
    }
    settled->size = first.head->size;
    if (settled->size > MOST_HOSTS) {
        refuse(folder, "has more than 32 ranks, and a chart has 32 instances at most");
    }
    settled->ranks = claimed(sizeof *settled->ranks * (size_t)settled->size);
    for (int rank = 0; rank < settled->size; rank++) {
        if (!map_recording(folder, rank, &settled->ranks[rank])) {
            refuse(folder, "hasn't the recording of each rank");
        }
        find_groups(settled, &settled->ranks[rank]);
    }
}
