/* Writes the lines as logs: `rank_0.log` and so on, and `groups.log` for the hubs of collectives. */
#include <errno.h>
#include <stdio.h>
#include <stdlib.h>
#include <sys/stat.h>

#include "settle.h"

static const char *const COLLECTIVE_NAMES[COLLECTIVES] = {
    "barrier", "bcast", "reduce", "gather", "scatter", "allreduce", "allgather", "alltoall", "reduce_scatter", "scan",
};

static void write_host(FILE *file, const struct settled *settled, int host) {
    const struct hub *hub;
    if (host == ANYTHING) {
        fprintf(file, "*");
        return;
    }
    if (host < settled->size) {
        fprintf(file, "rank_%d", host);
        return;
    }
    hub = &settled->hubs[host - settled->size];
    fprintf(file, hub->root == NO_ROOT ? "group_%d" : "group_%d_root_%d", hub->group, hub->root);
}

static void write_name(FILE *file, const struct label *label) {
    if (label->form == MESSAGE) {
        fprintf(file, "c%d_t%d", label->group, label->tag);
    } else {
        fprintf(file, "c%d_%s", label->group, COLLECTIVE_NAMES[label->tag]);
    }
}

static void write_take(FILE *file, const struct settled *settled, const struct take *take) {
    fprintf(file, " takes=");
    write_host(file, settled, take->peer);
    if (take->tag == ANYTHING) {
        fprintf(file, ":c%d_t*", take->group);
    } else {
        fprintf(file, ":c%d_t%d", take->group, take->tag);
    }
}

static void write_entry(FILE *file, const struct settled *settled, int host, const struct entry *entry) {
    write_host(file, settled, host);
    fprintf(file, entry->is_send ? " send " : " receive ");
    write_host(file, settled, entry->peer);
    fprintf(file, " ");
    write_name(file, &entry->label);
    fprintf(file, " ");
    write_name(file, &entry->label);
    fprintf(file, ".%ld", entry->label.turn);
    for (long at = 0; at < entry->takes; at++) {
        write_take(file, settled, &settled->takes[entry->first_take + at]);
    }
    /* (a part of a collective waits for its own message alone) */
    if (!entry->is_send && entry->label.form != MESSAGE) {
        fprintf(file, " takes=");
        write_host(file, settled, entry->peer);
        fprintf(file, ":");
        write_name(file, &entry->label);
    }
    fprintf(file, "\n");
}

static FILE *opened(const char *folder, const char *name) {
    char path[4096];
    FILE *file;
    snprintf(path, sizeof path, "%s/%s.log", folder, name);
    file = fopen(path, "w");
    if (file == NULL) {
        fprintf(stderr, "settle: %s can't be written\n", path);
        exit(2);
    }
    return file;
}

static void closed(FILE *file) {
    if (fclose(file) != 0) {
        fprintf(stderr, "settle: a write failed\n");
        exit(2);
    }
}

static void write_line(FILE *file, const struct settled *settled, int host) {
    for (long at = 0; at < settled->lines[host].limit; at++) {
        write_entry(file, settled, host, &settled->lines[host].entries[at]);
    }
}

void write_logs(const struct settled *settled, const char *folder) {
    FILE *file;
    if (mkdir(folder, 0755) != 0 && errno != EEXIST) {
        fprintf(stderr, "settle: %s can't be made\n", folder);
        exit(2);
    }
    for (int rank = 0; rank < settled->size; rank++) {
        char name[32];
        snprintf(name, sizeof name, "rank_%d", rank);
        file = opened(folder, name);
        write_line(file, settled, rank);
        closed(file);
    }
    file = opened(folder, "groups");
    for (int hub = 0; hub < settled->hub_count; hub++) {
        write_line(file, settled, settled->size + hub);
    }
    closed(file);
}
