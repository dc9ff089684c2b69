/*
 * Makes logs of raw recordings: which receive has which send, what each receive would have taken, and which ranks a
 * collective makes wait for which.
 *
 *   settle RECORDINGS LOGS [EVENTS]   the first EVENTS of each line at most (4096)
 */
#include "settle.h"

#include <stdio.h>
#include <stdlib.h>

void *claimed(size_t bytes) {
    void *room = calloc(1, bytes == 0 ? 1 : bytes);
    if (room == NULL) {
        fprintf(stderr, "settle: no memory\n");
        exit(2);
    }
    return room;
}

void *grown(void *list, long count, long *room, size_t size) {
    if (count < *room) {
        return list;
    }
    *room = *room == 0 ? 64 : 2 * *room;
    list = realloc(list, (size_t)*room * size);
    if (list == NULL) {
        fprintf(stderr, "settle: no memory\n");
        exit(2);
    }
    return list;
}

static void report_left_out(const struct settled *settled) {
    long left = 0;
    for (int host = 0; host < settled->size; host++) {
        left += settled->lines[host].count - settled->lines[host].limit;
    }
    if (left > 0) {
        fprintf(stderr, "settle: %ld later events are left out, for the longest line\n", left);
    }
    if (settled->calls_left_out > 0) {
        fprintf(stderr,
                "settle: %ld calls aren't recorded: of windows, of neighbours, of processes that were begun later, "
                "or on communicators between groups\n",
                settled->calls_left_out);
    }
}

int main(int count, char **words) {
    struct settled settled = {0};
    long most = count == 4 ? strtol(words[3], NULL, 10) : MOST_LINE;
    if (count < 3 || count > 4 || most < 1 || most > MOST_LINE) {
        fprintf(stderr, "settle RECORDINGS LOGS [EVENTS]: EVENTS is 1 to %d\n", MOST_LINE);
        return 2;
    }
    read_recordings(&settled, words[1]);
    make_lines(&settled);
    make_hub_lines(&settled);
    choose_window(&settled, most);
    write_logs(&settled, words[2]);
    report_left_out(&settled);
    return 0;
}
