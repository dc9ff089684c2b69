/* What the program's requests stand for, found by their handles. */
#include <pthread.h>
#include <stdint.h>
#include <stdlib.h>
#include <string.h>

#include "recording.h"

static pthread_mutex_t lock = PTHREAD_MUTEX_INITIALIZER;
/* Open addressing: a request stands at its place or behind it, before the next free one. */
static struct request *table;
static size_t room;
static size_t used;

static size_t place_of(MPI_Request handle) {
    uint64_t bits = 0;
    memcpy(&bits, &handle, sizeof handle);
    bits *= 0x9E3779B97F4A7C15u;
    return (size_t)(bits >> 32) & (room - 1);
}

/* Where a handle's request stands, or the free place where it belongs. */
static size_t found_at(MPI_Request handle) {
    size_t place = place_of(handle);
    while (table[place].kind != NO_REQUEST && table[place].handle != handle) {
        place = (place + 1) & (room - 1);
    }
    return place;
}

static void grow(void) {
    struct request *old = table;
    size_t old_room = room;
    room = room == 0 ? 1024 : room * 2;
    table = calloc(room, sizeof *table);
    for (size_t place = 0; place < old_room; place++) {
        if (old[place].kind != NO_REQUEST) {
            table[found_at(old[place].handle)] = old[place];
        }
    }
    free(old);
}

void remember_request(struct request request) {
    size_t place;
    pthread_mutex_lock(&lock);
    if (2 * used >= room) {
        grow();
    }
    place = found_at(request.handle);
    if (table[place].kind == NO_REQUEST) {
        used++;
    }
    table[place] = request;
    pthread_mutex_unlock(&lock);
}

struct request recall_request(MPI_Request handle) {
    struct request found = {0};
    if (handle == MPI_REQUEST_NULL) {
        return found;
    }
    pthread_mutex_lock(&lock);
    if (room > 0) {
        found = table[found_at(handle)];
    }
    pthread_mutex_unlock(&lock);
    return found;
}

/* Frees a place, and moves up what stands behind it and belongs before. */
static void free_place(size_t place) {
    size_t next = place;
    table[place].kind = NO_REQUEST;
    used--;
    for (;;) {
        struct request moved;
        next = (next + 1) & (room - 1);
        if (table[next].kind == NO_REQUEST) {
            return;
        }
        moved = table[next];
        table[next].kind = NO_REQUEST;
        table[found_at(moved.handle)] = moved;
    }
}

void forget_request(MPI_Request handle) {
    pthread_mutex_lock(&lock);
    if (room > 0 && table[found_at(handle)].kind != NO_REQUEST) {
        free_place(found_at(handle));
    }
    pthread_mutex_unlock(&lock);
}

void set_active(MPI_Request handle, bool is_active, long number) {
    size_t place;
    pthread_mutex_lock(&lock);
    if (room > 0 && table[place = found_at(handle)].kind != NO_REQUEST) {
        table[place].is_active = is_active;
        table[place].number = number;
    }
    pthread_mutex_unlock(&lock);
}
