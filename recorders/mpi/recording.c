/*
 * A rank's recording: a mapped file, so that what was recorded stays when the program is killed. Nothing is sent here:
 * each rank numbers its communicators for itself, and the settling program finds which are the same.
 */
#include "recording.h"

#include <fcntl.h>
#include <pthread.h>
#include <stdio.h>
#include <stdlib.h>
#include <string.h>
#include <sys/mman.h>
#include <sys/stat.h>
#include <unistd.h>

/* A file takes room on the disk only as it is filled, but for its first part: what is claimed costs no time later. */
static const int64_t MOST_EVENTS = 1 << 25;
enum { CLAIMED = 1 << 22, PAGE = 4096 };

static pthread_mutex_t lock = PTHREAD_MUTEX_INITIALIZER;
static struct recording_head *head;
static struct event *events;
static int communicator_key = MPI_KEYVAL_INVALID;
static int communicators;
static long posts;
/* What the last probe asked for and found. */
static struct event probed;
static int probed_source = NOBODY;
static int probed_tag;

static struct communicator *world;
static bool has_threads;

/* Where only one thread of the program calls MPI at a time, none has to wait for another. */
static void enter(void) {
    if (has_threads) {
        pthread_mutex_lock(&lock);
    }
}

static void leave(void) {
    if (has_threads) {
        pthread_mutex_unlock(&lock);
    }
}

static void note(struct event event) {
    int64_t count;
    if (head == NULL) {
        return;
    }
    count = atomic_load_explicit(&head->count, memory_order_relaxed);
    if (count < head->room) {
        events[count] = event;
        atomic_store_explicit(&head->count, count + 1, memory_order_release);
    }
}

static void note_locked(struct event event) {
    enter();
    note(event);
    leave();
}

static void map_file(const char *folder, int rank, int size) {
    char path[4096];
    size_t length = sizeof *head + (size_t)MOST_EVENTS * sizeof *events;
    int file;
    void *mapped;
    mkdir(folder, 0755);
    snprintf(path, sizeof path, "%s/rank_%d.raw", folder, rank);
    file = open(path, O_RDWR | O_CREAT | O_TRUNC, 0644);
    if (file < 0 || ftruncate(file, (off_t)length) != 0) {
        fprintf(stderr, "chart recorder: %s can't be written, so nothing is recorded\n", path);
        return;
    }
    mapped = mmap(NULL, length, PROT_READ | PROT_WRITE, MAP_SHARED, file, 0);
    close(file);
    if (mapped == MAP_FAILED) {
        fprintf(stderr, "chart recorder: %s can't be mapped, so nothing is recorded\n", path);
        return;
    }
    for (size_t at = 0; at < CLAIMED; at += PAGE) {
        ((volatile char *)mapped)[at] = 0;
    }
    head = mapped;
    events = (struct event *)(head + 1);
    head->rank = rank;
    head->size = size;
    head->room = MOST_EVENTS;
    strcpy(head->form, RECORDING_FORM);
}

void begin_recording(void) {
    const char *folder = getenv("CHART_RECORDINGS");
    int rank, size, level = MPI_THREAD_MULTIPLE;
    MPI_Comm parent;
    if (folder == NULL || head != NULL) {
        return;
    }
    /* (ranks that were begun by others have the numbers of others) */
    PMPI_Comm_get_parent(&parent);
    if (parent != MPI_COMM_NULL) {
        return;
    }
    PMPI_Query_thread(&level);
    has_threads = level == MPI_THREAD_MULTIPLE;
    PMPI_Comm_rank(MPI_COMM_WORLD, &rank);
    PMPI_Comm_size(MPI_COMM_WORLD, &size);
    PMPI_Comm_create_keyval(MPI_COMM_NULL_COPY_FN, MPI_COMM_NULL_DELETE_FN, &communicator_key, NULL);
    map_file(folder, rank, size);
    world = known(MPI_COMM_WORLD);
}

void end_recording(void) {
    enter();
    head = NULL;
    leave();
}

/* The members of a communicator as ranks of MPI_COMM_WORLD. All of this is known here. */
static void find_members(MPI_Comm handle, struct communicator *found) {
    MPI_Group group, world;
    int *ranks = malloc(sizeof(int) * (size_t)found->size);
    PMPI_Comm_group(handle, &group);
    PMPI_Comm_group(MPI_COMM_WORLD, &world);
    for (int rank = 0; rank < found->size; rank++) {
        ranks[rank] = rank;
    }
    found->world_ranks = malloc(sizeof(int) * (size_t)found->size);
    PMPI_Group_translate_ranks(group, found->size, ranks, world, found->world_ranks);
    PMPI_Group_free(&group);
    PMPI_Group_free(&world);
    free(ranks);
}

static void note_communicator(const struct communicator *made, int parent) {
    enter();
    note((struct event){EVENT_COMMUNICATOR, made->number, parent, 0, 0, made->size});
    for (int rank = 0; rank < made->size; rank++) {
        note((struct event){EVENT_MEMBER, made->number, made->world_ranks[rank], 0, rank, 0});
    }
    leave();
}

static struct communicator *made_known(MPI_Comm handle, int parent) {
    struct communicator *made = calloc(1, sizeof *made);
    int is_between_groups = 0;
    PMPI_Comm_test_inter(handle, &is_between_groups);
    PMPI_Comm_size(handle, &made->size);
    made->number = communicators++;
    made->is_left_out = is_between_groups;
    find_members(handle, made);
    PMPI_Comm_set_attr(handle, communicator_key, made);
    if (!made->is_left_out) {
        note_communicator(made, parent);
    }
    return made;
}

static struct communicator *known_below(MPI_Comm handle, int parent) {
    void *found = NULL;
    int is_there = 0;
    struct communicator *communicator;
    if (head == NULL || handle == MPI_COMM_NULL) {
        return NULL;
    }
    if (handle == MPI_COMM_WORLD && world != NULL) {
        return world;
    }
    PMPI_Comm_get_attr(handle, communicator_key, &found, &is_there);
    communicator = is_there ? found : made_known(handle, parent);
    return communicator->is_left_out ? NULL : communicator;
}

struct communicator *known(MPI_Comm handle) {
    struct communicator *found = known_below(handle, ANYTHING);
    if (found == NULL) {
        note_left_out();
    }
    return found;
}

void note_creation(MPI_Comm parent, const MPI_Comm *created) {
    struct communicator *from = parent == MPI_COMM_NULL ? NULL : known_below(parent, ANYTHING);
    if (created != NULL && *created != MPI_COMM_NULL) {
        known_below(*created, from == NULL ? ANYTHING : from->number);
    }
}

void note_left_out(void) { note_locked((struct event){EVENT_LEFT_OUT, 0, 0, 0, 0, 0}); }

static int world_rank(const struct communicator *communicator, int rank) {
    return rank >= 0 && rank < communicator->size ? communicator->world_ranks[rank] : NOBODY;
}

void note_send(MPI_Comm handle, int destination, int tag) {
    struct communicator *communicator;
    if (destination == MPI_PROC_NULL || (communicator = known(handle)) == NULL) {
        return;
    }
    note_locked((struct event){EVENT_SEND, communicator->number, world_rank(communicator, destination), tag, 0, 0});
}

/* What a receive or a probe asks for. */
static struct event asked(enum event_kind kind, const struct communicator *communicator, int source, int tag) {
    int peer = source == MPI_ANY_SOURCE ? ANYTHING : world_rank(communicator, source);
    return (struct event){kind, communicator->number, peer, tag == MPI_ANY_TAG ? ANYTHING : tag, 0, 0};
}

/* A post's number, or -1 where none is made. */
long note_post(MPI_Comm handle, int source, int tag) {
    struct communicator *communicator;
    struct event post;
    if (source == MPI_PROC_NULL || (communicator = known(handle)) == NULL) {
        return -1;
    }
    post = asked(EVENT_POST, communicator, source, tag);
    enter();
    post.number = posts++;
    note(post);
    leave();
    return post.number;
}

void note_other_post(long post) { note_locked((struct event){EVENT_OTHER_POST, 0, 0, 0, post, 0}); }

void note_done(struct communicator *communicator, long post, const MPI_Status *status) {
    int source = status->MPI_SOURCE, cancelled = 0;
    if (communicator == NULL || post < 0 || source == MPI_PROC_NULL || source == MPI_ANY_SOURCE) {
        return;
    }
    PMPI_Test_cancelled(status, &cancelled);
    if (cancelled) {
        return;
    }
    enter();
    source = world_rank(communicator, source);
    if (probed_source == source && probed_tag == status->MPI_TAG && probed.communicator == communicator->number) {
        note(probed);
        probed_source = NOBODY;
    }
    note((struct event){EVENT_DONE, communicator->number, source, status->MPI_TAG, post, 0});
    leave();
}

void note_probe(MPI_Comm handle, int source, int tag, const MPI_Status *found) {
    struct communicator *communicator;
    if (source == MPI_PROC_NULL || (communicator = known(handle)) == NULL) {
        return;
    }
    enter();
    probed = asked(EVENT_PROBED, communicator, source, tag);
    probed_source = world_rank(communicator, found->MPI_SOURCE);
    probed_tag = found->MPI_TAG;
    leave();
}

long next_collective(MPI_Comm handle) {
    struct communicator *communicator = known(handle);
    return communicator == NULL ? -1 : communicator->collectives++;
}

void note_take(struct communicator *communicator, enum collective kind, int root, long number) {
    int peer;
    if (communicator == NULL) {
        return;
    }
    peer = root == NO_ROOT ? NO_ROOT : world_rank(communicator, root);
    note_locked((struct event){EVENT_TAKE, communicator->number, peer, kind, number, 0});
}

void note_give(MPI_Comm handle, enum collective kind, int root, long number) {
    struct communicator *communicator = known(handle);
    int peer;
    if (communicator == NULL) {
        return;
    }
    peer = root == NO_ROOT ? NO_ROOT : world_rank(communicator, root);
    note_locked((struct event){EVENT_GIVE, communicator->number, peer, kind, number, 0});
}

void note_directly(MPI_Comm handle, enum event_kind side, enum collective kind, int peer, long number) {
    struct communicator *communicator = known(handle);
    if (communicator == NULL || world_rank(communicator, peer) == head->rank) {
        return;
    }
    note_locked((struct event){side, communicator->number, world_rank(communicator, peer), kind, number, 0});
}
