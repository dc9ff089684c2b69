/* What a rank's raw recording holds, as the library writes it and the settling program reads it. */
#ifndef CHART_EVENTS_H
#define CHART_EVENTS_H

#include <stdatomic.h>
#include <stdint.h>

enum event_kind {
    /* A communicator of `extra` members, created as a part of `peer`; as many MEMBER events follow. */
    EVENT_COMMUNICATOR = 1,
    EVENT_MEMBER,
    EVENT_SEND,
    /* A receive was posted, with what it asks for. `number` names it from here on. */
    EVENT_POST,
    /* Behind these stands a DONE that might as well have been one of them: a post, or what a probe asked for. */
    EVENT_OTHER_POST,
    EVENT_PROBED,
    EVENT_DONE,
    /* A part of a collective: `peer` is its root, `number` counts the collectives of the communicator. */
    EVENT_GIVE,
    EVENT_TAKE,
    /* The same between two ranks alone. */
    EVENT_GIVE_DIRECTLY,
    EVENT_TAKE_DIRECTLY,
    /* Something that isn't recorded was called. */
    EVENT_LEFT_OUT
};

enum { ANYTHING = -1, NOBODY = -2, NO_ROOT = -1 };

/* Ranks are those of MPI_COMM_WORLD, communicators are numbered by each rank for itself. */
struct event {
    int32_t kind;
    int32_t communicator;
    int32_t peer;
    int32_t tag;
    int64_t number;
    int64_t extra;
};

/* The head of a rank's file. Its events follow, and the first `count` of them are whole. */
struct recording_head {
    char form[16];
    int32_t rank;
    int32_t size;
    _Atomic int64_t count;
    int64_t room;
};

#define RECORDING_FORM "chart events 1"

/* Collectives by their numbers in `tag`, for their names. */
enum collective {
    BARRIER,
    BROADCAST,
    REDUCE,
    GATHER,
    SCATTER,
    ALLREDUCE,
    ALLGATHER,
    ALLTOALL,
    REDUCE_SCATTER,
    SCAN,
    COLLECTIVES
};

#endif
