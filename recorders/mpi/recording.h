/* Notes what a rank does, for the wrappers. */
#ifndef CHART_RECORDING_H
#define CHART_RECORDING_H

#include <mpi.h>
#include <stdbool.h>

#include "events.h"

struct communicator {
    int number;
    int size;
    int *world_ranks;
    long collectives;
    bool is_left_out;
};

/* What a request stands for. */
enum request_kind { NO_REQUEST, RECEIVE_REQUEST, SEND_INIT, RECEIVE_INIT, COLLECTIVE_REQUEST };

struct request {
    MPI_Request handle;
    enum request_kind kind;
    bool is_active;
    struct communicator *communicator;
    MPI_Comm handle_of_communicator;
    int peer;
    int tag;
    /* a post, or a collective's number */
    long number;
};

/* Opens the rank's file, once MPI has begun. Without CHART_RECORDINGS nothing is recorded. */
void begin_recording(void);
void end_recording(void);

/* The communicator's numbers, found at its first use. None where it is left out. */
struct communicator *known(MPI_Comm handle);
void note_creation(MPI_Comm parent, const MPI_Comm *created);
void note_left_out(void);

void note_send(MPI_Comm communicator, int destination, int tag);
long note_post(MPI_Comm communicator, int source, int tag);
void note_done(struct communicator *communicator, long post, const MPI_Status *status);
void note_other_post(long post);
/* The next receive of what a probe found might have taken what the probe asked for. */
void note_probe(MPI_Comm communicator, int source, int tag, const MPI_Status *found);

/* A collective begins: its number in the communicator. */
long next_collective(MPI_Comm communicator);
void note_give(MPI_Comm communicator, enum collective kind, int root, long number);
void note_take(struct communicator *communicator, enum collective kind, int root, long number);
void note_directly(MPI_Comm communicator, enum event_kind side, enum collective kind, int peer, long number);

void remember_request(struct request request);
/* What is known of a request, or NO_REQUEST. */
struct request recall_request(MPI_Request handle);
void forget_request(MPI_Request handle);
void set_active(MPI_Request handle, bool is_active, long number);

/* A request that was made earlier begins to send or to receive. */
void note_start(MPI_Request handle);

/* What a call that waits for some of several requests may complete. `none` of them is known where it is empty. */
struct waited {
    int count;
    bool is_empty;
    struct request few[8];
    struct request *requests;
};

struct waited waited_for(int count, const MPI_Request *requests);
/* The call chose among these: each receive that is active might have been the one. */
void note_others(const struct waited *waited);
void note_completed(const struct waited *waited, int number, const MPI_Status *status);
void end_wait(struct waited *waited);

#endif
