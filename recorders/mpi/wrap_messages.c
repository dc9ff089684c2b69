/* The calls by which a program sends and receives. Each notes what it does, and does it by its PMPI name. */
#include <stddef.h>

#include "recording.h"

int MPI_Init(int *count, char ***words) {
    int error = PMPI_Init(count, words);
    begin_recording();
    return error;
}

int MPI_Init_thread(int *count, char ***words, int required, int *provided) {
    int error = PMPI_Init_thread(count, words, required, provided);
    begin_recording();
    return error;
}

int MPI_Finalize(void) {
    end_recording();
    return PMPI_Finalize();
}

/* What a request that is begun later will do. */
static void remember_init(enum request_kind kind, MPI_Request handle, MPI_Comm communicator, int peer, int tag) {
    struct communicator *found = known(communicator);
    if (found != NULL && peer != MPI_PROC_NULL) {
        remember_request((struct request){handle, kind, false, found, communicator, peer, tag, -1});
    }
}

/* The blocking sends have one form, and so have those with a request, and those that are begun later. */
#define WRAP_SEND(NAME)                                                                                               \
    int MPI_##NAME(const void *data, int count, MPI_Datatype type, int to, int tag, MPI_Comm communicator) {          \
        note_send(communicator, to, tag);                                                                             \
        return PMPI_##NAME(data, count, type, to, tag, communicator);                                                 \
    }

#define WRAP_BEGUN_SEND(NAME)                                                                                         \
    int MPI_##NAME(const void *data, int count, MPI_Datatype type, int to, int tag, MPI_Comm communicator,            \
                   MPI_Request *request) {                                                                            \
        note_send(communicator, to, tag);                                                                             \
        return PMPI_##NAME(data, count, type, to, tag, communicator, request);                                        \
    }

#define WRAP_SEND_INIT(NAME)                                                                                          \
    int MPI_##NAME(const void *data, int count, MPI_Datatype type, int to, int tag, MPI_Comm communicator,            \
                   MPI_Request *request) {                                                                            \
        int error = PMPI_##NAME(data, count, type, to, tag, communicator, request);                                   \
        remember_init(SEND_INIT, *request, communicator, to, tag);                                                    \
        return error;                                                                                                 \
    }

WRAP_SEND(Send)
WRAP_SEND(Ssend)
WRAP_SEND(Bsend)
WRAP_SEND(Rsend)
WRAP_BEGUN_SEND(Isend)
WRAP_BEGUN_SEND(Issend)
WRAP_BEGUN_SEND(Ibsend)
WRAP_BEGUN_SEND(Irsend)
WRAP_SEND_INIT(Send_init)
WRAP_SEND_INIT(Ssend_init)
WRAP_SEND_INIT(Bsend_init)
WRAP_SEND_INIT(Rsend_init)

int MPI_Recv(void *data, int count, MPI_Datatype type, int from, int tag, MPI_Comm communicator, MPI_Status *status) {
    MPI_Status own;
    MPI_Status *info = status == MPI_STATUS_IGNORE ? &own : status;
    long post = note_post(communicator, from, tag);
    int error = PMPI_Recv(data, count, type, from, tag, communicator, info);
    if (error == MPI_SUCCESS && post >= 0) {
        note_done(known(communicator), post, info);
    }
    return error;
}

int MPI_Irecv(void *data, int count, MPI_Datatype type, int from, int tag, MPI_Comm communicator,
              MPI_Request *request) {
    long post = note_post(communicator, from, tag);
    int error = PMPI_Irecv(data, count, type, from, tag, communicator, request);
    if (post >= 0) {
        struct communicator *found = known(communicator);
        remember_request((struct request){*request, RECEIVE_REQUEST, true, found, communicator, from, tag, post});
    }
    return error;
}

int MPI_Recv_init(void *data, int count, MPI_Datatype type, int from, int tag, MPI_Comm communicator,
                  MPI_Request *request) {
    int error = PMPI_Recv_init(data, count, type, from, tag, communicator, request);
    remember_init(RECEIVE_INIT, *request, communicator, from, tag);
    return error;
}

void note_start(MPI_Request handle) {
    struct request found = recall_request(handle);
    if (found.kind == SEND_INIT) {
        note_send(found.handle_of_communicator, found.peer, found.tag);
    } else if (found.kind == RECEIVE_INIT) {
        set_active(handle, true, note_post(found.handle_of_communicator, found.peer, found.tag));
    }
}

int MPI_Start(MPI_Request *request) {
    note_start(*request);
    return PMPI_Start(request);
}

int MPI_Startall(int count, MPI_Request requests[]) {
    for (int number = 0; number < count; number++) {
        note_start(requests[number]);
    }
    return PMPI_Startall(count, requests);
}

int MPI_Request_free(MPI_Request *request) {
    forget_request(*request);
    return PMPI_Request_free(request);
}

int MPI_Sendrecv(const void *data, int count, MPI_Datatype type, int to, int tag, void *room, int most,
                 MPI_Datatype room_type, int from, int from_tag, MPI_Comm communicator, MPI_Status *status) {
    MPI_Status own;
    MPI_Status *info = status == MPI_STATUS_IGNORE ? &own : status;
    long post = note_post(communicator, from, from_tag);
    int error;
    note_send(communicator, to, tag);
    error = PMPI_Sendrecv(data, count, type, to, tag, room, most, room_type, from, from_tag, communicator, info);
    if (error == MPI_SUCCESS && post >= 0) {
        note_done(known(communicator), post, info);
    }
    return error;
}

int MPI_Sendrecv_replace(void *data, int count, MPI_Datatype type, int to, int tag, int from, int from_tag,
                         MPI_Comm communicator, MPI_Status *status) {
    MPI_Status own;
    MPI_Status *info = status == MPI_STATUS_IGNORE ? &own : status;
    long post = note_post(communicator, from, from_tag);
    int error;
    note_send(communicator, to, tag);
    error = PMPI_Sendrecv_replace(data, count, type, to, tag, from, from_tag, communicator, info);
    if (error == MPI_SUCCESS && post >= 0) {
        note_done(known(communicator), post, info);
    }
    return error;
}

int MPI_Probe(int from, int tag, MPI_Comm communicator, MPI_Status *status) {
    MPI_Status own;
    MPI_Status *info = status == MPI_STATUS_IGNORE ? &own : status;
    int error = PMPI_Probe(from, tag, communicator, info);
    if (error == MPI_SUCCESS) {
        note_probe(communicator, from, tag, info);
    }
    return error;
}

int MPI_Iprobe(int from, int tag, MPI_Comm communicator, int *is_there, MPI_Status *status) {
    MPI_Status own;
    MPI_Status *info = status == MPI_STATUS_IGNORE ? &own : status;
    int error = PMPI_Iprobe(from, tag, communicator, is_there, info);
    if (error == MPI_SUCCESS && *is_there) {
        note_probe(communicator, from, tag, info);
    }
    return error;
}

/*
 * A message that a matching probe took out is received later by its handle. It counts as posted and received where it
 * was taken out: no other receive can have it from then on.
 */
static void note_taken_out(int from, int tag, MPI_Comm communicator, const MPI_Status *status) {
    long post = note_post(communicator, from, tag);
    if (post >= 0) {
        note_done(known(communicator), post, status);
    }
}

int MPI_Mprobe(int from, int tag, MPI_Comm communicator, MPI_Message *message, MPI_Status *status) {
    MPI_Status own;
    MPI_Status *info = status == MPI_STATUS_IGNORE ? &own : status;
    int error = PMPI_Mprobe(from, tag, communicator, message, info);
    if (error == MPI_SUCCESS) {
        note_taken_out(from, tag, communicator, info);
    }
    return error;
}

int MPI_Improbe(int from, int tag, MPI_Comm communicator, int *is_there, MPI_Message *message, MPI_Status *status) {
    MPI_Status own;
    MPI_Status *info = status == MPI_STATUS_IGNORE ? &own : status;
    int error = PMPI_Improbe(from, tag, communicator, is_there, message, info);
    if (error == MPI_SUCCESS && *is_there) {
        note_taken_out(from, tag, communicator, info);
    }
    return error;
}
