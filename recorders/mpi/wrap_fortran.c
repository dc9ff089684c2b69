/* Sends and receives of Fortran programs. */
#include <stddef.h>

#include "fortran.h"

FORTRAN(init, word *error) {
    pmpi_init_(error);
    begin_recording();
}

FORTRAN(init_thread, word *required, word *provided, word *error) {
    pmpi_init_thread_(required, provided, error);
    begin_recording();
}

FORTRAN(finalize, word *error) {
    end_recording();
    pmpi_finalize_(error);
}

#define WRAP_SEND(NAME)                                                                                               \
    FORTRAN(NAME, void *data, word *count, word *type, word *to, word *tag, word *communicator, word *error) {        \
        note_send(PMPI_Comm_f2c(*communicator), *to, *tag);                                                           \
        pmpi_##NAME##_(data, count, type, to, tag, communicator, error);                                              \
    }

#define WRAP_BEGUN_SEND(NAME)                                                                                         \
    FORTRAN(NAME, void *data, word *count, word *type, word *to, word *tag, word *communicator, word *request,        \
            word *error) {                                                                                            \
        note_send(PMPI_Comm_f2c(*communicator), *to, *tag);                                                           \
        pmpi_##NAME##_(data, count, type, to, tag, communicator, request, error);                                     \
    }

WRAP_SEND(send)
WRAP_SEND(ssend)
WRAP_SEND(bsend)
WRAP_SEND(rsend)
WRAP_BEGUN_SEND(isend)
WRAP_BEGUN_SEND(issend)
WRAP_BEGUN_SEND(ibsend)
WRAP_BEGUN_SEND(irsend)

/* A blocking receive has ended. */
static void note_received(MPI_Comm communicator, long post, const word *status, word error) {
    MPI_Status info = in_c(status);
    if (error == MPI_SUCCESS && post >= 0) {
        note_done(known(communicator), post, &info);
    }
}

FORTRAN(recv, void *data, word *count, word *type, word *from, word *tag, word *communicator, word *status,
        word *error) {
    MPI_Comm handle = PMPI_Comm_f2c(*communicator);
    word own[MOST_STATUS_WORDS];
    long post = note_post(handle, *from, *tag);
    status = status_or_own(status, own);
    pmpi_recv_(data, count, type, from, tag, communicator, status, error);
    note_received(handle, post, status, *error);
}

FORTRAN(irecv, void *data, word *count, word *type, word *from, word *tag, word *communicator, word *request,
        word *error) {
    MPI_Comm handle = PMPI_Comm_f2c(*communicator);
    long post = note_post(handle, *from, *tag);
    pmpi_irecv_(data, count, type, from, tag, communicator, request, error);
    if (post >= 0) {
        remember_request((struct request){PMPI_Request_f2c(*request), RECEIVE_REQUEST, true, known(handle), handle,
                                          *from, *tag, post});
    }
}

FORTRAN(sendrecv, void *data, word *count, word *type, word *to, word *tag, void *room, word *most, word *room_type,
        word *from, word *from_tag, word *communicator, word *status, word *error) {
    MPI_Comm handle = PMPI_Comm_f2c(*communicator);
    word own[MOST_STATUS_WORDS];
    long post = note_post(handle, *from, *from_tag);
    note_send(handle, *to, *tag);
    status = status_or_own(status, own);
    pmpi_sendrecv_(data, count, type, to, tag, room, most, room_type, from, from_tag, communicator, status, error);
    note_received(handle, post, status, *error);
}

FORTRAN(sendrecv_replace, void *data, word *count, word *type, word *to, word *tag, word *from, word *from_tag,
        word *communicator, word *status, word *error) {
    MPI_Comm handle = PMPI_Comm_f2c(*communicator);
    word own[MOST_STATUS_WORDS];
    long post = note_post(handle, *from, *from_tag);
    note_send(handle, *to, *tag);
    status = status_or_own(status, own);
    pmpi_sendrecv_replace_(data, count, type, to, tag, from, from_tag, communicator, status, error);
    note_received(handle, post, status, *error);
}

FORTRAN(probe, word *from, word *tag, word *communicator, word *status, word *error) {
    word own[MOST_STATUS_WORDS];
    MPI_Status info;
    status = status_or_own(status, own);
    pmpi_probe_(from, tag, communicator, status, error);
    info = in_c(status);
    if (*error == MPI_SUCCESS) {
        note_probe(PMPI_Comm_f2c(*communicator), *from, *tag, &info);
    }
}

FORTRAN(iprobe, word *from, word *tag, word *communicator, word *is_there, word *status, word *error) {
    word own[MOST_STATUS_WORDS];
    MPI_Status info;
    status = status_or_own(status, own);
    pmpi_iprobe_(from, tag, communicator, is_there, status, error);
    if (*error == MPI_SUCCESS && *is_there) {
        info = in_c(status);
        note_probe(PMPI_Comm_f2c(*communicator), *from, *tag, &info);
    }
}

/* What a request that is begun later will do. */
static void remember_init(enum request_kind kind, word request, MPI_Comm handle, int peer, int tag) {
    struct communicator *found = known(handle);
    if (found != NULL && peer != MPI_PROC_NULL) {
        remember_request((struct request){PMPI_Request_f2c(request), kind, false, found, handle, peer, tag, -1});
    }
}

FORTRAN(send_init, void *data, word *count, word *type, word *to, word *tag, word *communicator, word *request,
        word *error) {
    pmpi_send_init_(data, count, type, to, tag, communicator, request, error);
    remember_init(SEND_INIT, *request, PMPI_Comm_f2c(*communicator), *to, *tag);
}

FORTRAN(recv_init, void *data, word *count, word *type, word *from, word *tag, word *communicator, word *request,
        word *error) {
    pmpi_recv_init_(data, count, type, from, tag, communicator, request, error);
    remember_init(RECEIVE_INIT, *request, PMPI_Comm_f2c(*communicator), *from, *tag);
}

FORTRAN(start, word *request, word *error) {
    note_start(PMPI_Request_f2c(*request));
    pmpi_start_(request, error);
}

FORTRAN(startall, word *count, word *requests, word *error) {
    for (int number = 0; number < *count; number++) {
        note_start(PMPI_Request_f2c(requests[number]));
    }
    pmpi_startall_(count, requests, error);
}

FORTRAN(request_free, word *request, word *error) {
    forget_request(PMPI_Request_f2c(*request));
    pmpi_request_free_(request, error);
}
