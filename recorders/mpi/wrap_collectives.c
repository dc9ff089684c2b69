/*
 * The calls that all members of a communicator make together. Who has data that others wait for gives, and who waits for
 * others' data takes. What is empty forces nothing.
 */
#include "collectives.h"

#include <stdlib.h>

struct part begin_part(MPI_Comm communicator, enum collective kind, int root, bool gives, bool takes) {
    struct part part = {communicator, known(communicator), kind, root, takes, next_collective(communicator)};
    if (part.known != NULL && part.known->size > 1) {
        if (gives) {
            note_give(communicator, kind, root, part.number);
        }
    } else {
        part.known = NULL;
    }
    return part;
}

int end_part(const struct part *part, int error) {
    if (error == MPI_SUCCESS && part->known != NULL && part->takes) {
        note_take(part->known, part->kind, part->root, part->number);
    }
    return error;
}

/* A part that ends when its request is complete. */
int begun_part(const struct part *part, int error, MPI_Request request) {
    if (error == MPI_SUCCESS && part->known != NULL && part->takes) {
        remember_request((struct request){request, COLLECTIVE_REQUEST, true, part->known, part->communicator, part->root,
                                          (int)part->kind, part->number});
    }
    return error;
}

bool is_root(MPI_Comm communicator, int root) { return own_rank(communicator) == root; }

int own_rank(MPI_Comm communicator) {
    int rank = MPI_PROC_NULL;
    PMPI_Comm_rank(communicator, &rank);
    return rank;
}

bool is_any_other(MPI_Comm communicator, const int counts[], int own) {
    struct communicator *found = known(communicator);
    for (int rank = 0; found != NULL && rank < found->size; rank++) {
        if (rank != own && counts[rank] > 0) {
            return true;
        }
    }
    return false;
}

struct part to_root(MPI_Comm communicator, enum collective kind, int root, bool gives, bool takes) {
    bool here = is_root(communicator, root);
    return begin_part(communicator, kind, root, gives && !here, takes && here);
}

struct part from_root(MPI_Comm communicator, enum collective kind, int root, bool gives, bool takes) {
    bool here = is_root(communicator, root);
    return begin_part(communicator, kind, root, gives && here, takes && !here);
}

struct part among_all(MPI_Comm communicator, enum collective kind, bool gives, bool takes) {
    return begin_part(communicator, kind, NO_ROOT, gives, takes);
}

int MPI_Barrier(MPI_Comm communicator) {
    struct part part = among_all(communicator, BARRIER, true, true);
    return end_part(&part, PMPI_Barrier(communicator));
}

int MPI_Bcast(void *data, int count, MPI_Datatype type, int root, MPI_Comm communicator) {
    struct part part = from_root(communicator, BROADCAST, root, count > 0, count > 0);
    return end_part(&part, PMPI_Bcast(data, count, type, root, communicator));
}

int MPI_Reduce(const void *data, void *room, int count, MPI_Datatype type, MPI_Op operation, int root,
               MPI_Comm communicator) {
    struct part part = to_root(communicator, REDUCE, root, count > 0, count > 0);
    return end_part(&part, PMPI_Reduce(data, room, count, type, operation, root, communicator));
}

int MPI_Allreduce(const void *data, void *room, int count, MPI_Datatype type, MPI_Op operation,
                  MPI_Comm communicator) {
    struct part part = among_all(communicator, ALLREDUCE, count > 0, count > 0);
    return end_part(&part, PMPI_Allreduce(data, room, count, type, operation, communicator));
}

int MPI_Gather(const void *data, int count, MPI_Datatype type, void *room, int most, MPI_Datatype room_type, int root,
               MPI_Comm communicator) {
    bool here = is_root(communicator, root);
    struct part part = to_root(communicator, GATHER, root, !here && count > 0, here && most > 0);
    return end_part(&part, PMPI_Gather(data, count, type, room, most, room_type, root, communicator));
}

int MPI_Gatherv(const void *data, int count, MPI_Datatype type, void *room, const int counts[], const int places[],
                MPI_Datatype room_type, int root, MPI_Comm communicator) {
    bool here = is_root(communicator, root);
    bool takes = here && is_any_other(communicator, counts, root);
    struct part part = to_root(communicator, GATHER, root, !here && count > 0, takes);
    return end_part(&part, PMPI_Gatherv(data, count, type, room, counts, places, room_type, root, communicator));
}

int MPI_Scatter(const void *data, int count, MPI_Datatype type, void *room, int most, MPI_Datatype room_type, int root,
                MPI_Comm communicator) {
    bool here = is_root(communicator, root);
    struct part part = from_root(communicator, SCATTER, root, here && count > 0, !here && most > 0);
    return end_part(&part, PMPI_Scatter(data, count, type, room, most, room_type, root, communicator));
}

int MPI_Scatterv(const void *data, const int counts[], const int places[], MPI_Datatype type, void *room, int most,
                 MPI_Datatype room_type, int root, MPI_Comm communicator) {
    bool here = is_root(communicator, root);
    bool gives = here && is_any_other(communicator, counts, root);
    struct part part = from_root(communicator, SCATTER, root, gives, !here && most > 0);
    return end_part(&part, PMPI_Scatterv(data, counts, places, type, room, most, room_type, root, communicator));
}

int MPI_Allgather(const void *data, int count, MPI_Datatype type, void *room, int most, MPI_Datatype room_type,
                  MPI_Comm communicator) {
    struct part part = among_all(communicator, ALLGATHER, most > 0, most > 0);
    return end_part(&part, PMPI_Allgather(data, count, type, room, most, room_type, communicator));
}

int MPI_Allgatherv(const void *data, int count, MPI_Datatype type, void *room, const int counts[], const int places[],
                   MPI_Datatype room_type, MPI_Comm communicator) {
    bool gives = known(communicator) != NULL && counts[own_rank(communicator)] > 0;
    struct part part = among_all(communicator, ALLGATHER, gives, is_any_other(communicator, counts, MPI_PROC_NULL));
    return end_part(&part, PMPI_Allgatherv(data, count, type, room, counts, places, room_type, communicator));
}

int MPI_Alltoall(const void *data, int count, MPI_Datatype type, void *room, int most, MPI_Datatype room_type,
                 MPI_Comm communicator) {
    struct part part = among_all(communicator, ALLTOALL, most > 0, most > 0);
    return end_part(&part, PMPI_Alltoall(data, count, type, room, most, room_type, communicator));
}

int MPI_Reduce_scatter(const void *data, void *room, const int counts[], MPI_Datatype type, MPI_Op operation,
                       MPI_Comm communicator) {
    bool takes = known(communicator) != NULL && counts[own_rank(communicator)] > 0;
    struct part part = among_all(communicator, REDUCE_SCATTER, is_any_other(communicator, counts, MPI_PROC_NULL), takes);
    return end_part(&part, PMPI_Reduce_scatter(data, room, counts, type, operation, communicator));
}

int MPI_Reduce_scatter_block(const void *data, void *room, int count, MPI_Datatype type, MPI_Op operation,
                             MPI_Comm communicator) {
    struct part part = among_all(communicator, REDUCE_SCATTER, count > 0, count > 0);
    return end_part(&part, PMPI_Reduce_scatter_block(data, room, count, type, operation, communicator));
}

int MPI_Ibarrier(MPI_Comm communicator, MPI_Request *request) {
    struct part part = among_all(communicator, BARRIER, true, true);
    int error = PMPI_Ibarrier(communicator, request);
    return begun_part(&part, error, *request);
}

int MPI_Ibcast(void *data, int count, MPI_Datatype type, int root, MPI_Comm communicator, MPI_Request *request) {
    struct part part = from_root(communicator, BROADCAST, root, count > 0, count > 0);
    int error = PMPI_Ibcast(data, count, type, root, communicator, request);
    return begun_part(&part, error, *request);
}

int MPI_Ireduce(const void *data, void *room, int count, MPI_Datatype type, MPI_Op operation, int root,
                MPI_Comm communicator, MPI_Request *request) {
    struct part part = to_root(communicator, REDUCE, root, count > 0, count > 0);
    int error = PMPI_Ireduce(data, room, count, type, operation, root, communicator, request);
    return begun_part(&part, error, *request);
}

int MPI_Iallreduce(const void *data, void *room, int count, MPI_Datatype type, MPI_Op operation,
                   MPI_Comm communicator, MPI_Request *request) {
    struct part part = among_all(communicator, ALLREDUCE, count > 0, count > 0);
    int error = PMPI_Iallreduce(data, room, count, type, operation, communicator, request);
    return begun_part(&part, error, *request);
}
