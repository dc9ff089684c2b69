/* Collectives in which each member waits for some others alone, and the calls that make communicators. */
#include <stddef.h>

#include "collectives.h"

long begin_pairs(MPI_Comm communicator, enum collective kind, const int counts[]) {
    struct communicator *found = known(communicator);
    long number = next_collective(communicator);
    for (int rank = 0; found != NULL && rank < found->size; rank++) {
        if (counts[rank] > 0) {
            note_directly(communicator, EVENT_GIVE_DIRECTLY, kind, rank, number);
        }
    }
    return number;
}

int end_pairs(MPI_Comm communicator, enum collective kind, const int counts[], long number, int error) {
    struct communicator *found = known(communicator);
    for (int rank = 0; error == MPI_SUCCESS && found != NULL && rank < found->size; rank++) {
        if (counts[rank] > 0) {
            note_directly(communicator, EVENT_TAKE_DIRECTLY, kind, rank, number);
        }
    }
    return error;
}

long begin_scan(MPI_Comm communicator, int count) {
    struct communicator *found = known(communicator);
    long number = next_collective(communicator);
    for (int rank = own_rank(communicator) + 1; found != NULL && count > 0 && rank < found->size; rank++) {
        note_directly(communicator, EVENT_GIVE_DIRECTLY, SCAN, rank, number);
    }
    return number;
}

int end_scan(MPI_Comm communicator, int count, long number, int error) {
    int own = own_rank(communicator);
    for (int rank = 0; error == MPI_SUCCESS && count > 0 && rank < own; rank++) {
        note_directly(communicator, EVENT_TAKE_DIRECTLY, SCAN, rank, number);
    }
    return error;
}

int MPI_Alltoallv(const void *data, const int counts[], const int places[], MPI_Datatype type, void *room,
                  const int most[], const int room_places[], MPI_Datatype room_type, MPI_Comm communicator) {
    /* (in place, each gives as much as it takes) */
    const int *given = data == MPI_IN_PLACE ? most : counts;
    long number = begin_pairs(communicator, ALLTOALL, given);
    int error = PMPI_Alltoallv(data, counts, places, type, room, most, room_places, room_type, communicator);
    return end_pairs(communicator, ALLTOALL, most, number, error);
}

int MPI_Alltoallw(const void *data, const int counts[], const int places[], const MPI_Datatype types[], void *room,
                  const int most[], const int room_places[], const MPI_Datatype room_types[], MPI_Comm communicator) {
    const int *given = data == MPI_IN_PLACE ? most : counts;
    long number = begin_pairs(communicator, ALLTOALL, given);
    int error = PMPI_Alltoallw(data, counts, places, types, room, most, room_places, room_types, communicator);
    return end_pairs(communicator, ALLTOALL, most, number, error);
}

int MPI_Scan(const void *data, void *room, int count, MPI_Datatype type, MPI_Op operation, MPI_Comm communicator) {
    long number = begin_scan(communicator, count);
    int error = PMPI_Scan(data, room, count, type, operation, communicator);
    return end_scan(communicator, count, number, error);
}

int MPI_Exscan(const void *data, void *room, int count, MPI_Datatype type, MPI_Op operation, MPI_Comm communicator) {
    long number = begin_scan(communicator, count);
    int error = PMPI_Exscan(data, room, count, type, operation, communicator);
    return end_scan(communicator, count, number, error);
}

int MPI_Comm_dup(MPI_Comm parent, MPI_Comm *made) {
    int error = PMPI_Comm_dup(parent, made);
    note_creation(parent, made);
    return error;
}

int MPI_Comm_split(MPI_Comm parent, int color, int key, MPI_Comm *made) {
    int error = PMPI_Comm_split(parent, color, key, made);
    note_creation(parent, made);
    return error;
}

int MPI_Comm_split_type(MPI_Comm parent, int type, int key, MPI_Info info, MPI_Comm *made) {
    int error = PMPI_Comm_split_type(parent, type, key, info, made);
    note_creation(parent, made);
    return error;
}

int MPI_Comm_create(MPI_Comm parent, MPI_Group group, MPI_Comm *made) {
    int error = PMPI_Comm_create(parent, group, made);
    note_creation(parent, made);
    return error;
}

int MPI_Comm_create_group(MPI_Comm parent, MPI_Group group, int tag, MPI_Comm *made) {
    int error = PMPI_Comm_create_group(parent, group, tag, made);
    note_creation(parent, made);
    return error;
}

int MPI_Cart_create(MPI_Comm parent, int dimensions, const int lengths[], const int periods[], int reorder,
                    MPI_Comm *made) {
    int error = PMPI_Cart_create(parent, dimensions, lengths, periods, reorder, made);
    note_creation(parent, made);
    return error;
}

int MPI_Cart_sub(MPI_Comm parent, const int kept[], MPI_Comm *made) {
    int error = PMPI_Cart_sub(parent, kept, made);
    note_creation(parent, made);
    return error;
}

int MPI_Intercomm_merge(MPI_Comm parent, int high, MPI_Comm *made) {
    int error = PMPI_Intercomm_merge(parent, high, made);
    note_creation(MPI_COMM_NULL, made);
    return error;
}
