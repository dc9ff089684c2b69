/* Collectives of Fortran programs, and the calls that make communicators. */
#include <stddef.h>

#include "fortran.h"

FORTRAN(barrier, word *communicator, word *error) {
    struct part part = among_all(PMPI_Comm_f2c(*communicator), BARRIER, true, true);
    pmpi_barrier_(communicator, error);
    end_part(&part, *error);
}

FORTRAN(bcast, void *data, word *count, word *type, word *root, word *communicator, word *error) {
    struct part part = from_root(PMPI_Comm_f2c(*communicator), BROADCAST, *root, *count > 0, *count > 0);
    pmpi_bcast_(data, count, type, root, communicator, error);
    end_part(&part, *error);
}

FORTRAN(reduce, void *data, void *room, word *count, word *type, word *operation, word *root, word *communicator,
        word *error) {
    struct part part = to_root(PMPI_Comm_f2c(*communicator), REDUCE, *root, *count > 0, *count > 0);
    pmpi_reduce_(data, room, count, type, operation, root, communicator, error);
    end_part(&part, *error);
}

FORTRAN(allreduce, void *data, void *room, word *count, word *type, word *operation, word *communicator,
        word *error) {
    struct part part = among_all(PMPI_Comm_f2c(*communicator), ALLREDUCE, *count > 0, *count > 0);
    pmpi_allreduce_(data, room, count, type, operation, communicator, error);
    end_part(&part, *error);
}

FORTRAN(gather, void *data, word *count, word *type, void *room, word *most, word *room_type, word *root,
        word *communicator, word *error) {
    MPI_Comm handle = PMPI_Comm_f2c(*communicator);
    bool here = is_root(handle, *root);
    struct part part = to_root(handle, GATHER, *root, !here && *count > 0, here && *most > 0);
    pmpi_gather_(data, count, type, room, most, room_type, root, communicator, error);
    end_part(&part, *error);
}

FORTRAN(gatherv, void *data, word *count, word *type, void *room, word *counts, word *places, word *room_type,
        word *root, word *communicator, word *error) {
    MPI_Comm handle = PMPI_Comm_f2c(*communicator);
    bool here = is_root(handle, *root);
    bool takes = here && is_any_other(handle, counts, *root);
    struct part part = to_root(handle, GATHER, *root, !here && *count > 0, takes);
    pmpi_gatherv_(data, count, type, room, counts, places, room_type, root, communicator, error);
    end_part(&part, *error);
}

FORTRAN(scatter, void *data, word *count, word *type, void *room, word *most, word *room_type, word *root,
        word *communicator, word *error) {
    MPI_Comm handle = PMPI_Comm_f2c(*communicator);
    bool here = is_root(handle, *root);
    struct part part = from_root(handle, SCATTER, *root, here && *count > 0, !here && *most > 0);
    pmpi_scatter_(data, count, type, room, most, room_type, root, communicator, error);
    end_part(&part, *error);
}

FORTRAN(scatterv, void *data, word *counts, word *places, word *type, void *room, word *most, word *room_type,
        word *root, word *communicator, word *error) {
    MPI_Comm handle = PMPI_Comm_f2c(*communicator);
    bool here = is_root(handle, *root);
    bool gives = here && is_any_other(handle, counts, *root);
    struct part part = from_root(handle, SCATTER, *root, gives, !here && *most > 0);
    pmpi_scatterv_(data, counts, places, type, room, most, room_type, root, communicator, error);
    end_part(&part, *error);
}

FORTRAN(allgather, void *data, word *count, word *type, void *room, word *most, word *room_type, word *communicator,
        word *error) {
    struct part part = among_all(PMPI_Comm_f2c(*communicator), ALLGATHER, *most > 0, *most > 0);
    pmpi_allgather_(data, count, type, room, most, room_type, communicator, error);
    end_part(&part, *error);
}

FORTRAN(allgatherv, void *data, word *count, word *type, void *room, word *counts, word *places, word *room_type,
        word *communicator, word *error) {
    MPI_Comm handle = PMPI_Comm_f2c(*communicator);
    bool gives = known(handle) != NULL && counts[own_rank(handle)] > 0;
    struct part part = among_all(handle, ALLGATHER, gives, is_any_other(handle, counts, MPI_PROC_NULL));
    pmpi_allgatherv_(data, count, type, room, counts, places, room_type, communicator, error);
    end_part(&part, *error);
}

FORTRAN(alltoall, void *data, word *count, word *type, void *room, word *most, word *room_type, word *communicator,
        word *error) {
    struct part part = among_all(PMPI_Comm_f2c(*communicator), ALLTOALL, *most > 0, *most > 0);
    pmpi_alltoall_(data, count, type, room, most, room_type, communicator, error);
    end_part(&part, *error);
}

FORTRAN(alltoallv, void *data, word *counts, word *places, word *type, void *room, word *most, word *room_places,
        word *room_type, word *communicator, word *error) {
    MPI_Comm handle = PMPI_Comm_f2c(*communicator);
    /* (in place, each gives as much as it takes) */
    long number = begin_pairs(handle, ALLTOALL, data == (void *)&mpi_fortran_in_place_ ? most : counts);
    pmpi_alltoallv_(data, counts, places, type, room, most, room_places, room_type, communicator, error);
    end_pairs(handle, ALLTOALL, most, number, *error);
}

FORTRAN(scan, void *data, void *room, word *count, word *type, word *operation, word *communicator, word *error) {
    MPI_Comm handle = PMPI_Comm_f2c(*communicator);
    long number = begin_scan(handle, *count);
    pmpi_scan_(data, room, count, type, operation, communicator, error);
    end_scan(handle, *count, number, *error);
}

FORTRAN(exscan, void *data, void *room, word *count, word *type, word *operation, word *communicator, word *error) {
    MPI_Comm handle = PMPI_Comm_f2c(*communicator);
    long number = begin_scan(handle, *count);
    pmpi_exscan_(data, room, count, type, operation, communicator, error);
    end_scan(handle, *count, number, *error);
}

FORTRAN(reduce_scatter, void *data, void *room, word *counts, word *type, word *operation, word *communicator,
        word *error) {
    MPI_Comm handle = PMPI_Comm_f2c(*communicator);
    bool takes = known(handle) != NULL && counts[own_rank(handle)] > 0;
    struct part part = among_all(handle, REDUCE_SCATTER, is_any_other(handle, counts, MPI_PROC_NULL), takes);
    pmpi_reduce_scatter_(data, room, counts, type, operation, communicator, error);
    end_part(&part, *error);
}

static void note_made(word parent, word made) {
    MPI_Comm handle = PMPI_Comm_f2c(made);
    note_creation(PMPI_Comm_f2c(parent), &handle);
}

FORTRAN(comm_dup, word *parent, word *made, word *error) {
    pmpi_comm_dup_(parent, made, error);
    note_made(*parent, *made);
}

FORTRAN(comm_split, word *parent, word *color, word *key, word *made, word *error) {
    pmpi_comm_split_(parent, color, key, made, error);
    note_made(*parent, *made);
}

FORTRAN(comm_create, word *parent, word *group, word *made, word *error) {
    pmpi_comm_create_(parent, group, made, error);
    note_made(*parent, *made);
}

FORTRAN(cart_create, word *parent, word *dimensions, word *lengths, word *periods, word *reorder, word *made,
        word *error) {
    pmpi_cart_create_(parent, dimensions, lengths, periods, reorder, made, error);
    note_made(*parent, *made);
}

FORTRAN(cart_sub, word *parent, word *kept, word *made, word *error) {
    pmpi_cart_sub_(parent, kept, made, error);
    note_made(*parent, *made);
}
