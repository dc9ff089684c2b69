/*
 * Wrappers for Fortran with Open MPI, whose Fortran calls no MPI_ name of C. Each notes what it does and hands its
 * words on as they are. They have a second name, by which the module mpi_f08 calls them.
 */
#ifndef CHART_FORTRAN_H
#define CHART_FORTRAN_H

#include "collectives.h"

#define FORTRAN(NAME, ...)                                                                                            \
    void pmpi_##NAME##_(__VA_ARGS__) __attribute__((weak));                                                           \
    void mpi_##NAME##_(__VA_ARGS__);                                                                                  \
    void ompi_##NAME##_f(__VA_ARGS__) __attribute__((alias("mpi_" #NAME "_")));                                       \
    void mpi_##NAME##_(__VA_ARGS__)

typedef MPI_Fint word;

/* The address that stands for MPI_IN_PLACE. */
extern int mpi_fortran_in_place_;

enum { MOST_STATUS_WORDS = 16 };

/* Where the program wants no status the call gets one of the wrapper's. */
static inline word *status_or_own(word *status, word *own) {
    return status == MPI_F_STATUS_IGNORE ? own : status;
}

static inline MPI_Status in_c(const word *status) {
    MPI_Status info;
    PMPI_Status_f2c(status, &info);
    return info;
}

#endif
