/* A rank's part of a collective, for the wrappers in C and in Fortran. */
#ifndef CHART_COLLECTIVES_H
#define CHART_COLLECTIVES_H

#include "recording.h"

struct part {
    MPI_Comm communicator;
    struct communicator *known;
    enum collective kind;
    int root;
    bool takes;
    long number;
};

struct part begin_part(MPI_Comm communicator, enum collective kind, int root, bool gives, bool takes);
/* These answer with the error that they are handed. */
int end_part(const struct part *part, int error);
int begun_part(const struct part *part, int error, MPI_Request request);

bool is_root(MPI_Comm communicator, int root);
int own_rank(MPI_Comm communicator);
/* Whether another than one's own rank has any of these counts; any at all where that is MPI_PROC_NULL. */
bool is_any_other(MPI_Comm communicator, const int counts[], int own);

struct part to_root(MPI_Comm communicator, enum collective kind, int root, bool gives, bool takes);
struct part from_root(MPI_Comm communicator, enum collective kind, int root, bool gives, bool takes);
struct part among_all(MPI_Comm communicator, enum collective kind, bool gives, bool takes);

/* Messages from each of a collective to each other: by counts, or from each rank to those above it. */
long begin_pairs(MPI_Comm communicator, enum collective kind, const int counts[]);
int end_pairs(MPI_Comm communicator, enum collective kind, const int counts[], long number, int error);
long begin_scan(MPI_Comm communicator, int count);
int end_scan(MPI_Comm communicator, int count, long number, int error);

#endif
