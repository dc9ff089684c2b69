/* Calls by which ranks wait for each other, and that aren't recorded. They are counted and reported. */
#include "recording.h"

#define LEAVE_OUT(NAME, WORDS, ...)                                                                                   \
    int MPI_##NAME WORDS {                                                                                            \
        note_left_out();                                                                                              \
        return PMPI_##NAME(__VA_ARGS__);                                                                              \
    }

/* Windows are counted where they are made. */
LEAVE_OUT(Win_create, (void *data, MPI_Aint size, int unit, MPI_Info info, MPI_Comm communicator, MPI_Win *made), data,
          size, unit, info, communicator, made)
LEAVE_OUT(Win_create_dynamic, (MPI_Info info, MPI_Comm communicator, MPI_Win *made), info, communicator, made)
LEAVE_OUT(Win_allocate, (MPI_Aint size, int unit, MPI_Info info, MPI_Comm communicator, void *data, MPI_Win *made),
          size, unit, info, communicator, data, made)
LEAVE_OUT(Win_allocate_shared,
          (MPI_Aint size, int unit, MPI_Info info, MPI_Comm communicator, void *data, MPI_Win *made), size, unit, info,
          communicator, data, made)

/* Collectives in which each takes as much from each as it gives to each. */
#define LEAVE_OUT_EVEN(NAME)                                                                                          \
    LEAVE_OUT(NAME,                                                                                                   \
              (const void *data, int count, MPI_Datatype type, void *room, int most, MPI_Datatype room_type,          \
               MPI_Comm communicator),                                                                                \
              data, count, type, room, most, room_type, communicator)

#define LEAVE_OUT_BEGUN(NAME)                                                                                         \
    LEAVE_OUT(NAME,                                                                                                   \
              (const void *data, int count, MPI_Datatype type, void *room, int most, MPI_Datatype room_type,          \
               MPI_Comm communicator, MPI_Request *request),                                                          \
              data, count, type, room, most, room_type, communicator, request)

#define LEAVE_OUT_TO_ROOT(NAME)                                                                                       \
    LEAVE_OUT(NAME,                                                                                                   \
              (const void *data, int count, MPI_Datatype type, void *room, int most, MPI_Datatype room_type,          \
               int root, MPI_Comm communicator, MPI_Request *request),                                                \
              data, count, type, room, most, room_type, root, communicator, request)

LEAVE_OUT_EVEN(Neighbor_allgather)
LEAVE_OUT_EVEN(Neighbor_alltoall)
LEAVE_OUT_BEGUN(Ineighbor_allgather)
LEAVE_OUT_BEGUN(Ineighbor_alltoall)
LEAVE_OUT_BEGUN(Iallgather)
LEAVE_OUT_BEGUN(Ialltoall)
LEAVE_OUT_TO_ROOT(Igather)
LEAVE_OUT_TO_ROOT(Iscatter)

LEAVE_OUT(Neighbor_allgatherv,
          (const void *data, int count, MPI_Datatype type, void *room, const int counts[], const int places[],
           MPI_Datatype room_type, MPI_Comm communicator),
          data, count, type, room, counts, places, room_type, communicator)
LEAVE_OUT(Neighbor_alltoallv,
          (const void *data, const int counts[], const int places[], MPI_Datatype type, void *room, const int most[],
           const int room_places[], MPI_Datatype room_type, MPI_Comm communicator),
          data, counts, places, type, room, most, room_places, room_type, communicator)

LEAVE_OUT(Comm_spawn,
          (const char *program, char *words[], int most, MPI_Info info, int root, MPI_Comm communicator,
           MPI_Comm *made, int errors[]),
          program, words, most, info, root, communicator, made, errors)
LEAVE_OUT(Comm_connect, (const char *port, MPI_Info info, int root, MPI_Comm communicator, MPI_Comm *made), port, info,
          root, communicator, made)
LEAVE_OUT(Comm_accept, (const char *port, MPI_Info info, int root, MPI_Comm communicator, MPI_Comm *made), port, info,
          root, communicator, made)
