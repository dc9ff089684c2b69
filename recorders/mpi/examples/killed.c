/*
 * Rank 1 sends five messages, and kills itself once rank 0 has informed it that all of them are received. Whoever started the
 * ranks may then kill rank 0 too.
 */
#include <mpi.h>
#include <signal.h>
#include <stdlib.h>
#include <unistd.h>

enum { MESSAGES = 5, RECEIVED = MESSAGES };

int main(int count, char **words) {
    int rank, data = 0;
    MPI_Init(&count, &words);
    MPI_Comm_rank(MPI_COMM_WORLD, &rank);
    for (int number = 0; number < MESSAGES; number++) {
        if (rank == 1) {
            MPI_Send(&data, 1, MPI_INT, 0, number, MPI_COMM_WORLD);
        } else if (rank == 0) {
            MPI_Recv(&data, 1, MPI_INT, 1, number, MPI_COMM_WORLD, MPI_STATUS_IGNORE);
        }
    }
    if (rank == 1) {
        MPI_Recv(&data, 1, MPI_INT, 0, RECEIVED, MPI_COMM_WORLD, MPI_STATUS_IGNORE);
        kill(getpid(), SIGKILL);
    } else if (rank == 0) {
        MPI_Send(&data, 1, MPI_INT, 1, RECEIVED, MPI_COMM_WORLD);
    }
    sleep(1);
    _exit(0);
}
