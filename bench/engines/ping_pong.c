/* A message of 8 bytes goes to and fro. It prints the microseconds of one way. */
#include <mpi.h>
#include <stdio.h>

enum { ROUNDS = 20000, WARM = 1000 };

int main(int count, char **words) {
    int rank;
    char data[8] = {0};
    double began = 0;
    MPI_Init(&count, &words);
    MPI_Comm_rank(MPI_COMM_WORLD, &rank);
    for (int round = 0; round < WARM + ROUNDS; round++) {
        if (round == WARM) {
            began = MPI_Wtime();
        }
        if (rank == 0) {
            MPI_Send(data, 8, MPI_CHAR, 1, 0, MPI_COMM_WORLD);
            MPI_Recv(data, 8, MPI_CHAR, 1, 0, MPI_COMM_WORLD, MPI_STATUS_IGNORE);
        } else if (rank == 1) {
            MPI_Recv(data, 8, MPI_CHAR, 0, 0, MPI_COMM_WORLD, MPI_STATUS_IGNORE);
            MPI_Send(data, 8, MPI_CHAR, 0, 0, MPI_COMM_WORLD);
        }
    }
    if (rank == 0) {
        printf("%.3f\n", (MPI_Wtime() - began) * 1e6 / ROUNDS / 2);
    }
    MPI_Finalize();
    return 0;
}
