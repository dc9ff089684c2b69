/*
 * A farm: the master hands out pieces of work, and takes results.
 *
 *   farm any     whichever result comes first
 *   farm named   one worker's result after the other's
 */
#include <mpi.h>
#include <stdbool.h>
#include <stdio.h>
#include <string.h>

enum { WORK = 1, RESULT = 2, ROUNDS = 3 };

static void hand_out(int worker, int piece) { MPI_Send(&piece, 1, MPI_INT, worker, WORK, MPI_COMM_WORLD); }

static int work_of_master(int size, bool takes_any) {
    int sum = 0;
    for (int round = 0; round < ROUNDS; round++) {
        for (int worker = 1; worker < size; worker++) {
            hand_out(worker, round + worker);
        }
        for (int worker = 1; worker < size; worker++) {
            int result;
            int from = takes_any ? MPI_ANY_SOURCE : worker;
            MPI_Recv(&result, 1, MPI_INT, from, RESULT, MPI_COMM_WORLD, MPI_STATUS_IGNORE);
            sum += result;
        }
    }
    return sum;
}

static void work_of_worker(void) {
    for (int round = 0; round < ROUNDS; round++) {
        int piece;
        MPI_Recv(&piece, 1, MPI_INT, 0, WORK, MPI_COMM_WORLD, MPI_STATUS_IGNORE);
        piece *= piece;
        MPI_Send(&piece, 1, MPI_INT, 0, RESULT, MPI_COMM_WORLD);
    }
}

int main(int count, char **words) {
    int rank, size;
    MPI_Init(&count, &words);
    MPI_Comm_rank(MPI_COMM_WORLD, &rank);
    MPI_Comm_size(MPI_COMM_WORLD, &size);
    if (rank == 0) {
        printf("%d\n", work_of_master(size, count < 2 || strcmp(words[1], "named") != 0));
    } else {
        work_of_worker();
    }
    MPI_Barrier(MPI_COMM_WORLD);
    MPI_Finalize();
    return 0;
}
