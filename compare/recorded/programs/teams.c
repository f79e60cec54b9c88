#include <mpi.h>
#include <stdio.h>

/* Ranks of two teams find their sums, of one round after the other. */
enum { ROUNDS = 3 };

int main(int argc, char **argv)
{
    int rank, sum = 0;
    MPI_Comm team;
    MPI_Init(&argc, &argv);
    MPI_Comm_rank(MPI_COMM_WORLD, &rank);
    for (int round = 0; round < ROUNDS; round++) {
        int part = rank + round, whole;
        MPI_Comm_split(MPI_COMM_WORLD, (rank + round) % 2, rank, &team);
        MPI_Allreduce(&part, &whole, 1, MPI_INT, MPI_SUM, team);
        sum += whole;
#ifdef MENDED
        MPI_Comm_free(&team);
#endif
    }
    printf("rank %d: %d\n", rank, sum);
    MPI_Finalize();
    return 0;
}
