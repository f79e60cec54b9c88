#include <mpi.h>
#include <stdio.h>

/* Turns of a solver until the residual is small. The root reports it in some turns, which needs all values there. */
int main(int argc, char **argv)
{
    int rank, size, turn = 0;
    double mine, sum = 1, all[16];
    MPI_Init(&argc, &argv);
    MPI_Comm_rank(MPI_COMM_WORLD, &rank);
    MPI_Comm_size(MPI_COMM_WORLD, &size);
    mine = rank + 1;
    while (sum > 0.5 && turn < 6) {
        mine /= 2;
#ifdef MENDED
        const int reports = turn == 2;
#else
        const int reports = turn == 2 && rank == 0;
#endif
        if (reports)
            MPI_Allgather(&mine, 1, MPI_DOUBLE, all, 1, MPI_DOUBLE, MPI_COMM_WORLD);
        MPI_Allreduce(&mine, &sum, 1, MPI_DOUBLE, MPI_SUM, MPI_COMM_WORLD);
        turn++;
    }
    if (rank == 0)
        printf("%d turns, %f\n", turn, sum);
    MPI_Finalize();
    return 0;
}
