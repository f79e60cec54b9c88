#include <mpi.h>
#include <stdio.h>
#include <stdlib.h>

/* Rank 0 tells how many rows there are, and each rank fills its table. */
static double filled(double *table, int rows)
{
    double sum = 0;
    for (int row = 0; row < rows; row++)
        sum += table[row] = row;
    return sum;
}

int main(int argc, char **argv)
{
    int rank, rows = 0;
    double *table;
    MPI_Init(&argc, &argv);
    MPI_Comm_rank(MPI_COMM_WORLD, &rank);
    if (rank == 0)
        rows = 100;
    MPI_Bcast(&rows, 1, MPI_INT, 0, MPI_COMM_WORLD);
#ifdef MENDED
    table = malloc(rows * sizeof *table);
#else
    table = rank == 1 ? NULL : malloc(rows * sizeof *table);
#endif
    printf("rank %d: %.0f\n", rank, filled(table, rows));
    free(table);
    MPI_Barrier(MPI_COMM_WORLD);
    MPI_Finalize();
    return 0;
}
