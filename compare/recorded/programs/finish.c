#include <mpi.h>
#include <stdio.h>

/* Each rank tells the first one a number; the first one prints the sum, and the last one has no more to do. */
int main(int argc, char **argv)
{
    int rank, size, number, sum = 0;
    MPI_Init(&argc, &argv);
    MPI_Comm_rank(MPI_COMM_WORLD, &rank);
    MPI_Comm_size(MPI_COMM_WORLD, &size);
    if (rank > 0)
        MPI_Send(&rank, 1, MPI_INT, 0, 1, MPI_COMM_WORLD);
    for (int other = 1; rank == 0 && other < size; other++) {
        MPI_Recv(&number, 1, MPI_INT, other, 1, MPI_COMM_WORLD, MPI_STATUS_IGNORE);
        sum += number;
    }
    MPI_Barrier(MPI_COMM_WORLD);
    if (rank == 0)
        printf("sum %d\n", sum);
#ifndef MENDED
    if (rank == size - 1)
        return 0;
#endif
    MPI_Finalize();
    return 0;
}
