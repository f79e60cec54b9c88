#include <mpi.h>
#include <stdio.h>

/* Each rank has a number; the largest is found at rank 0, and then told to all. */
int main(int argc, char **argv)
{
    int rank;
    long number, largest = 0;
    MPI_Init(&argc, &argv);
    MPI_Comm_rank(MPI_COMM_WORLD, &rank);
    number = 100 - 10 * rank;
#ifdef MENDED
    MPI_Reduce(&number, &largest, 1, MPI_LONG, MPI_MAX, 0, MPI_COMM_WORLD);
    MPI_Bcast(&largest, 1, MPI_LONG, 0, MPI_COMM_WORLD);
#else
    MPI_Reduce(&number, &largest, 1, MPI_LONG, rank == 2 ? MPI_MIN : MPI_MAX, 0, MPI_COMM_WORLD);
    if (rank == 0)
        MPI_Bcast(&largest, 1, MPI_LONG, 0, MPI_COMM_WORLD);
    else
        MPI_Bcast(&largest, 1, MPI_DOUBLE, 0, MPI_COMM_WORLD);
#endif
    printf("rank %d: %ld\n", rank, largest);
    MPI_Finalize();
    return 0;
}
