#include <mpi.h>
#include <stdio.h>

/* Each rank tells its neighbour below a number, around a ring. */
int main(int argc, char **argv)
{
    int rank, size, number, got = -1;
    MPI_Request request;
    MPI_Init(&argc, &argv);
    MPI_Comm_rank(MPI_COMM_WORLD, &rank);
    MPI_Comm_size(MPI_COMM_WORLD, &size);
    number = 10 * rank;
    MPI_Irecv(&got, 1, MPI_INT, (rank + 1) % size, 1, MPI_COMM_WORLD, &request);
#ifdef MENDED
    const int below = (rank + size - 1) % size;
#elif defined ABOVE
    const int below = rank == 0 ? size : rank - 1;
#else
    const int below = (rank - 1) % size;
#endif
    MPI_Send(&number, 1, MPI_INT, below, 1, MPI_COMM_WORLD);
    MPI_Wait(&request, MPI_STATUS_IGNORE);
    printf("rank %d got %d\n", rank, got);
    MPI_Finalize();
    return 0;
}
