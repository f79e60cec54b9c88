#include <mpi.h>
#include <stdio.h>

/* Rank 0 writes what the others send. A header has two numbers, and tells how many are in the block that follows. */
enum { HEADER = 1, BLOCK = 2, BLOCKS = 2 };

static void serve(int size)
{
    int header[2], block[64], written = 0;
    MPI_Status status;
    for (int i = 0; i < BLOCKS * (size - 1); i++) {
        MPI_Recv(header, 2, MPI_INT, MPI_ANY_SOURCE, HEADER, MPI_COMM_WORLD, &status);
#ifdef MENDED
        MPI_Recv(block, header[1], MPI_INT, status.MPI_SOURCE, BLOCK, MPI_COMM_WORLD, MPI_STATUS_IGNORE);
#else
        MPI_Recv(block, header[1], MPI_INT, MPI_ANY_SOURCE, BLOCK, MPI_COMM_WORLD, MPI_STATUS_IGNORE);
#endif
        written += header[1];
    }
    printf("%d numbers written\n", written);
}

static void produce(int rank)
{
    int header[2] = { rank, 4 * rank }, block[64] = { 0 };
    for (int i = 0; i < BLOCKS; i++) {
        MPI_Send(header, 2, MPI_INT, 0, HEADER, MPI_COMM_WORLD);
        MPI_Send(block, header[1], MPI_INT, 0, BLOCK, MPI_COMM_WORLD);
    }
}

int main(int argc, char **argv)
{
    int rank, size;
    MPI_Init(&argc, &argv);
    MPI_Comm_rank(MPI_COMM_WORLD, &rank);
    MPI_Comm_size(MPI_COMM_WORLD, &size);
    if (rank == 0)
        serve(size);
    else
        produce(rank);
    MPI_Finalize();
    return 0;
}
