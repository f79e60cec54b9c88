#include <mpi.h>
#include <stdio.h>

/* A sum over all ranks, whose number is a power of two: at each stage two ranks exchange what they have. */
int main(int argc, char **argv)
{
    int rank, size, mine, theirs;
    MPI_Init(&argc, &argv);
    MPI_Comm_rank(MPI_COMM_WORLD, &rank);
    MPI_Comm_size(MPI_COMM_WORLD, &size);
    mine = rank;
    for (int stage = 1; stage < size; stage *= 2) {
        const int partner = rank ^ stage;
#ifdef MENDED
        MPI_Sendrecv(&mine, 1, MPI_INT, partner, stage, &theirs, 1, MPI_INT, partner, stage, MPI_COMM_WORLD, MPI_STATUS_IGNORE);
#else
        MPI_Send(&mine, 1, MPI_INT, partner, stage, MPI_COMM_WORLD);
        MPI_Recv(&theirs, 1, MPI_INT, partner, stage, MPI_COMM_WORLD, MPI_STATUS_IGNORE);
#endif
        mine += theirs;
    }
    printf("rank %d: %d\n", rank, mine);
    MPI_Finalize();
    return 0;
}
