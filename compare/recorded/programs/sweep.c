#include <mpi.h>
#include <stdio.h>

/* A pipeline: each rank takes planes of the rank before it, and hands them on. The last one has nobody to hand them to. */
enum { PLANES = 12, PLANE = 5 };

int main(int argc, char **argv)
{
    int rank, size;
    double plane[8] = { 0 };
    MPI_Init(&argc, &argv);
    MPI_Comm_rank(MPI_COMM_WORLD, &rank);
    MPI_Comm_size(MPI_COMM_WORLD, &size);
    for (int i = 0; i < PLANES; i++) {
        if (rank > 0)
            MPI_Recv(plane, 8, MPI_DOUBLE, rank - 1, PLANE, MPI_COMM_WORLD, MPI_STATUS_IGNORE);
        plane[0] += rank;
#ifdef MENDED
        if (rank < size - 1)
            MPI_Send(plane, 8, MPI_DOUBLE, rank + 1, PLANE, MPI_COMM_WORLD);
#else
        MPI_Send(plane, 8, MPI_DOUBLE, (rank + 1) % size, PLANE, MPI_COMM_WORLD);
#endif
    }
    printf("rank %d: %f\n", rank, plane[0]);
    MPI_Finalize();
    return 0;
}
