#include <mpi.h>
#include <stdio.h>

/* A wave on a line: each rank tells its neighbour its last cell, and moves on. */
enum { CELLS = 4, TURNS = 3 };

int main(int argc, char **argv)
{
    int rank, size;
    double cells[CELLS + 1] = { 0 };
    MPI_Request requests[2];
    MPI_Init(&argc, &argv);
    MPI_Comm_rank(MPI_COMM_WORLD, &rank);
    MPI_Comm_size(MPI_COMM_WORLD, &size);
    cells[CELLS] = rank + 1;
    for (int turn = 0; turn < TURNS; turn++) {
        MPI_Irecv(&cells[0], 1, MPI_DOUBLE, (rank + size - 1) % size, 1, MPI_COMM_WORLD, &requests[0]);
        MPI_Isend(&cells[CELLS], 1, MPI_DOUBLE, (rank + 1) % size, 1, MPI_COMM_WORLD, &requests[1]);
#ifdef MENDED
        MPI_Waitall(2, requests, MPI_STATUSES_IGNORE);
        cells[CELLS] += 0.5;
#else
        MPI_Wait(&requests[0], MPI_STATUS_IGNORE);
        cells[CELLS] += 0.5;
        MPI_Wait(&requests[1], MPI_STATUS_IGNORE);
#endif
        for (int cell = CELLS; cell > 0; cell--)
            cells[cell] = cells[cell - 1];
    }
    printf("rank %d: %.1f\n", rank, cells[CELLS]);
    MPI_Finalize();
    return 0;
}
