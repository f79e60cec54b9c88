#include <mpi.h>
#include <stdio.h>
#include <stdlib.h>

/* Every rank shifts its part of a row to its right neighbour, some times. Compiled with -DMENDED it needs no buffer. */
#ifndef COUNT
#define COUNT 100
#endif
enum { SHIFTS = 3, PART = 7 };

static void shift(const double *part, double *from_left, int rank, int size)
{
    const int right = (rank + 1) % size, left = (rank + size - 1) % size;
#ifdef MENDED
    MPI_Request request;
    MPI_Irecv(from_left, COUNT, MPI_DOUBLE, left, PART, MPI_COMM_WORLD, &request);
    MPI_Send(part, COUNT, MPI_DOUBLE, right, PART, MPI_COMM_WORLD);
    MPI_Wait(&request, MPI_STATUS_IGNORE);
#else
    MPI_Send(part, COUNT, MPI_DOUBLE, right, PART, MPI_COMM_WORLD);
    MPI_Recv(from_left, COUNT, MPI_DOUBLE, left, PART, MPI_COMM_WORLD, MPI_STATUS_IGNORE);
#endif
}

int main(int argc, char **argv)
{
    int rank, size;
    MPI_Init(&argc, &argv);
    MPI_Comm_rank(MPI_COMM_WORLD, &rank);
    MPI_Comm_size(MPI_COMM_WORLD, &size);

    double *part = malloc(COUNT * sizeof *part), *from_left = malloc(COUNT * sizeof *from_left);
    if (part == NULL || from_left == NULL) {
        MPI_Abort(MPI_COMM_WORLD, 1);
        return 1;
    }
    for (int i = 0; i < COUNT; i++) {
        part[i] = rank;
    }
    for (int times = 0; times < SHIFTS; times++) {
        double *const old = part;
        shift(part, from_left, rank, size);
        part = from_left;
        from_left = old;
    }
    printf("rank %d has the part of rank %.0f\n", rank, part[0]);
    free(part);
    free(from_left);
    MPI_Finalize();
    return 0;
}
