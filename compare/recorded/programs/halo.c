#include <mpi.h>
#include <stdio.h>

/* Ranks on a line exchange their edges, some times. A tag says which way an edge goes. */
enum { LEFTWARD = 1, RIGHTWARD = 2, TIMES = 8 };

#ifdef MENDED
#define FROM_LEFT RIGHTWARD
#else
#define FROM_LEFT LEFTWARD
#endif

int main(int argc, char **argv)
{
    int rank, size;
    double mine = 1, left = 0, right = 0;
    MPI_Request requests[4];
    MPI_Init(&argc, &argv);
    MPI_Comm_rank(MPI_COMM_WORLD, &rank);
    MPI_Comm_size(MPI_COMM_WORLD, &size);
    const int before = rank > 0 ? rank - 1 : MPI_PROC_NULL, after = rank < size - 1 ? rank + 1 : MPI_PROC_NULL;
    for (int i = 0; i < TIMES; i++) {
        MPI_Irecv(&left, 1, MPI_DOUBLE, before, FROM_LEFT, MPI_COMM_WORLD, &requests[0]);
        MPI_Irecv(&right, 1, MPI_DOUBLE, after, LEFTWARD, MPI_COMM_WORLD, &requests[1]);
        MPI_Isend(&mine, 1, MPI_DOUBLE, before, LEFTWARD, MPI_COMM_WORLD, &requests[2]);
        MPI_Isend(&mine, 1, MPI_DOUBLE, after, RIGHTWARD, MPI_COMM_WORLD, &requests[3]);
        MPI_Waitall(4, requests, MPI_STATUSES_IGNORE);
        mine = (left + mine + right) / 3;
    }
    printf("rank %d: %f\n", rank, mine);
    MPI_Finalize();
    return 0;
}
