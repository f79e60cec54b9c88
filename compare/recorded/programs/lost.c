#include <mpi.h>
#include <stdio.h>

/* Rank 0 sends a part to each other rank, all at once, and goes on once they are sent. */
enum { MOST = 16 };

int main(int argc, char **argv)
{
    int rank, size, parts[MOST], got = 0;
    MPI_Request requests[MOST];
    MPI_Init(&argc, &argv);
    MPI_Comm_rank(MPI_COMM_WORLD, &rank);
    MPI_Comm_size(MPI_COMM_WORLD, &size);
    if (rank == 0) {
        for (int other = 1; other < size; other++) {
            parts[other] = other * other;
#ifdef MENDED
            MPI_Isend(&parts[other], 1, MPI_INT, other, 1, MPI_COMM_WORLD, &requests[other - 1]);
#else
            MPI_Isend(&parts[other], 1, MPI_INT, other, 1, MPI_COMM_WORLD, &requests[0]);
#endif
        }
#ifdef MENDED
        MPI_Waitall(size - 1, requests, MPI_STATUSES_IGNORE);
#else
        MPI_Waitall(1, requests, MPI_STATUSES_IGNORE);
#endif
    } else {
        MPI_Recv(&got, 1, MPI_INT, 0, 1, MPI_COMM_WORLD, MPI_STATUS_IGNORE);
    }
    printf("rank %d got %d\n", rank, got);
    MPI_Finalize();
    return 0;
}
