#include <mpi.h>
#include <stdio.h>

/* Rank 0 sends work to some ranks, and a token around the ring: once it is back, all work is thought to be done. */
enum { WORK = 1, TOKEN = 2, DONE = 3 };

int main(int argc, char **argv)
{
    int rank, size, value = 1, sum = 0, has_token = 0;
    MPI_Status status;
    MPI_Init(&argc, &argv);
    MPI_Comm_rank(MPI_COMM_WORLD, &rank);
    MPI_Comm_size(MPI_COMM_WORLD, &size);
    const int next = (rank + 1) % size, last = size - 1;
    if (rank == 0) {
        MPI_Send(&value, 1, MPI_INT, last, WORK, MPI_COMM_WORLD);
        MPI_Send(&value, 1, MPI_INT, next, TOKEN, MPI_COMM_WORLD);
        MPI_Recv(&value, 1, MPI_INT, last, TOKEN, MPI_COMM_WORLD, MPI_STATUS_IGNORE);
        for (int other = 1; other < size; other++)
            MPI_Send(&value, 1, MPI_INT, other, DONE, MPI_COMM_WORLD);
    } else {
        for (;;) {
            MPI_Recv(&value, 1, MPI_INT, MPI_ANY_SOURCE, MPI_ANY_TAG, MPI_COMM_WORLD, &status);
            if (status.MPI_TAG == DONE)
                break;
            if (status.MPI_TAG == WORK)
                sum += value;
            else
                has_token = 1;
#ifdef MENDED
            /* the last rank keeps the token until it has had its work */
            if (rank == last && sum == 0)
                continue;
#endif
            if (has_token)
                MPI_Send(&value, 1, MPI_INT, next, TOKEN, MPI_COMM_WORLD);
            has_token = 0;
        }
    }
    if (rank == last && sum != 1)
        MPI_Abort(MPI_COMM_WORLD, 1);
    MPI_Finalize();
    return 0;
}
