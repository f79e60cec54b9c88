#include <mpi.h>
#include <stdio.h>

/* A rank without work asks the next one for some. One that has work answers requests that are there, now and then. */
enum { REQUEST = 1, ANSWER = 2 };

static int work_of(int rank)
{
#ifdef MENDED
    return rank == 0 ? 6 : 0;
#else
    return rank == 0 ? 6 : -1;
#endif
}

/* Answers one request if there is one; how many units were given. */
static int answered(int has)
{
    int is_there, ask, give = has > 1;
    MPI_Status status;
    MPI_Iprobe(MPI_ANY_SOURCE, REQUEST, MPI_COMM_WORLD, &is_there, &status);
    if (!is_there)
        return -1;
    MPI_Recv(&ask, 1, MPI_INT, status.MPI_SOURCE, REQUEST, MPI_COMM_WORLD, MPI_STATUS_IGNORE);
    MPI_Ssend(&give, 1, MPI_INT, status.MPI_SOURCE, ANSWER, MPI_COMM_WORLD);
    return give;
}

int main(int argc, char **argv)
{
    int rank, size, got = 0, asked = 1;
    MPI_Init(&argc, &argv);
    MPI_Comm_rank(MPI_COMM_WORLD, &rank);
    MPI_Comm_size(MPI_COMM_WORLD, &size);
    int has = work_of(rank), left = size - 1;
    if (rank == 0) {
        while (left > 0) {
            const int gave = answered(has);
            left -= gave >= 0;
            has -= gave > 0;
        }
    } else {
        /* each asks rank 0; where it has no work at all (-1), it asks its neighbour first, who asks it */
        const int neighbour = rank % 2 == 1 ? rank + 1 : rank - 1;
        if (has < 0 && neighbour < size) {
            MPI_Ssend(&asked, 1, MPI_INT, neighbour, REQUEST, MPI_COMM_WORLD);
            MPI_Recv(&got, 1, MPI_INT, neighbour, ANSWER, MPI_COMM_WORLD, MPI_STATUS_IGNORE);
        }
        MPI_Ssend(&asked, 1, MPI_INT, 0, REQUEST, MPI_COMM_WORLD);
        MPI_Recv(&got, 1, MPI_INT, 0, ANSWER, MPI_COMM_WORLD, MPI_STATUS_IGNORE);
    }
    printf("rank %d got %d\n", rank, got);
    MPI_Finalize();
    return 0;
}
