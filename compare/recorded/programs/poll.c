#include <mpi.h>
#include <stdio.h>

/* Rank 0 looks for orders and for an end, again and again, and works meanwhile; the others order, and rank 1 ends it. */
enum { ORDER = 1, DONE = 2, END = 3, ORDERS = 20 };

#ifdef MENDED
#define ENDING END
#else
#define ENDING DONE
#endif

static long served(int orders)
{
    long worked = 0;
    int end, ended = 0, order, is_there;
    MPI_Request request;
    MPI_Status status;
    MPI_Irecv(&end, 1, MPI_INT, 1, END, MPI_COMM_WORLD, &request);
    while (orders > 0 || !ended) {
        MPI_Iprobe(MPI_ANY_SOURCE, ORDER, MPI_COMM_WORLD, &is_there, &status);
        if (is_there) {
            MPI_Recv(&order, 1, MPI_INT, status.MPI_SOURCE, ORDER, MPI_COMM_WORLD, MPI_STATUS_IGNORE);
            orders--;
        }
        MPI_Test(&request, &ended, MPI_STATUS_IGNORE);
        worked++;
    }
    return worked;
}

static void ordering(int rank)
{
    const int end = 1;
    for (int order = 0; order < ORDERS; order++) {
        const double until = MPI_Wtime() + 0.01;
        while (MPI_Wtime() < until)
            continue;
        MPI_Send(&order, 1, MPI_INT, 0, ORDER, MPI_COMM_WORLD);
    }
    if (rank == 1)
        MPI_Send(&end, 1, MPI_INT, 0, ENDING, MPI_COMM_WORLD);
}

int main(int argc, char **argv)
{
    int rank, size;
    MPI_Init(&argc, &argv);
    MPI_Comm_rank(MPI_COMM_WORLD, &rank);
    MPI_Comm_size(MPI_COMM_WORLD, &size);
    if (rank == 0)
        printf("looked often: %d\n", served(ORDERS * (size - 1)) > 1000);
    else
        ordering(rank);
    MPI_Finalize();
    return 0;
}
