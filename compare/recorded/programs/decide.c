#include <mpi.h>
#include <stdio.h>

/* Rank 0 looks for questions, answers them, and ends if it is told to; it looks for that only where it has found no question. */
enum { QUESTION = 1, ANSWER = 2, END = 3, ANSWERED = 4 };

static void serve(void)
{
    int is_there, number, ended = 0;
    MPI_Status status;
    while (!ended) {
        MPI_Iprobe(MPI_ANY_SOURCE, QUESTION, MPI_COMM_WORLD, &is_there, &status);
        if (is_there) {
            MPI_Recv(&number, 1, MPI_INT, status.MPI_SOURCE, QUESTION, MPI_COMM_WORLD, MPI_STATUS_IGNORE);
            MPI_Send(&number, 1, MPI_INT, status.MPI_SOURCE, ANSWER, MPI_COMM_WORLD);
            continue;
        }
        MPI_Iprobe(MPI_ANY_SOURCE, END, MPI_COMM_WORLD, &is_there, &status);
        if (is_there) {
            MPI_Recv(&number, 1, MPI_INT, status.MPI_SOURCE, END, MPI_COMM_WORLD, MPI_STATUS_IGNORE);
            ended = 1;
        }
    }
}

int main(int argc, char **argv)
{
    int rank, number = 7;
    MPI_Init(&argc, &argv);
    MPI_Comm_rank(MPI_COMM_WORLD, &rank);
    if (rank == 0) {
        serve();
    } else if (rank == 1) {
        MPI_Send(&number, 1, MPI_INT, 0, QUESTION, MPI_COMM_WORLD);
        MPI_Recv(&number, 1, MPI_INT, 0, ANSWER, MPI_COMM_WORLD, MPI_STATUS_IGNORE);
#ifdef MENDED
        MPI_Send(&number, 1, MPI_INT, 2, ANSWERED, MPI_COMM_WORLD);
#endif
    } else if (rank == 2) {
#ifdef MENDED
        MPI_Recv(&number, 1, MPI_INT, 1, ANSWERED, MPI_COMM_WORLD, MPI_STATUS_IGNORE);
#else
        const double until = MPI_Wtime() + 0.1;
        while (MPI_Wtime() < until)
            continue;
#endif
        MPI_Send(&number, 1, MPI_INT, 0, END, MPI_COMM_WORLD);
    }
    printf("rank %d has ended\n", rank);
    MPI_Finalize();
    return 0;
}
