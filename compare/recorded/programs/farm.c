#include <mpi.h>
#include <stdio.h>

/* Rank 0 hands out tasks, and takes a result for each; a worker says goodbye once it is told to stop. */
enum { TASK = 1, RESULT = 2, STOP = 3, GOODBYE = 4, TASKS = 4 };

#ifdef MENDED
#define WANTED RESULT
#else
#define WANTED MPI_ANY_TAG
#endif

static void master(int size)
{
    int value, sum = 0, next = 0, stopped = 0;
    MPI_Status status;
    for (int worker = 1; worker < size; worker++, next++)
        MPI_Send(&next, 1, MPI_INT, worker, TASK, MPI_COMM_WORLD);
    for (int done = 0; done < TASKS; done++) {
        MPI_Recv(&value, 1, MPI_INT, MPI_ANY_SOURCE, WANTED, MPI_COMM_WORLD, &status);
        sum += value;
        if (next < TASKS) {
            MPI_Send(&next, 1, MPI_INT, status.MPI_SOURCE, TASK, MPI_COMM_WORLD);
            next++;
        } else {
            MPI_Send(&next, 1, MPI_INT, status.MPI_SOURCE, STOP, MPI_COMM_WORLD);
            stopped++;
        }
    }
    for (int worker = 1; worker < size; worker++)
        MPI_Recv(&value, 1, MPI_INT, worker, GOODBYE, MPI_COMM_WORLD, MPI_STATUS_IGNORE);
    printf("sum %d, %d workers stopped\n", sum, stopped);
}

static void work(void)
{
    int task;
    MPI_Status status;
    for (;;) {
        MPI_Recv(&task, 1, MPI_INT, 0, MPI_ANY_TAG, MPI_COMM_WORLD, &status);
        if (status.MPI_TAG == STOP)
            break;
        task *= task;
        MPI_Send(&task, 1, MPI_INT, 0, RESULT, MPI_COMM_WORLD);
    }
    MPI_Send(&task, 1, MPI_INT, 0, GOODBYE, MPI_COMM_WORLD);
}

int main(int argc, char **argv)
{
    int rank, size;
    MPI_Init(&argc, &argv);
    MPI_Comm_rank(MPI_COMM_WORLD, &rank);
    MPI_Comm_size(MPI_COMM_WORLD, &size);
    if (rank == 0)
        master(size);
    else
        work();
    MPI_Finalize();
    return 0;
}
