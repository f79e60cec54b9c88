#include <mpi.h>
#include <stdio.h>

/* Every worker sends its result to rank 0, and then how long it took. Compiled with -DMENDED it has no race. */
enum { RESULT = 1, SECONDS = 2 };

#ifdef MENDED
#define WANTED RESULT
#else
#define WANTED MPI_ANY_TAG
#endif

static double computed(int rank)
{
    double sum = 0;
    for (int i = 1; i <= 1000000 * rank; i++) {
        sum += 1.0 / i;
    }
    return sum;
}

static void work(int rank)
{
    const double began = MPI_Wtime();
    const double result = computed(rank);
    const double seconds = MPI_Wtime() - began;
    MPI_Send(&result, 1, MPI_DOUBLE, 0, RESULT, MPI_COMM_WORLD);
    MPI_Send(&seconds, 1, MPI_DOUBLE, 0, SECONDS, MPI_COMM_WORLD);
}

static void collect(int size)
{
    double value, sum = 0, longest = 0;
    for (int i = 1; i < size; i++) {
        MPI_Recv(&value, 1, MPI_DOUBLE, MPI_ANY_SOURCE, WANTED, MPI_COMM_WORLD, MPI_STATUS_IGNORE);
        sum += value;
    }
    for (int worker = 1; worker < size; worker++) {
        MPI_Recv(&value, 1, MPI_DOUBLE, worker, SECONDS, MPI_COMM_WORLD, MPI_STATUS_IGNORE);
        longest = value > longest ? value : longest;
    }
    printf("sum %f, at most %f seconds\n", sum, longest);
}

int main(int argc, char **argv)
{
    int rank, size;
    MPI_Init(&argc, &argv);
    MPI_Comm_rank(MPI_COMM_WORLD, &rank);
    MPI_Comm_size(MPI_COMM_WORLD, &size);
    if (rank == 0) {
        collect(size);
    } else {
        work(rank);
    }
    MPI_Finalize();
    return 0;
}
