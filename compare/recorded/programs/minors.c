/* A determinant by its first row: each worker has a minor. Their signs go by the order in which the minors come, which is
   wrong; compiled with -DMENDED they go by the worker. */
#include <mpi.h>
#include <stdio.h>

enum { SIZE = 3, MINOR = 1 };
static const double matrix[SIZE][SIZE] = { { 2, 7, 1 }, { 1, 4, 5 }, { 3, 1, 6 } };

static double minor_of(int column)
{
    const int left = column == 0 ? 1 : 0, right = column == 2 ? 1 : 2;
    return matrix[1][left] * matrix[2][right] - matrix[1][right] * matrix[2][left];
}

int main(int argc, char **argv)
{
    int rank;
    MPI_Init(&argc, &argv);
    MPI_Comm_rank(MPI_COMM_WORLD, &rank);
    if (rank == 0) {
        double value, sum = 0;
        for (int i = 0; i < SIZE; i++) {
            MPI_Status status;
            MPI_Recv(&value, 1, MPI_DOUBLE, MPI_ANY_SOURCE, MINOR, MPI_COMM_WORLD, &status);
#ifdef MENDED
            const int column = status.MPI_SOURCE - 1;
#else
            const int column = i;
#endif
            sum += (column % 2 ? -1 : 1) * matrix[0][column] * value;
        }
        printf("determinant %g\n", sum);
    } else {
        const double value = minor_of(rank - 1);
        MPI_Send(&value, 1, MPI_DOUBLE, 0, MINOR, MPI_COMM_WORLD);
    }
    MPI_Finalize();
    return 0;
}
