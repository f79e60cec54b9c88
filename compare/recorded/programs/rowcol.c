#include <mpi.h>
#include <stdio.h>

/* A grid of two rows and two columns: the first rank of each row and of each column tells the second one a number. */
int main(int argc, char **argv)
{
    int rank, in_row, in_column, number, got_row = 0, got_column = 0;
    MPI_Comm rows, cols;
    MPI_Init(&argc, &argv);
    MPI_Comm_rank(MPI_COMM_WORLD, &rank);
    MPI_Comm_split(MPI_COMM_WORLD, rank / 2, rank, &rows);
    MPI_Comm_split(MPI_COMM_WORLD, rank % 2, rank, &cols);
    MPI_Comm_rank(rows, &in_row);
    MPI_Comm_rank(cols, &in_column);
    number = 10 * rank;
    if (in_row == 0)
#ifdef MENDED
        MPI_Send(&number, 1, MPI_INT, 1, 1, rows);
#else
        MPI_Send(&number, 1, MPI_INT, 1, 1, cols);
#endif
    else
        MPI_Recv(&got_row, 1, MPI_INT, 0, 1, rows, MPI_STATUS_IGNORE);
    if (in_column == 0)
        MPI_Send(&number, 1, MPI_INT, 1, 2, cols);
    else
        MPI_Recv(&got_column, 1, MPI_INT, 0, 2, cols, MPI_STATUS_IGNORE);
    printf("rank %d got %d and %d\n", rank, got_row, got_column);
    MPI_Comm_free(&rows);
    MPI_Comm_free(&cols);
    MPI_Finalize();
    return 0;
}
