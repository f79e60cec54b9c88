#include <mpi.h>
#include <stdio.h>
#include <stdlib.h>

/* Reads a setting that each rank has, and then begins. */
static void read_setting(void)
{
    const char *rank = getenv("PMI_RANK") ? getenv("PMI_RANK") : getenv("OMPI_COMM_WORLD_RANK");
#ifndef MENDED
    if (rank && atoi(rank) == 1) {
        fprintf(stderr, "rank %s has no setting\n", rank);
        exit(3);
    }
#else
    (void)rank;
#endif
}

int main(int argc, char **argv)
{
    read_setting();
    MPI_Init(&argc, &argv);
    MPI_Barrier(MPI_COMM_WORLD);
    MPI_Finalize();
    return 0;
}
