#include <mpi.h>
#include <stdio.h>

/* The others tell rank 0 a place and a weight each; a struct of both is sent, and received. */
struct item { int place; float weight; };

static MPI_Datatype item_type(MPI_Datatype weight)
{
    const int lengths[] = { 1, 1 };
    const MPI_Aint offsets[] = { 0, sizeof(int) };
    const MPI_Datatype types[] = { MPI_INT, weight };
    MPI_Datatype type;
    MPI_Type_create_struct(2, lengths, offsets, types, &type);
    MPI_Type_commit(&type);
    return type;
}

int main(int argc, char **argv)
{
    int rank, size;
    struct item item, sum = { 0, 0 };
    MPI_Init(&argc, &argv);
    MPI_Comm_rank(MPI_COMM_WORLD, &rank);
    MPI_Comm_size(MPI_COMM_WORLD, &size);
#ifdef MENDED
    MPI_Datatype type = item_type(MPI_FLOAT);
#else
    MPI_Datatype type = item_type(rank == 0 ? MPI_FLOAT : MPI_INT);
#endif
    if (rank == 0) {
        for (int other = 1; other < size; other++) {
            MPI_Recv(&item, 1, type, other, 1, MPI_COMM_WORLD, MPI_STATUS_IGNORE);
            sum.place += item.place;
            sum.weight += item.weight;
        }
        printf("places %d, weight %.1f\n", sum.place, sum.weight);
    } else {
        item.place = rank;
        item.weight = rank / 2.0f;
        MPI_Send(&item, 1, type, 0, 1, MPI_COMM_WORLD);
    }
    MPI_Type_free(&type);
    MPI_Finalize();
    return 0;
}
