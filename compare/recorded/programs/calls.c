#include <mpi.h>
#include <stddef.h>
#include <stdio.h>
#include <stdlib.h>
#include <string.h>

/* Kinds of calls, all of them right: nothing bad is to be told of any. */
struct item { char sign; double weights[2]; int place; };

static int rank, size, next, before;
static MPI_Comm all;

static void added(void *in, void *out, int *count, MPI_Datatype *type)
{
    (void)type;
    for (int i = 0; i < *count; i++)
        ((int *)out)[i] += ((int *)in)[i];
}

/* A column, a part of a matrix, and structs: what isn't sent, or is padding, may change, and types may be freed. */
static void messages_in_pieces(void)
{
    const int sizes[] = { 8, 8 }, parts[] = { 2, 3 }, starts[] = { 1, 1 }, lengths[] = { 1, 2, 1 };
    const MPI_Aint offsets[] = { offsetof(struct item, sign), offsetof(struct item, weights), offsetof(struct item, place) };
    const MPI_Datatype types[] = { MPI_CHAR, MPI_DOUBLE, MPI_INT };
    double matrix[8][8] = { { 0 } }, column[8], part[6];
    struct item items[3], got[3];
    MPI_Datatype column_type, part_type, packed_type, item_type;
    MPI_Request requests[6];
    memset(items, 0, sizeof items);
    MPI_Type_vector(8, 1, 8, MPI_DOUBLE, &column_type);
    MPI_Type_create_subarray(2, sizes, parts, starts, MPI_ORDER_C, MPI_DOUBLE, &part_type);
    MPI_Type_create_struct(3, lengths, offsets, types, &packed_type);
    MPI_Type_create_resized(packed_type, 0, sizeof(struct item), &item_type);
    MPI_Type_commit(&column_type);
    MPI_Type_commit(&part_type);
    MPI_Type_commit(&item_type);
    MPI_Irecv(column, 8, MPI_DOUBLE, before, 1, all, &requests[0]);
    MPI_Irecv(part, 6, MPI_DOUBLE, before, 2, all, &requests[1]);
    MPI_Irecv(got, 3, item_type, before, 3, all, &requests[2]);
    MPI_Isend(&matrix[0][3], 1, column_type, next, 1, all, &requests[3]);
    MPI_Isend(matrix, 1, part_type, next, 2, all, &requests[4]);
    MPI_Isend(items, 3, item_type, next, 3, all, &requests[5]);
    ((char *)items)[offsetof(struct item, sign) + 1] = 77;
    matrix[0][0] = -1;
    MPI_Type_free(&column_type);
    MPI_Type_free(&part_type);
    for (int left = 6, which; left > 0; left--)
        MPI_Waitany(6, requests, &which, MPI_STATUS_IGNORE);
    matrix[0][3] = 1;
    MPI_Bcast(items, 3, item_type, 0, all);
    MPI_Type_free(&packed_type);
    MPI_Type_free(&item_type);
}

/* Requests that are used again, freed, or of nobody; what is packed, buffered or probed. */
static void other_messages(void)
{
    int number = rank, got = 0, done = 0, position = 0, length;
    char packed[64], buffer[1024], *attached;
    double value = rank, taken;
    MPI_Request requests[2], freed;
    MPI_Message message;
    MPI_Send_init(&value, 1, MPI_DOUBLE, next, 4, all, &requests[0]);
    MPI_Recv_init(&taken, 1, MPI_DOUBLE, before, 4, all, &requests[1]);
    for (int turn = 0; turn < 3; turn++, done = 0) {
        value = turn;
        MPI_Startall(2, requests);
        while (!done)
            MPI_Testall(2, requests, &done, MPI_STATUSES_IGNORE);
        value += 1;
    }
    MPI_Request_free(&requests[0]);
    MPI_Request_free(&requests[1]);
    MPI_Buffer_attach(buffer, sizeof buffer);
    MPI_Pack(&number, 1, MPI_INT, packed, sizeof packed, &position, all);
    MPI_Bsend(packed, position, MPI_PACKED, next, 5, all);
    MPI_Recv(packed, sizeof packed, MPI_PACKED, before, 5, all, MPI_STATUS_IGNORE);
    MPI_Buffer_detach(&attached, &length);
    MPI_Isend(&number, 1, MPI_INT, next, 6, all, &freed);
    MPI_Request_free(&freed);
    MPI_Recv(&got, 1, MPI_INT, before, 6, all, MPI_STATUS_IGNORE);
    MPI_Send(&number, 1, MPI_INT, MPI_PROC_NULL, 7, all);
    MPI_Recv(&got, 1, MPI_INT, MPI_PROC_NULL, 7, all, MPI_STATUS_IGNORE);
    MPI_Isend(&number, sizeof number, MPI_BYTE, next, 8, all, &freed);
    MPI_Mprobe(before, 8, all, &message, MPI_STATUS_IGNORE);
    MPI_Mrecv(&got, 1, MPI_INT, &message, MPI_STATUS_IGNORE);
    MPI_Wait(&freed, MPI_STATUS_IGNORE);
    MPI_Sendrecv_replace(&number, 1, MPI_INT, next, 9, before, 9, all, MPI_STATUS_IGNORE);
}

/* Collectives in place, with a count of each rank, of an operation of its own, and such that don't block. */
static void collectives(void)
{
    int *numbers = calloc(2 * size, sizeof *numbers), *rows = calloc(size * (size + 1), sizeof *rows), *taken = calloc(size * (size + 1), sizeof *taken);
    int *counts = calloc(size, sizeof *counts), *starts = calloc(size, sizeof *starts), sum, is_root = rank == 0;
    struct { double value; int place; } own = { rank, rank }, largest;
    MPI_Op operation;
    MPI_Request requests[3];
    MPI_Op_create(added, 1, &operation);
    for (int i = 0; i < size; i++) {
        counts[i] = i + 1;
        starts[i] = i ? starts[i - 1] + counts[i - 1] : 0;
    }
    numbers[rank] = rank;
    MPI_Allgather(MPI_IN_PLACE, 0, MPI_DATATYPE_NULL, numbers, 1, MPI_INT, all);
    MPI_Gather(is_root ? MPI_IN_PLACE : &rank, 1, MPI_INT, is_root ? numbers : NULL, is_root, MPI_INT, 0, all);
    MPI_Scatter(is_root ? numbers : NULL, is_root, MPI_INT, is_root ? MPI_IN_PLACE : taken, 1, MPI_INT, 0, all);
    MPI_Gatherv(rows, rank + 1, MPI_INT, taken, counts, starts, MPI_INT, 1, all);
    MPI_Allgatherv(MPI_IN_PLACE, 0, MPI_INT, rows, counts, starts, MPI_INT, all);
    MPI_Scatterv(rows, counts, starts, MPI_INT, taken, rank + 1, MPI_INT, 0, all);
    MPI_Allreduce(MPI_IN_PLACE, numbers, size, MPI_INT, operation, all);
    MPI_Reduce(is_root ? MPI_IN_PLACE : numbers, is_root ? numbers : NULL, size, MPI_INT, operation, 0, all);
    MPI_Reduce_scatter(rows, taken, counts, MPI_INT, MPI_SUM, all);
    MPI_Scan(&rank, taken, 1, MPI_INT, MPI_SUM, all);
    MPI_Alltoall(numbers, 1, MPI_INT, numbers + size, 1, MPI_INT, all);
    MPI_Allreduce(&own, &largest, 1, MPI_DOUBLE_INT, MPI_MAXLOC, all);
    MPI_Ibcast(numbers, 1, MPI_INT, 0, all, &requests[0]);
    MPI_Iallreduce(&rank, &sum, 1, MPI_INT, MPI_SUM, all, &requests[1]);
    MPI_Ibarrier(all, &requests[2]);
    MPI_Waitall(3, requests, MPI_STATUSES_IGNORE);
    MPI_Op_free(&operation);
    free(numbers);
    free(rows);
    free(taken);
    free(counts);
    free(starts);
}

int main(int argc, char **argv)
{
    MPI_Comm half, none;
    MPI_Init(&argc, &argv);
    MPI_Comm_dup(MPI_COMM_WORLD, &all);
    MPI_Comm_set_name(all, "everyone");
    MPI_Comm_rank(all, &rank);
    MPI_Comm_size(all, &size);
    next = (rank + 1) % size;
    before = (rank + size - 1) % size;
    messages_in_pieces();
    other_messages();
    collectives();
    MPI_Comm_split(all, rank % 2, rank, &half);
    MPI_Comm_split(all, rank ? 1 : MPI_UNDEFINED, rank, &none);
    MPI_Barrier(half);
    MPI_Comm_free(&half);
    if (none != MPI_COMM_NULL)
        MPI_Comm_free(&none);
    MPI_Comm_free(&all);
    MPI_Finalize();
    printf("rank %d has ended\n", rank);
    return 0;
}
