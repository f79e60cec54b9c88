/* Stands between a program and its MPI library (MPI 4.0, section 15.2): waits a moment before each call, so that runs differ, and says on
 * standard error when a rank has begun. By MPI_SENDS standard sends are as the library has them (`plain`), synchronous, or either by chance
 * (`mixed`); what is drawn begins with MPI_SEED. It is linked to what `mpdbg c` writes, by compare/runs/mpi.py. */
#define _DEFAULT_SOURCE
#include <mpi.h>
#include <stdio.h>
#include <stdlib.h>
#include <unistd.h>

static unsigned long long state;
static const char *sends;

static unsigned drawn(unsigned below)
{
    state = state * 6364136223846793005ULL + 1442695040888963407ULL;
    return (unsigned)(state >> 33) % below;
}

static void a_moment(void)
{
    if (drawn(2)) {
        usleep(drawn(2000));
    }
}

static int is_synchronous(void)
{
    return sends[0] == 's' || (sends[0] == 'm' && drawn(2));
}

int MPI_Init(int *argc, char ***argv)
{
    int rank;
    const int result = PMPI_Init(argc, argv);
    PMPI_Comm_rank(MPI_COMM_WORLD, &rank);
    sends = getenv("MPI_SENDS");
    state = strtoull(getenv("MPI_SEED"), NULL, 10) * 1000 + (unsigned long long)rank;
    drawn(1);
    fprintf(stderr, "rank %d begins\n", rank);
    return result;
}

int MPI_Send(const void *buffer, int count, MPI_Datatype type, int to, int tag, MPI_Comm comm)
{
    a_moment();
    return is_synchronous() ? PMPI_Ssend(buffer, count, type, to, tag, comm) : PMPI_Send(buffer, count, type, to, tag, comm);
}

int MPI_Ssend(const void *buffer, int count, MPI_Datatype type, int to, int tag, MPI_Comm comm)
{
    a_moment();
    return PMPI_Ssend(buffer, count, type, to, tag, comm);
}

int MPI_Isend(const void *buffer, int count, MPI_Datatype type, int to, int tag, MPI_Comm comm, MPI_Request *request)
{
    a_moment();
    return is_synchronous() ? PMPI_Issend(buffer, count, type, to, tag, comm, request)
                            : PMPI_Isend(buffer, count, type, to, tag, comm, request);
}

int MPI_Issend(const void *buffer, int count, MPI_Datatype type, int to, int tag, MPI_Comm comm, MPI_Request *request)
{
    a_moment();
    return PMPI_Issend(buffer, count, type, to, tag, comm, request);
}

int MPI_Recv(void *buffer, int count, MPI_Datatype type, int source, int tag, MPI_Comm comm, MPI_Status *status)
{
    a_moment();
    return PMPI_Recv(buffer, count, type, source, tag, comm, status);
}

int MPI_Irecv(void *buffer, int count, MPI_Datatype type, int source, int tag, MPI_Comm comm, MPI_Request *request)
{
    a_moment();
    return PMPI_Irecv(buffer, count, type, source, tag, comm, request);
}

int MPI_Wait(MPI_Request *request, MPI_Status *status)
{
    a_moment();
    return PMPI_Wait(request, status);
}

int MPI_Waitany(int count, MPI_Request requests[], int *index, MPI_Status *status)
{
    a_moment();
    return PMPI_Waitany(count, requests, index, status);
}

int MPI_Barrier(MPI_Comm comm)
{
    a_moment();
    return PMPI_Barrier(comm);
}
