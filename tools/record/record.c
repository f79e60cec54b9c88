/* record.c: writes down the calls of MPI that each rank makes, in their order, for mpdrec (docs/FROM_A_RUN.md).

   It stands between a program and its MPI library (MPI 4.0, chapter 15) and is preloaded:
       mpicc -shared -fPIC -O2 record.c -o librecord.so
       mpiexec -n 4 env LD_PRELOAD=./librecord.so MPDREC_FOLDER=here ./program
   Each rank writes the file rank.N in that folder, if one is named, as text:
       mpdrec 1 rank 0 size 4 program PATH
       module N PATH                       a file of code, for places
       comm NAME 0 2 ..                    a communicator, and the numbers that its ranks have in the world
       named NAME TEXT                     the name that the program gives it, and
       freed NAME                          that it is freed
       > N CALL field=value .. @PLACE      before call N of this rank; a rank, root or tag that isn't there is absent:NUMBER
       < N [done=ID[:SOURCE:TAG:BYTES] ..] [changed=ID ..] [error=CODE]    after it: each request that it completed, - for
                                           its own receive, sends whose buffer was changed before, and the error that it gave
       ? N CALL first=F last=L times=T @PLACE    looks of one place that found nothing: of all such looks since the last call
                                           the numbers of the first and the last, and how many they are; the next call is N
       changed ID                          what request ID still sends was changed since the last call
       ! WHY @PLACE                        what the record doesn't have, so that it is of no use
       end exit STATUS @PLACE              the process ends by itself, with no MPI_Finalize or with a status that isn't 0
       end signal NUMBER @PLACE            it ends by that signal
   A place is one to three frames as MODULE:OFFSET, or =FILE:LINE in Python. The file is mapped, so it is whole up to
   the call in which a rank stands, even if that rank is killed at once.

   MPDREC_FORCE names a file of lines "RANK CALL SOURCE TAG": this call then takes a message of that source and tag
   only. With -2 in place of both, an MPI_Iprobe that would be this call finds nothing yet. With MPDREC_SYNCHRONOUS each standard send is a synchronous one. Calls of one thread are recorded. A process that
   ends before MPI_Init leaves a file early.N in place of rank.N, if its starter tells its number. */
#define _GNU_SOURCE
#include <mpi.h>
#include <dlfcn.h>
#include <execinfo.h>
#include <fcntl.h>
#include <limits.h>
#include <pthread.h>
#include <signal.h>
#include <stdarg.h>
#include <stdint.h>
#include <stdio.h>
#include <stdlib.h>
#include <string.h>
#include <sys/mman.h>
#include <sys/uio.h>
#include <ucontext.h>
#include <unistd.h>

#define MOST_BYTES ((size_t)64 << 20)
#define FRAMES 3
#define HERE __builtin_return_address(0)

static int me, calls;
static int synchronous;                 /* standard sends are made synchronous ones */
static pthread_t owner;                 /* the thread whose calls are recorded */
static volatile int has_other_threads;
static __thread int inside;             /* in a call of the library, which may make others of its own */

/* The library's own function, called. */
#define MADE(name, arguments) ({ \
    static __typeof__(&PMPI_##name) library; \
    library = library ? library : (__typeof__(library))dlsym(RTLD_NEXT, "PMPI_" #name); \
    inside++; \
    int error_ = library arguments; \
    inside--, error_; })
/* Fortran of Open MPI, and mpi_f08 of MPICH, call the second name of a function, so that both stand here. */
#define NAMED(name, parameters) int PMPI_##name parameters __attribute__((alias("MPI_" #name))); int MPI_##name parameters

/* ---- lines of the record ---- */

static char *record;                    /* the file, mapped whole; it has holes where nothing is written yet */
static size_t used;
static int file = -1;
static int is_closed;                   /* it has its length, and what comes is written after it */
static char line[1 << 20];              /* the line that is being made */
static size_t line_length;

static void keep(const char *text, size_t length)
{
    static const char full[] = "! more-than-64-MB\n";
    if (is_closed && pwrite(file, text, length, used) == (ssize_t)length)
        used += length;
    if (is_closed || record == NULL || used == MOST_BYTES)
        return;
    if (used + length + sizeof full <= MOST_BYTES) {
        memcpy(record + used, text, length);
        used += length;
    } else {
        memcpy(record + used, full, sizeof full - 1);
        used = MOST_BYTES;
    }
}

static void put(const char *format, ...)
{
    va_list values;
    size_t room = sizeof line - line_length;
    va_start(values, format);
    size_t length = vsnprintf(line + line_length, room, format, values);
    va_end(values);
    line_length += length < room ? length : room - 1;
}

static void end_line(void)
{
    static int told;
    put("\n");
    keep(line, line_length);
    line_length = 0;
    if (has_other_threads && !told) {
        told = 1;
        keep("! threads\n", 10);
    }
}

/* Whether a thread calls whose calls are not recorded. */
static int is_other_thread(void)
{
    return pthread_equal(owner, pthread_self()) ? 0 : (has_other_threads = 1);
}

/* ---- places: frames in files of code, which addr2line makes lines of later ---- */

static struct { void *base; int is_library; } modules[64];
static int module_count;

static int module_searched(void *address, uintptr_t *offset)
{
    static const char *const libraries[] = { "libmpi", "libc.", "librecord", "libgfortran", "libopen-", "libpthread", "ld-linux" };
    Dl_info found;
    if (!dladdr(address, &found) || found.dli_fbase == NULL)
        return -1;
    *offset = (uintptr_t)address - (uintptr_t)found.dli_fbase - 1;     /* in the call, not after it */
    for (int i = 0; i < module_count; i++)
        if (modules[i].base == found.dli_fbase)
            return i;
    if (module_count == 64)
        return -1;
    const char *slash = strrchr(found.dli_fname, '/'), *name = slash ? slash + 1 : found.dli_fname;
    modules[module_count].base = found.dli_fbase;
    for (size_t i = 0; i < sizeof libraries / sizeof *libraries; i++)
        modules[module_count].is_library |= !strncmp(name, libraries[i], strlen(libraries[i]));
    char text[5000], *path = realpath(found.dli_fname, NULL);
    int length = snprintf(text, sizeof text, "module %d %s\n", module_count, path ? path : found.dli_fname);
    free(path);
    keep(text, length < (int)sizeof text ? length : (int)sizeof text - 1);
    return module_count++;
}

/* The module of an address; what was searched once is remembered, since dladdr is slow. */
static int module_of(void *address, uintptr_t *offset)
{
    static struct { void *address; uintptr_t offset; int module; } seen[4096];
    size_t i = ((uintptr_t)address * 0x9e3779b97f4a7c15u) >> 52;
    if (seen[i].address != address) {
        seen[i].module = module_searched(address, &seen[i].offset);
        seen[i].address = address;
    }
    *offset = seen[i].offset;
    return seen[i].module;
}

/* What is called of Python if a program runs in it (mpi4py): found by name, so nothing of Python is needed here. */
static struct {
    int (*is_initialized)(void), (*take_lock)(void), (*line_of)(void *);
    void *(*frame)(void), *(*code_of)(void *), *(*attribute)(void *, const char *), (*give_lock)(int);
    const char *(*text_of)(void *);
} python;

static int has_python(void)
{
    static const struct { void **function; const char *name; } names[] = {
        { (void **)&python.is_initialized, "Py_IsInitialized" }, { (void **)&python.take_lock, "PyGILState_Ensure" },
        { (void **)&python.line_of, "PyFrame_GetLineNumber" },   { (void **)&python.frame, "PyEval_GetFrame" },
        { (void **)&python.code_of, "PyFrame_GetCode" },         { (void **)&python.attribute, "PyObject_GetAttrString" },
        { (void **)&python.give_lock, "PyGILState_Release" },    { (void **)&python.text_of, "PyUnicode_AsUTF8" } };
    static int state;                   /* 0 before the first look, then 1 or -1 */
    if (state == 0) {
        state = 1;
        for (size_t i = 0; i < sizeof names / sizeof *names; i++)
            if ((*names[i].function = dlsym(RTLD_DEFAULT, names[i].name)) == NULL)
                state = -1;
    }
    return state > 0 && python.is_initialized();
}

/* The line of Python that calls. References to its code and its name are kept: both stay for as long as the program. */
static int put_python_place(void)
{
    if (!has_python())
        return 0;
    int lock = python.take_lock();
    void *frame = python.frame(), *code = frame ? python.code_of(frame) : NULL;
    void *path = code ? python.attribute(code, "co_filename") : NULL;
    const char *text = path ? python.text_of(path) : NULL, *slash = text ? strrchr(text, '/') : NULL;
    if (text)
        put(" @=%.100s:%d", slash ? slash + 1 : text, python.line_of(frame));
    python.give_lock(lock);
    return text != NULL;
}

/* The frames from the address on that a call goes back to, or at which a signal came; from the innermost if there is none.
   Frames of the MPI library and of libc are left out. */
static void put_frames(void *address, int is_signal)
{
    void *frames[48];
    int count = backtrace(frames, 48), i = 0;
    while (address && i < count && frames[i] != address)
        i++;
    if (i == count) {
        frames[0] = address;
        i = 0, count = 1;
    }
    if (is_signal)
        frames[i] = (char *)frames[i] + 1;      /* it is in this instruction, and no call before it */
    put(" @");
    for (int shown = 0; i < count && shown < FRAMES; i++) {
        uintptr_t offset;
        int module = module_of(frames[i], &offset);
        if (module >= 0 && !modules[module].is_library)
            put("%s%d:%lx", shown++ ? "," : "", module, (unsigned long)offset);
    }
}

static void put_place(void *caller)
{
    if (!put_python_place())
        put_frames(caller, 0);
}

/* ---- communicators ---- */

struct communicator {
    MPI_Comm handle;
    char name[64];                      /* one that all its ranks give it */
    int size, *world;                   /* for each rank its number in the world */
    int children;                       /* how many were made of it */
    struct communicator *next;
};
static struct communicator *communicators;      /* the newest first: a handle may be used again */

static struct communicator *communicator_of(MPI_Comm handle)
{
    struct communicator *c = handle == MPI_COMM_NULL ? NULL : communicators;
    while (c && c->handle != handle)
        c = c->next;
    return c;
}

static void add_communicator(MPI_Comm handle, const struct communicator *parent, const char *name)
{
    if (handle == MPI_COMM_NULL)
        return;
    struct communicator *c = calloc(1, sizeof *c);
    MPI_Group group, world;
    c->handle = handle;
    PMPI_Comm_size(handle, &c->size);
    c->world = calloc(c->size, sizeof *c->world);
    int *ranks = calloc(c->size, sizeof *ranks);
    for (int i = 0; i < c->size; i++)
        ranks[i] = i;
    PMPI_Comm_group(handle, &group);
    PMPI_Comm_group(MPI_COMM_WORLD, &world);
    PMPI_Group_translate_ranks(group, c->size, ranks, world, c->world);
    PMPI_Group_free(&group);
    PMPI_Group_free(&world);
    free(ranks);
    if (parent)
        snprintf(c->name, sizeof c->name, "%.40s.%d/%d", parent->name, parent->children, c->world[0]);
    else
        snprintf(c->name, sizeof c->name, handle == MPI_COMM_SELF ? "%s/%d" : "%s", name, me);
    c->next = communicators;
    communicators = c;
    put("comm %s", c->name);
    for (int i = 0; i < c->size; i++)
        put(" %d", c->world[i]);
    end_line();
}

static int in_world(const struct communicator *c, int rank)
{
    return c && rank >= 0 && rank < c->size ? c->world[rank] : -1;
}

/* ---- what calls are told by ---- */

static const char *name_of(const struct communicator *c, MPI_Comm handle)
{
    return c ? c->name : handle == MPI_COMM_NULL ? "null" : "?";
}

/* A tag, or any where a receive may name any. A library takes no other number below 0. */
static void put_tag(const char *key, int tag, int is_receive)
{
    if (is_receive && tag == MPI_ANY_TAG)
        put(" %s=*", key);
    else
        put(tag < 0 ? " %s=absent:%d" : " %s=%d", key, tag);
}

static void put_rank(const char *key, const struct communicator *c, int rank, int is_receive)
{
    if (rank == MPI_PROC_NULL)
        put(" %s=none", key);
    else if (is_receive && rank == MPI_ANY_SOURCE)
        put(" %s=*", key);
    else if (in_world(c, rank) < 0)
        put(" %s=absent:%d", key, rank);
    else
        put(" %s=%d", key, in_world(c, rank));
}

#include "signatures.h"

static long bytes_of(int count, MPI_Datatype type)
{
    int size = 0;
    if (type != MPI_DATATYPE_NULL)
        PMPI_Type_size(type, &size);
    return (long)size * count;
}

static void look_at_sent(void);

static int begin(const char *name)
{
    look_at_sent();
    put("> %d %s", calls, name);
    return calls++;
}

static void begun(void *caller)
{
    put_place(caller);
    end_line();
}

static void put_error(int error)
{
    const struct { int class; const char *name; } known[] = {
        { MPI_ERR_RANK, "RANK" }, { MPI_ERR_TAG, "TAG" }, { MPI_ERR_COMM, "COMM" }, { MPI_ERR_ROOT, "ROOT" }, { MPI_ERR_COUNT, "COUNT" },
        { MPI_ERR_TYPE, "TYPE" }, { MPI_ERR_OP, "OP" }, { MPI_ERR_BUFFER, "BUFFER" }, { MPI_ERR_REQUEST, "REQUEST" },
        { MPI_ERR_TRUNCATE, "TRUNCATE" }, { MPI_ERR_ARG, "ARG" }, { MPI_ERR_IN_STATUS, "IN_STATUS" }, { MPI_ERR_OTHER, "OTHER" } };
    int class = 0;
    if (error == MPI_SUCCESS)
        return;
    PMPI_Error_class(error, &class);
    for (size_t i = 0; i < sizeof known / sizeof *known; i++)
        if (known[i].class == class) {
            put(" error=MPI_ERR_%s", known[i].name);
            return;
        }
    put(" error=%d", class);
}

static int ended(int call, int error)
{
    put("< %d", call);
    put_error(error);
    end_line();
    return error;
}

/* What a send or a receive names. */
struct message { const void *buffer; int count; MPI_Datatype type; int rank, tag; MPI_Comm comm; };

static void put_send(const char *tag_key, const struct message *m)
{
    const struct communicator *c = communicator_of(m->comm);
    put_rank("to", c, m->rank, 0);
    put_tag(tag_key, m->tag, 0);
    put(" bytes=%ld comm=%s", bytes_of(m->count, m->type), name_of(c, m->comm));
    put_types("out", m->count, m->type);
}

static void put_receive(const struct message *m)
{
    const struct communicator *c = communicator_of(m->comm);
    put_rank("from", c, m->rank, 1);
    put_tag("tag", m->tag, 1);
    if (m->count >= 0)
        put(" room=%ld", bytes_of(m->count, m->type));
    put(" comm=%s", name_of(c, m->comm));
    if (m->count >= 0)
        put_types("in", m->count, m->type);
}

/* What a receive got. */
static void put_message(const struct communicator *c, const MPI_Status *status)
{
    int bytes = 0;
    if (status->MPI_SOURCE < 0)
        return;
    PMPI_Get_count(status, MPI_BYTE, &bytes);
    put(":%d:%d:%d", in_world(c, status->MPI_SOURCE), status->MPI_TAG, bytes < 0 ? 0 : bytes);
}

/* ---- matches that are forced ---- */

static struct forced { int rank, call, source, tag; } *forced;
static int forced_count;

static void read_forced(const char *path)
{
    FILE *in = path ? fopen(path, "r") : NULL;
    for (struct forced f; in && fscanf(in, "%d %d %d %d", &f.rank, &f.call, &f.source, &f.tag) == 4;) {
        forced = realloc(forced, (forced_count + 1) * sizeof *forced);
        forced[forced_count++] = f;
    }
    if (in)
        fclose(in);
}

/* What stands for a source and a tag where a look is held back, and for how many seconds it is, at most. */
#define HELD (-2)
#define HELD_SECONDS 0.3

/* Whether a look that finds something is to find nothing: the first place of the program that would be this call, till the
   rank has made another. A message may always come later, so a right program doesn't mind. */
static int is_held(int call, const void *caller)
{
    static const void *place;
    static int held = -1;
    static double since;
    for (int i = 0; i < forced_count; i++) {
        if (forced[i].rank != me || forced[i].call != call || forced[i].source != HELD)
            continue;
        if (held != call) {
            held = call;
            place = caller;
            since = PMPI_Wtime();
        }
        return caller == place && PMPI_Wtime() - since < HELD_SECONDS;
    }
    return 0;
}

/* A receive that can't take that message stays as it is: the program is another than the one that was recorded. */
static void force(int call, MPI_Comm comm, int *from, int *tag)
{
    const struct communicator *c = communicator_of(comm);
    for (int i = 0; i < forced_count; i++) {
        if (forced[i].rank != me || forced[i].call != call || forced[i].source == HELD || (*tag != MPI_ANY_TAG && *tag != forced[i].tag)
                || (*from != MPI_ANY_SOURCE && in_world(c, *from) != forced[i].source))
            continue;
        if (*from == MPI_ANY_SOURCE)
            for (int rank = 0; c && rank < c->size; rank++)
                if (c->world[rank] == forced[i].source)
                    *from = rank;
        if (*tag == MPI_ANY_TAG)
            *tag = forced[i].tag;
    }
}

/* ---- begin and end of a program ---- */

static int is_finalized;
static pid_t process;                   /* the process that is recorded, and not one that it starts */

static void put_program(void)
{
    char program[4096];
    ssize_t length = readlink("/proc/self/exe", program, sizeof program - 1);
    put(" program %.*s", (int)(length > 0 ? length : 0), program);
    end_line();
}

/* Opens a file in place of the record of a process that ends before MPI_Init. */
static int open_early(void)
{
    static const char *const names[] = { "PMI_RANK", "OMPI_COMM_WORLD_RANK", "PMIX_RANK" };
    const char *folder = getenv("MPDREC_FOLDER"), *rank = NULL;
    char path[4096];
    for (size_t i = 0; i < sizeof names / sizeof *names && rank == NULL; i++)
        rank = getenv(names[i]);
    if (folder == NULL || rank == NULL)
        return 0;
    snprintf(path, sizeof path, "%s/early.%d", folder, atoi(rank));
    file = open(path, O_RDWR | O_CREAT | O_TRUNC | O_CLOEXEC, 0666);
    used = 0;
    is_closed = 1;
    put("mpdrec 1 rank %d size 0", atoi(rank));
    put_program();
    return file >= 0;
}

/* Tells how the process ends, and where. */
static void put_end(const char *how, int number, void *at)
{
    static int told;
    if (told++ || getpid() != process || (record == NULL && !open_early()))
        return;
    line_length = 0;
    put("end %s %d", how, number);
    put_frames(at, at != NULL);
    end_line();
}

static void at_exit(int status, void *nothing)
{
    (void)nothing;
    if (status != 0 || (record != NULL && !is_finalized))
        put_end("exit", status, NULL);
}

static const int FATAL[] = { SIGSEGV, SIGBUS, SIGFPE, SIGILL, SIGABRT };
#define FATALS (sizeof FATAL / sizeof *FATAL)
static struct sigaction before[FATALS];     /* what was done at such a signal before the recorder's own */

/* A signal ends the process: that is told, and what would be done without the recorder is done. */
static void at_signal(int number, siginfo_t *told, void *context)
{
    void *at = NULL;
#if defined __x86_64__
    at = (void *)((ucontext_t *)context)->uc_mcontext.gregs[REG_RIP];
#elif defined __aarch64__
    at = (void *)((ucontext_t *)context)->uc_mcontext.pc;
#endif
    for (size_t i = 0; i < FATALS; i++)
        if (FATAL[i] == number)
            sigaction(number, &before[i], NULL);
    put_end("signal", number, at);
    if (told->si_code <= 0)
        raise(number);
}

static void guard(void)
{
    struct sigaction own = { .sa_sigaction = at_signal, .sa_flags = SA_SIGINFO | SA_NODEFER };
    for (size_t i = 0; i < FATALS; i++)
        sigaction(FATAL[i], &own, &before[i]);
}

/* While MPI_Init runs the library may set handlers of its own. */
static void leave(void)
{
    for (size_t i = 0; i < FATALS; i++)
        sigaction(FATAL[i], &before[i], NULL);
}

__attribute__((constructor)) static void load(void)
{
    void *frames[4];
    process = getpid();
    if (getenv("MPDREC_FOLDER") == NULL)
        return;
    backtrace(frames, 4);               /* loads what it needs, which a handler can't */
    on_exit(at_exit, NULL);
    guard();
}

static void start(void)
{
    const char *folder = getenv("MPDREC_FOLDER");
    char path[4096];
    int size;
    if (folder)
        guard();
    owner = pthread_self();
    PMPI_Comm_rank(MPI_COMM_WORLD, &me);
    PMPI_Comm_size(MPI_COMM_WORLD, &size);
    synchronous = getenv("MPDREC_SYNCHRONOUS") != NULL;
    read_forced(getenv("MPDREC_FORCE"));
    snprintf(path, sizeof path, "%s/rank.%d", folder ? folder : "", me);
    file = folder ? open(path, O_RDWR | O_CREAT | O_TRUNC | O_CLOEXEC, 0666) : -1;
    record = ftruncate(file, MOST_BYTES) ? NULL : mmap(NULL, MOST_BYTES, PROT_READ | PROT_WRITE, MAP_SHARED, file, 0);
    record = record == MAP_FAILED ? NULL : record;
    put("mpdrec 1 rank %d size %d", me, size);
    put_program();
    add_communicator(MPI_COMM_WORLD, NULL, "world");
    add_communicator(MPI_COMM_SELF, NULL, "self");
}

#define STARTS(name, parameters, arguments) NAMED(name, parameters) { \
    if (getenv("MPDREC_FOLDER")) \
        leave(); \
    int error = MADE(name, arguments); \
    start(); \
    return error; }
STARTS(Init, (int *count, char ***words), (count, words))
STARTS(Init_thread, (int *count, char ***words, int required, int *provided), (count, words, required, provided))

NAMED(Finalize, (void))
{
    int call = begin("Finalize");
    begun(HERE);
    int error = ended(call, MADE(Finalize, ()));
    is_finalized = 1;
    is_closed = record != NULL && ftruncate(file, used) == 0;
    return error;
}

NAMED(Abort, (MPI_Comm comm, int code))
{
    begin("Abort");
    begun(HERE);
    return MADE(Abort, (comm, code));
}

/* ---- requests ---- */

struct request {
    MPI_Request handle, *place;
    int id, is_live, is_receive;
    const struct communicator *comm;
    const char *persistent;             /* what a start of it is; NULL if it is not persistent */
    struct message message;             /* of a persistent one */
    struct sent sent;                   /* what a send reads till it is complete */
};
static struct request *requests;
static int request_count, request_room, next_id;

static int add_request(MPI_Request *place, int is_receive, const struct communicator *c)
{
    int i = 0;
    while (i < request_count && requests[i].is_live)
        i++;
    if (i == request_count && request_count++ == request_room) {
        request_room = 2 * request_room + 64;
        requests = realloc(requests, request_room * sizeof *requests);
    }
    requests[i] = (struct request){ .place = place, .id = next_id++, .is_live = 1, .is_receive = is_receive, .comm = c,
                                    .sent = { .type = MPI_DATATYPE_NULL } };
    return i;
}

static void drop_request(int i)
{
    let_go(&requests[i].sent);
    requests[i].is_live = 0;
}

/* Before a call, whether sends that are under way still send what they did; of all of them if they are small. */
static void look_at_sent(void)
{
    size_t bytes = 0;
    for (int i = 0; i < request_count; i++)
        bytes += requests[i].is_live && requests[i].sent.has_sum ? requests[i].sent.bytes : 0;
    for (int i = 0; i < request_count && bytes > 0 && bytes <= FEW_BYTES; i++)
        if (requests[i].is_live && has_changed(&requests[i].sent)) {
            put("changed %d", requests[i].id);
            end_line();
        }
}

/* The request of a handle: the newest at this place, else the oldest. MPICH gives one handle to all small sends that
   are complete at once, so that a handle alone doesn't tell. -1 if there is none. */
static int request_of(MPI_Request handle, const MPI_Request *place)
{
    int here = -1, oldest = -1;
    for (int i = 0; handle != MPI_REQUEST_NULL && i < request_count; i++) {
        if (!requests[i].is_live || requests[i].handle != handle)
            continue;
        if (requests[i].place == place && (here < 0 || requests[i].id > requests[here].id))
            here = i;
        if (oldest < 0 || requests[i].id < requests[oldest].id)
            oldest = i;
    }
    return here >= 0 ? here : oldest;
}

static void complete(int i, const MPI_Status *status)
{
    if (i < 0 || requests[i].id < 0)
        return;
    put(" done=%d", requests[i].id);
    if (requests[i].is_receive)
        put_message(requests[i].comm, status);
    if (has_changed(&requests[i].sent))
        put(" changed=%d", requests[i].id);
    let_go(&requests[i].sent);
    if (requests[i].persistent)
        requests[i].id = -1;
    else
        requests[i].is_live = 0;
}

/* ---- sends, receives and probes ---- */

/* A call begins that sends a message, or receives one, or both. */
static int begin_message(const char *name, const struct message *out, const struct message *in, int request, void *caller)
{
    int call = begin(name);
    if (out)
        put_send(in ? "send_tag" : "tag", out);
    if (in)
        put_receive(in);
    if (request >= 0)
        put(" request=%d", requests[request].id);
    begun(caller);
    return call;
}

/* A call that has a request is made. */
static int issued(int call, int request, MPI_Request handle, int error)
{
    if (error != MPI_SUCCESS)
        drop_request(request);
    requests[request].handle = handle;
    return ended(call, error);
}

/* A message is received, or found by a probe. */
static int found(int call, MPI_Comm comm, const MPI_Status *status, int error)
{
    int class = MPI_SUCCESS;
    if (error != MPI_SUCCESS)
        PMPI_Error_class(error, &class);
    put("< %d", call);
    if (class == MPI_SUCCESS || class == MPI_ERR_TRUNCATE) {
        put(" done=-");
        put_message(communicator_of(comm), status);
    }
    put_error(error);
    end_line();
    return error;
}

/* ---- looks that found nothing: counted, and not kept ---- */

#define DIGITS 10
#define MOST_LOOKS 64
/* The places of looks since the last call; of each where its line has its numbers, which are written anew. */
static struct look { const char *name; void *caller; char *last, *times; long count; } looks[MOST_LOOKS];
static int look_count, looks_before = -1;
static long look_number;

static void put_number(char *digits, long number)
{
    for (int i = DIGITS; i-- > 0; number /= 10)
        digits[i] = '0' + number % 10;
}

/* The line of a place that is looked at for the first time since the last call. */
static void add_look(struct look *look)
{
    size_t last, times, start;
    put("? %d %s first=%ld last=", calls, look->name, look_number);
    last = line_length;
    put("%0*ld times=", DIGITS, look_number);
    times = line_length;
    put("%0*d", DIGITS, 1);
    put_place(look->caller);
    start = used;
    end_line();
    if (record != NULL && used < MOST_BYTES) {
        look->last = record + start + last;
        look->times = record + start + times;
    }
}

static void looked(const char *name, void *caller)
{
    int i = 0;
    if (looks_before != calls) {
        looks_before = calls;
        look_count = 0;
        look_number = 0;
    }
    look_number++;
    while (i < look_count && (looks[i].caller != caller || looks[i].name != name))
        i++;
    if (i == MOST_LOOKS)
        i--;
    if (i == look_count) {
        look_count++;
        looks[i] = (struct look){ .name = name, .caller = caller };
        add_look(&looks[i]);
    }
    looks[i].count++;
    if (looks[i].last) {
        put_number(looks[i].last, look_number);
        put_number(looks[i].times, looks[i].count);
    }
}

struct probing { const char *name; int from, tag; MPI_Comm comm; void *caller; };

static int begin_probe(struct probing p)
{
    return begin_message(p.name, NULL, &(struct message){ NULL, -1, MPI_BYTE, p.from, p.tag, p.comm }, -1, p.caller);
}

/* A probe, which looks only if it has a flag. One with a message handle takes the message, so it is a receive. */
static int probed(struct probing p, int *flag, MPI_Message *message, MPI_Status *status)
{
    MPI_Status own, *s = status == MPI_STATUS_IGNORE ? &own : status;
    int from = p.from, tag = p.tag, error, call = flag ? calls : begin_probe(p);
    force(call, p.comm, &from, &tag);
    if (flag)
        error = message ? MADE(Improbe, (from, tag, p.comm, flag, message, s)) : MADE(Iprobe, (from, tag, p.comm, flag, s));
    else
        error = message ? MADE(Mprobe, (from, tag, p.comm, message, s)) : MADE(Probe, (from, tag, p.comm, s));
    if (flag && *flag && !message && is_held(calls, p.caller))
        *flag = 0;
    if (!flag || *flag)
        return found(flag ? begin_probe(p) : call, p.comm, s, error);
    looked(p.name, p.caller);
    return error;
}

/* ---- waits and tests ---- */

enum kind { ONE, ALL, ANY, SOME };
struct waiting { const char *name; enum kind kind; int is_test, count; MPI_Request *list; void *caller; };

static int begin_wait(const struct waiting *w, const int *which)
{
    int call = begin(w->name);
    for (int i = 0; i < w->count; i++) {
        put(i ? "," : " requests=");
        if (which[i] < 0 || requests[which[i]].id < 0)
            put("-");
        else
            put("%d", requests[which[i]].id);
    }
    begun(w->caller);
    return call;
}

/* The call itself: how many requests it completed is `done`, which ones `indexes` tells, if not all. */
static int made_wait(const struct waiting *w, int *is_done, int *done, int *indexes, MPI_Status *statuses)
{
    int n = w->count, error;
    MPI_Request *list = w->list;
    *is_done = 1, *done = n;
    if (w->kind == ONE) {
        error = w->is_test ? MADE(Test, (list, is_done, statuses)) : MADE(Wait, (list, statuses));
    } else if (w->kind == ALL) {
        error = w->is_test ? MADE(Testall, (n, list, is_done, statuses)) : MADE(Waitall, (n, list, statuses));
    } else if (w->kind == ANY) {
        error = w->is_test ? MADE(Testany, (n, list, indexes, is_done, statuses)) : MADE(Waitany, (n, list, indexes, statuses));
        *done = *is_done && *indexes != MPI_UNDEFINED;
    } else {
        error = w->is_test ? MADE(Testsome, (n, list, done, indexes, statuses)) : MADE(Waitsome, (n, list, done, indexes, statuses));
        *is_done = *done != 0;
    }
    return error;
}

/* A wait is written before its call, a test only after one that found something. */
static int waited(struct waiting w, int *flag, int *done, int *indexes, MPI_Status *statuses)
{
    int call = -1, is_done, many, holds = 0;
    int *which = calloc(w.count + 1, sizeof *which);
    MPI_Status *own = calloc(w.count + 1, sizeof *own);
    for (int i = 0; i < w.count; i++) {
        which[i] = request_of(w.list[i], &w.list[i]);
        holds |= which[i] >= 0 && requests[which[i]].id >= 0;
    }
    if (!w.is_test)
        call = begin_wait(&w, which);
    int error = made_wait(&w, &is_done, &many, indexes, own);
    if (flag)
        *flag = is_done;
    if (done)
        *done = many;
    if (is_done && (holds || !w.is_test)) {
        if (w.is_test)
            call = begin_wait(&w, which);
        put("< %d", call);
        for (int i = 0; i < many && many != MPI_UNDEFINED; i++)
            complete(which[w.kind <= ALL ? i : indexes[i]], &own[i]);
        put_error(error);
        end_line();
    } else {
        looked(w.name, w.caller);
    }
    if (is_done && statuses && many != MPI_UNDEFINED)
        memcpy(statuses, own, (w.kind == ANY ? 1 : many) * sizeof *own);
    free(own);
    free(which);
    return error;
}

static int freed(void *caller, MPI_Request *request)
{
    int i = request_of(*request, request), call = begin("Request_free");
    put(" request=%d", i < 0 ? -1 : requests[i].id);
    begun(caller);
    if (i >= 0)
        drop_request(i);
    return ended(call, MADE(Request_free, (request)));
}

/* ---- persistent requests: a start of one is an Isend, an Issend or an Irecv ---- */

static int made_persistent(const char *name, struct message m, MPI_Request *request, int error)
{
    int i = add_request(request, !strcmp(name, "Irecv"), communicator_of(m.comm));
    requests[i].id = -1;                /* each start gives it a number */
    requests[i].handle = *request;
    requests[i].persistent = name;
    requests[i].message = m;
    return error;
}

static void started(void *caller, MPI_Request *request)
{
    int i = request_of(*request, request);
    if (i < 0)
        return;
    requests[i].id = next_id++;
    const struct message *m = &requests[i].message;
    if (!requests[i].is_receive)
        requests[i].sent = sent_of(m->buffer, m->count, m->type);
    ended(begin_message(requests[i].persistent, requests[i].is_receive ? NULL : m, requests[i].is_receive ? m : NULL, i, caller), 0);
}

/* ---- collectives: their name, root, communicator and operation, and what they carry ---- */

#define NO_ROOT INT_MIN

/* The line of a collective begins; what it carries, and its place, follow. */
static int begin_collective(const char *name, int root, MPI_Comm comm, int request)
{
    const struct communicator *c = communicator_of(comm);
    int call = begin(name);
    put(" collective=1");
    if (root == NO_ROOT)
        put(" root=-1");
    else
        put_rank("root", c, root, 0);
    put(" comm=%s", name_of(c, comm));
    if (request >= 0)
        put(" request=%d", requests[request].id);
    return call;
}

static int is_me(MPI_Comm comm, int rank)
{
    return in_world(communicator_of(comm), rank) == me;
}

/* What a rank sends or takes, where that is not what lies there already. */
static void put_part(const char *key, const void *buffer, int count, MPI_Datatype type)
{
    if (buffer != MPI_IN_PLACE)
        put_types(key, count, type);
}

static void put_reduced(MPI_Op op, int count, MPI_Datatype type)
{
    put_operation(op);
    put_types("out", count, type);
}

static void put_gathered(int is_root, const void *b, int n, MPI_Datatype t, int m, MPI_Datatype u)
{
    put_part("out", b, n, t);
    if (is_root)
        put_types("in", m, u);
}

static void put_scattered(int is_root, int n, MPI_Datatype t, const void *o, int m, MPI_Datatype u)
{
    if (is_root)
        put_types("out", n, t);
    put_part("in", o, m, u);
}

static void freed_communicator(const MPI_Comm *handle)
{
    struct communicator *c = communicator_of(*handle);
    if (c) {
        put("freed %s", c->name);
        end_line();
        c->handle = MPI_COMM_NULL;
    }
}

static int named_communicator(MPI_Comm handle, const char *name)
{
    const struct communicator *c = communicator_of(handle);
    if (c && name[0] != '\0') {
        put("named %s %.60s", c->name, name);
        end_line();
    }
    return 0;
}

static int made_communicator(int call, int error, MPI_Comm parent, const MPI_Comm *made)
{
    struct communicator *c = communicator_of(parent);
    ended(call, error);
    if (error != MPI_SUCCESS)
        return error;
    add_communicator(*made, c, "?");
    if (c)
        c->children++;
    return error;
}

static void refuse(const char *name, void *caller)
{
    put("! %s", name);
    begun(caller);
}

/* ---- the table of calls: each row is a function of MPI, with its parameters and what is passed on ---- */

#define PASS(name, arguments) if (is_other_thread() || inside) return MADE(name, arguments)
#define ROW(name, parameters, arguments, recorded) NAMED(name, parameters) { PASS(name, arguments); return recorded; }
#define OF(buffer, count, type, rank, tag) &(struct message){ buffer, count, type, rank, tag, c }
#define SEND(name, other) NAMED(name, (V *b, int n, T t, int q, int tag, MPI_Comm c)) { \
    PASS(name, (b, n, t, q, tag, c)); \
    int call = begin_message(#name, OF(b, n, t, q, tag), NULL, -1, HERE); \
    return ended(call, synchronous ? MADE(other, (b, n, t, q, tag, c)) : MADE(name, (b, n, t, q, tag, c))); }
#define ISEND(name, other) NAMED(name, (V *b, int n, T t, int q, int tag, MPI_Comm c, R *r)) { \
    PASS(name, (b, n, t, q, tag, c, r)); \
    int i = add_request(r, 0, communicator_of(c)), call = begin_message(#name, OF(b, n, t, q, tag), NULL, i, HERE); \
    requests[i].sent = sent_of(b, n, t); \
    int error = synchronous ? MADE(other, (b, n, t, q, tag, c, r)) : MADE(name, (b, n, t, q, tag, c, r)); \
    return issued(call, i, *r, error); }
#define RECEIVE(name, parameters, arguments, out, in) NAMED(name, parameters) { \
    PASS(name, arguments); \
    S own; \
    s = s == MPI_STATUS_IGNORE ? &own : s; \
    int call = begin_message(#name, out, in, -1, HERE); \
    force(call, c, &q, &wanted); \
    int error = MADE(name, arguments); \
    return found(call, c, s, error); }
#define PERSISTENT(name, as, CONST) ROW(name, (CONST void *b, int n, T t, int q, int tag, MPI_Comm c, R *r), \
    (b, n, t, q, tag, c, r), made_persistent(as, *OF(b, n, t, q, tag), r, MADE(name, (b, n, t, q, tag, c, r))))
#define PROBING(name) (struct probing){ #name, from, tag, c, HERE }
#define WAITING(name, kind, is_test, count) (struct waiting){ #name, kind, is_test, count, r, HERE }
#define ONE(status) ((status) == MPI_STATUS_IGNORE ? NULL : (status))
#define MANY(statuses) ((statuses) == MPI_STATUSES_IGNORE ? NULL : (statuses))
#define COLLECTIVE(name, root, parameters, arguments, carried) NAMED(name, parameters) { \
    PASS(name, arguments); \
    int call = begin_collective(#name, root, c, -1); \
    carried; \
    begun(HERE); \
    return ended(call, MADE(name, arguments)); }
#define ICOLLECTIVE(name, root, parameters, arguments, carried) NAMED(name, parameters) { \
    PASS(name, arguments); \
    int i = add_request(r, 0, communicator_of(c)), call = begin_collective(#name, root, c, i); \
    carried; \
    begun(HERE); \
    int error = MADE(name, arguments); \
    return issued(call, i, *r, error); }
#define MAKES(name, parameters, arguments) NAMED(name, parameters) { \
    PASS(name, arguments); \
    int call = begin_collective(#name, NO_ROOT, c, -1); \
    begun(HERE); \
    return made_communicator(call, MADE(name, arguments), c, made); }
#define REFUSED(name, parameters, arguments) NAMED(name, parameters) { \
    if (!is_other_thread() && !inside) \
        refuse(#name, HERE); \
    return MADE(name, arguments); }

typedef MPI_Datatype T; typedef MPI_Request R; typedef MPI_Status S; typedef MPI_Message M; typedef const void V; typedef const int I;

SEND(Send, Ssend) SEND(Ssend, Ssend) SEND(Bsend, Bsend) SEND(Rsend, Rsend)
ISEND(Isend, Issend) ISEND(Issend, Issend) ISEND(Ibsend, Ibsend) ISEND(Irsend, Irsend)

RECEIVE(Recv, (void *b, int n, T t, int q, int wanted, MPI_Comm c, S *s), (b, n, t, q, wanted, c, s), NULL, OF(b, n, t, q, wanted))
RECEIVE(Sendrecv, (V *b, int n, T t, int to, int tag, void *o, int m, T u, int q, int wanted, MPI_Comm c, S *s),
        (b, n, t, to, tag, o, m, u, q, wanted, c, s), OF(b, n, t, to, tag), OF(o, m, u, q, wanted))
RECEIVE(Sendrecv_replace, (void *b, int n, T t, int to, int tag, int q, int wanted, MPI_Comm c, S *s),
        (b, n, t, to, tag, q, wanted, c, s), OF(b, n, t, to, tag), OF(b, n, t, q, wanted))

NAMED(Irecv, (void *b, int n, T t, int q, int tag, MPI_Comm c, R *r))
{
    PASS(Irecv, (b, n, t, q, tag, c, r));
    int i = add_request(r, 1, communicator_of(c)), call = begin_message("Irecv", NULL, OF(b, n, t, q, tag), i, HERE);
    force(call, c, &q, &tag);
    int error = MADE(Irecv, (b, n, t, q, tag, c, r));
    return issued(call, i, *r, error);
}

ROW(Probe, (int from, int tag, MPI_Comm c, S *s), (from, tag, c, s), probed(PROBING(Probe), NULL, NULL, s))
ROW(Mprobe, (int from, int tag, MPI_Comm c, M *m, S *s), (from, tag, c, m, s), probed(PROBING(Mprobe), NULL, m, s))
ROW(Iprobe, (int from, int tag, MPI_Comm c, int *f, S *s), (from, tag, c, f, s), probed(PROBING(Iprobe), f, NULL, s))
ROW(Improbe, (int from, int tag, MPI_Comm c, int *f, M *m, S *s), (from, tag, c, f, m, s), probed(PROBING(Improbe), f, m, s))
ROW(Wait, (R *r, S *s), (r, s), waited(WAITING(Wait, ONE, 0, 1), NULL, NULL, NULL, ONE(s)))
ROW(Waitall, (int n, R r[], S s[]), (n, r, s), waited(WAITING(Waitall, ALL, 0, n), NULL, NULL, NULL, MANY(s)))
ROW(Waitany, (int n, R r[], int *x, S *s), (n, r, x, s), waited(WAITING(Waitany, ANY, 0, n), NULL, NULL, x, ONE(s)))
ROW(Waitsome, (int n, R r[], int *m, int x[], S s[]), (n, r, m, x, s), waited(WAITING(Waitsome, SOME, 0, n), NULL, m, x, MANY(s)))
ROW(Test, (R *r, int *f, S *s), (r, f, s), waited(WAITING(Test, ONE, 1, 1), f, NULL, NULL, ONE(s)))
ROW(Testall, (int n, R r[], int *f, S s[]), (n, r, f, s), waited(WAITING(Testall, ALL, 1, n), f, NULL, NULL, MANY(s)))
ROW(Testany, (int n, R r[], int *x, int *f, S *s), (n, r, x, f, s), waited(WAITING(Testany, ANY, 1, n), f, NULL, x, ONE(s)))
ROW(Testsome, (int n, R r[], int *m, int x[], S s[]), (n, r, m, x, s), waited(WAITING(Testsome, SOME, 1, n), NULL, m, x, MANY(s)))
ROW(Request_free, (R *r), (r), freed(HERE, r))
/* A library may free what the program made, in a call of its own. */
#define FREES(name) NAMED(name, (MPI_Comm *made)) { \
    if (!is_other_thread()) \
        freed_communicator(made); \
    return MADE(name, (made)); }
FREES(Comm_free)
FREES(Comm_disconnect)
ROW(Comm_set_name, (MPI_Comm c, const char *name), (c, name), (named_communicator(c, name), MADE(Comm_set_name, (c, name))))
PERSISTENT(Send_init, "Isend", const)
PERSISTENT(Ssend_init, "Issend", const)
PERSISTENT(Bsend_init, "Ibsend", const)
PERSISTENT(Rsend_init, "Irsend", const)
PERSISTENT(Recv_init, "Irecv", )
ROW(Start, (R *r), (r), (started(HERE, r), MADE(Start, (r))))

NAMED(Startall, (int n, R r[]))
{
    for (int i = 0; i < n && !is_other_thread() && !inside; i++)
        started(HERE, &r[i]);
    return MADE(Startall, (n, r));
}

COLLECTIVE(Barrier, NO_ROOT, (MPI_Comm c), (c), (void)0)
COLLECTIVE(Bcast, q, (void *b, int n, T t, int q, MPI_Comm c), (b, n, t, q, c), put_types("out", n, t))
COLLECTIVE(Reduce, q, (V *b, void *o, int n, T t, MPI_Op p, int q, MPI_Comm c), (b, o, n, t, p, q, c), put_reduced(p, n, t))
COLLECTIVE(Allreduce, NO_ROOT, (V *b, void *o, int n, T t, MPI_Op p, MPI_Comm c), (b, o, n, t, p, c), put_reduced(p, n, t))
COLLECTIVE(Scan, NO_ROOT, (V *b, void *o, int n, T t, MPI_Op p, MPI_Comm c), (b, o, n, t, p, c), put_reduced(p, n, t))
COLLECTIVE(Exscan, NO_ROOT, (V *b, void *o, int n, T t, MPI_Op p, MPI_Comm c), (b, o, n, t, p, c), put_reduced(p, n, t))
COLLECTIVE(Gather, q, (V *b, int n, T t, void *o, int m, T u, int q, MPI_Comm c), (b, n, t, o, m, u, q, c), put_gathered(is_me(c, q), b, n, t, m, u))
COLLECTIVE(Gatherv, q, (V *b, int n, T t, void *o, I *m, I *x, T u, int q, MPI_Comm c), (b, n, t, o, m, x, u, q, c), put_gathered(is_me(c, q), b, n, t, OF_EACH, u))
COLLECTIVE(Scatter, q, (V *b, int n, T t, void *o, int m, T u, int q, MPI_Comm c), (b, n, t, o, m, u, q, c), put_scattered(is_me(c, q), n, t, o, m, u))
COLLECTIVE(Scatterv, q, (V *b, I *n, I *x, T t, void *o, int m, T u, int q, MPI_Comm c), (b, n, x, t, o, m, u, q, c), put_scattered(is_me(c, q), OF_EACH, t, o, m, u))
COLLECTIVE(Allgather, NO_ROOT, (V *b, int n, T t, void *o, int m, T u, MPI_Comm c), (b, n, t, o, m, u, c), put_gathered(1, b, n, t, m, u))
COLLECTIVE(Allgatherv, NO_ROOT, (V *b, int n, T t, void *o, I *m, I *x, T u, MPI_Comm c), (b, n, t, o, m, x, u, c), put_gathered(1, b, n, t, OF_EACH, u))
COLLECTIVE(Alltoall, NO_ROOT, (V *b, int n, T t, void *o, int m, T u, MPI_Comm c), (b, n, t, o, m, u, c), put_gathered(1, b, n, t, m, u))
COLLECTIVE(Alltoallv, NO_ROOT, (V *b, I *n, I *x, T t, void *o, I *m, I *y, T u, MPI_Comm c), (b, n, x, t, o, m, y, u, c), put_gathered(1, b, OF_EACH, t, OF_EACH, u))
COLLECTIVE(Alltoallw, NO_ROOT, (V *b, I *n, I *x, const T *t, void *o, I *m, I *y, const T *u, MPI_Comm c), (b, n, x, t, o, m, y, u, c), (void)0)
COLLECTIVE(Reduce_scatter, NO_ROOT, (V *b, void *o, I *n, T t, MPI_Op p, MPI_Comm c), (b, o, n, t, p, c), put_reduced(p, OF_EACH, t))
COLLECTIVE(Reduce_scatter_block, NO_ROOT, (V *b, void *o, int n, T t, MPI_Op p, MPI_Comm c), (b, o, n, t, p, c), put_reduced(p, n, t))
ICOLLECTIVE(Ibarrier, NO_ROOT, (MPI_Comm c, R *r), (c, r), (void)0)
ICOLLECTIVE(Ibcast, q, (void *b, int n, T t, int q, MPI_Comm c, R *r), (b, n, t, q, c, r), put_types("out", n, t))
ICOLLECTIVE(Ireduce, q, (V *b, void *o, int n, T t, MPI_Op p, int q, MPI_Comm c, R *r), (b, o, n, t, p, q, c, r), put_reduced(p, n, t))
ICOLLECTIVE(Iallreduce, NO_ROOT, (V *b, void *o, int n, T t, MPI_Op p, MPI_Comm c, R *r), (b, o, n, t, p, c, r), put_reduced(p, n, t))
ICOLLECTIVE(Igather, q, (V *b, int n, T t, void *o, int m, T u, int q, MPI_Comm c, R *r), (b, n, t, o, m, u, q, c, r), put_gathered(is_me(c, q), b, n, t, m, u))
ICOLLECTIVE(Iscatter, q, (V *b, int n, T t, void *o, int m, T u, int q, MPI_Comm c, R *r), (b, n, t, o, m, u, q, c, r), put_scattered(is_me(c, q), n, t, o, m, u))
ICOLLECTIVE(Iallgather, NO_ROOT, (V *b, int n, T t, void *o, int m, T u, MPI_Comm c, R *r), (b, n, t, o, m, u, c, r), put_gathered(1, b, n, t, m, u))
ICOLLECTIVE(Ialltoall, NO_ROOT, (V *b, int n, T t, void *o, int m, T u, MPI_Comm c, R *r), (b, n, t, o, m, u, c, r), put_gathered(1, b, n, t, m, u))
MAKES(Comm_dup, (MPI_Comm c, MPI_Comm *made), (c, made))
MAKES(Comm_dup_with_info, (MPI_Comm c, MPI_Info i, MPI_Comm *made), (c, i, made))
MAKES(Comm_split, (MPI_Comm c, int color, int key, MPI_Comm *made), (c, color, key, made))
MAKES(Comm_split_type, (MPI_Comm c, int kind, int key, MPI_Info i, MPI_Comm *made), (c, kind, key, i, made))
MAKES(Comm_create, (MPI_Comm c, MPI_Group g, MPI_Comm *made), (c, g, made))
MAKES(Cart_create, (MPI_Comm c, int n, I *sizes, I *wraps, int reorder, MPI_Comm *made), (c, n, sizes, wraps, reorder, made))
MAKES(Cart_sub, (MPI_Comm c, I *kept, MPI_Comm *made), (c, kept, made))
REFUSED(Cancel, (R *r), (r))
REFUSED(Win_create, (void *b, MPI_Aint n, int unit, MPI_Info i, MPI_Comm c, MPI_Win *w), (b, n, unit, i, c, w))
REFUSED(Win_create_dynamic, (MPI_Info i, MPI_Comm c, MPI_Win *w), (i, c, w))
REFUSED(Win_allocate, (MPI_Aint n, int unit, MPI_Info i, MPI_Comm c, void *b, MPI_Win *w), (n, unit, i, c, b, w))
REFUSED(Win_allocate_shared, (MPI_Aint n, int unit, MPI_Info i, MPI_Comm c, void *b, MPI_Win *w), (n, unit, i, c, b, w))
REFUSED(File_open, (MPI_Comm c, const char *name, int mode, MPI_Info i, MPI_File *f), (c, name, mode, i, f))
REFUSED(Comm_spawn, (const char *w, char *v[], int n, MPI_Info i, int q, MPI_Comm c, MPI_Comm *o, int e[]), (w, v, n, i, q, c, o, e))
REFUSED(Comm_idup, (MPI_Comm c, MPI_Comm *o, R *r), (c, o, r))
REFUSED(Comm_create_group, (MPI_Comm c, MPI_Group g, int tag, MPI_Comm *o), (c, g, tag, o))
REFUSED(Intercomm_create, (MPI_Comm c, int q, MPI_Comm peer, int p, int tag, MPI_Comm *o), (c, q, peer, p, tag, o))
REFUSED(Graph_create, (MPI_Comm c, int n, I *x, I *e, int reorder, MPI_Comm *o), (c, n, x, e, reorder, o))
REFUSED(Dist_graph_create, (MPI_Comm c, int n, I *s, I *d, I *e, I *w, MPI_Info i, int r, MPI_Comm *o), (c, n, s, d, e, w, i, r, o))
REFUSED(Dist_graph_create_adjacent, (MPI_Comm c, int n, I *s, I *x, int m, I *d, I *y, MPI_Info i, int r, MPI_Comm *o), (c, n, s, x, m, d, y, i, r, o))
REFUSED(Neighbor_allgather, (V *b, int n, T t, void *o, int m, T u, MPI_Comm c), (b, n, t, o, m, u, c))
REFUSED(Neighbor_alltoall, (V *b, int n, T t, void *o, int m, T u, MPI_Comm c), (b, n, t, o, m, u, c))
