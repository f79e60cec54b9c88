/* signatures.h: what calls carry, by the names of types and operations, and sums of buffers that are sent; a part of record.c.

   A field out=COUNT:NAME/SIZE/TIMES,.. says what a call sends, and in=.. what it takes: so many times a row of values of
   types that MPI names, each SIZE bytes long, TIMES one after another; COUNT is * where each rank has one of its own. What
   is made of more than MOST_RUNS such rows, or of types that MPI doesn't tell, has no field. */

#define MOST_RUNS 48
#define MOST_DEPTH 16
/* A message of more bytes that lies in pieces has no sum. */
#define MOST_PACKED (16 << 20)
/* While all messages that are under way have no more bytes than these, each call looks whether one has changed. */
#define FEW_BYTES (16 << 10)
#define OF_EACH (-1)

struct run { MPI_Datatype type; long times; };
struct runs { int count; struct run run[MOST_RUNS]; };

static int add_run(struct runs *runs, MPI_Datatype type, long times)
{
    if (runs->count > 0 && runs->run[runs->count - 1].type == type) {
        runs->run[runs->count - 1].times += times;
        return 1;
    }
    if (runs->count == MOST_RUNS)
        return 0;
    runs->run[runs->count++] = (struct run){ type, times };
    return 1;
}

static int add_type(struct runs *runs, MPI_Datatype type, long times, int depth);

/* What `type` holds, as often as it is told, for each of the types that it is made of. */
static int add_parts(struct runs *runs, int combiner, const int *numbers, const MPI_Datatype *types, int depth)
{
    int count = numbers[0];
    long times = 0;
    switch (combiner) {
    case MPI_COMBINER_DUP:
    case MPI_COMBINER_RESIZED:
        return add_type(runs, types[0], 1, depth);
    case MPI_COMBINER_CONTIGUOUS:
        return add_type(runs, types[0], count, depth);
    case MPI_COMBINER_VECTOR:
    case MPI_COMBINER_HVECTOR:
    case MPI_COMBINER_INDEXED_BLOCK:
    case MPI_COMBINER_HINDEXED_BLOCK:
        return add_type(runs, types[0], (long)count * numbers[1], depth);
    case MPI_COMBINER_INDEXED:
    case MPI_COMBINER_HINDEXED:
        for (int i = 0; i < count; i++)
            times += numbers[1 + i];
        return add_type(runs, types[0], times, depth);
    case MPI_COMBINER_SUBARRAY:
        times = 1;
        for (int i = 0; i < count; i++)
            times *= numbers[1 + count + i];
        return add_type(runs, types[0], times, depth);
    case MPI_COMBINER_STRUCT:
        for (int i = 0; i < count; i++)
            if (!add_type(runs, types[i], numbers[1 + i], depth))
                return 0;
        return 1;
    default:
        return 0;
    }
}

/* Frees a type that a library gave as a part of another, if it is none that MPI names. */
static void let_go_of_part(MPI_Datatype *type)
{
    int numbers, addresses, types, combiner;
    if (PMPI_Type_get_envelope(*type, &numbers, &addresses, &types, &combiner) == MPI_SUCCESS && combiner != MPI_COMBINER_NAMED)
        PMPI_Type_free(type);
}

/* Adds a type so many times; whether what it holds is known, and short enough. */
static int add_type(struct runs *runs, MPI_Datatype type, long times, int depth)
{
    int numbers, addresses, types, combiner, is_known;
    if (times <= 0)
        return times == 0;
    if (type == MPI_DATATYPE_NULL || depth == MOST_DEPTH
            || PMPI_Type_get_envelope(type, &numbers, &addresses, &types, &combiner) != MPI_SUCCESS)
        return 0;
    if (combiner == MPI_COMBINER_NAMED)
        return add_run(runs, type, times);
    if (types < 1)
        return 0;
    int *number = calloc(numbers + 1, sizeof *number);
    MPI_Aint *address = calloc(addresses + 1, sizeof *address);
    MPI_Datatype *made_of = calloc(types, sizeof *made_of);
    struct runs *own = calloc(1, sizeof *own);
    PMPI_Type_get_contents(type, numbers, addresses, types, number, address, made_of);
    is_known = add_parts(own, combiner, number, made_of, depth + 1);
    if (is_known && own->count == 1)
        is_known = add_run(runs, own->run[0].type, own->run[0].times * times);
    else
        for (long turn = 0; is_known && own->count > 0 && turn < times; turn++)
            for (int i = 0; is_known && i < own->count; i++)
                is_known = add_run(runs, own->run[i].type, own->run[i].times);
    for (int i = 0; i < types; i++)
        let_go_of_part(&made_of[i]);
    free(own);
    free(made_of);
    free(address);
    free(number);
    return is_known;
}

static int is_word(const char *text)
{
    return text[0] != '\0' && text[strspn(text, "ABCDEFGHIJKLMNOPQRSTUVWXYZabcdefghijklmnopqrstuvwxyz0123456789_")] == '\0';
}

/* The field of what a call sends or takes: so many of a type. */
static void put_types(const char *key, int count, MPI_Datatype type)
{
    struct runs runs = { 0 };
    char names[MOST_RUNS][MPI_MAX_OBJECT_NAME];
    if (!add_type(&runs, type, 1, 0))
        return;
    for (int i = 0; i < runs.count; i++) {
        int length = 0;
        names[i][0] = '\0';
        PMPI_Type_get_name(runs.run[i].type, names[i], &length);
        if (!is_word(names[i]))
            return;
    }
    put(count == OF_EACH ? " %s=*" : " %s=%d", key, count);
    for (int i = 0; i < runs.count; i++) {
        int size = 0;
        PMPI_Type_size(runs.run[i].type, &size);
        put("%c%s/%d/%ld", i ? ',' : ':', names[i], size, runs.run[i].times);
    }
}

/* The name of an operation that MPI names; one of the program's own has none. */
static void put_operation(MPI_Op op)
{
    const struct { MPI_Op op; const char *name; } known[] = {
        { MPI_SUM, "SUM" }, { MPI_PROD, "PROD" }, { MPI_MAX, "MAX" }, { MPI_MIN, "MIN" }, { MPI_LAND, "LAND" }, { MPI_BAND, "BAND" },
        { MPI_LOR, "LOR" }, { MPI_BOR, "BOR" }, { MPI_LXOR, "LXOR" }, { MPI_BXOR, "BXOR" }, { MPI_MAXLOC, "MAXLOC" }, { MPI_MINLOC, "MINLOC" } };
    for (size_t i = 0; i < sizeof known / sizeof *known; i++)
        if (known[i].op == op) {
            put(" op=MPI_%s", known[i].name);
            return;
        }
    put(" op=own");
}

/* ---- sums of buffers that are sent ---- */

/* What a send reads, by its first byte and how far it goes; in one piece, or as its type says, which is kept till then. */
struct sent { const char *first; size_t bytes; uint64_t sum; const void *buffer; int count; MPI_Datatype type; int has_sum; };

/* Adds memory to a sum; 0 if some of it is not there, which must not end the program. */
static int add_memory(const char *first, size_t bytes, uint64_t *sum)
{
    static uint64_t part[8192];
    while (bytes > 0) {
        size_t length = bytes < sizeof part ? bytes : sizeof part;
        struct iovec here = { part, length }, there = { (void *)first, length };
        part[(length - 1) / sizeof *part] = 0;
        if (process_vm_readv(getpid(), &here, 1, &there, 1, 0) != (ssize_t)length)
            return 0;
        for (size_t i = 0; i < (length + sizeof *part - 1) / sizeof *part; i++)
            *sum = ((*sum ^ part[i]) * 0x9e3779b97f4a7c15u) ^ (*sum >> 29);
        first += length;
        bytes -= length;
    }
    return 1;
}

/* The sum of what a send reads; whether it has one. */
static int sum_of(const struct sent *sent, uint64_t *sum)
{
    *sum = 1;
    if (!add_memory(sent->first, sent->bytes, sum))
        return 0;
    if (sent->type == MPI_DATATYPE_NULL)
        return 1;
    int room = 0, used = 0;
    PMPI_Pack_size(sent->count, sent->type, MPI_COMM_SELF, &room);
    char *packed = malloc(room + 1);
    int is_packed = packed && PMPI_Pack(sent->buffer, sent->count, sent->type, packed, room, &used, MPI_COMM_SELF) == MPI_SUCCESS;
    *sum = 1;
    is_packed = is_packed && add_memory(packed, used, sum);
    free(packed);
    return is_packed;
}

static struct sent sent_of(const void *buffer, int count, MPI_Datatype type)
{
    struct sent sent = { .buffer = buffer, .count = count, .type = MPI_DATATYPE_NULL };
    MPI_Aint low, extent, true_low, true_extent;
    int size = 0;
    if (count <= 0 || type == MPI_DATATYPE_NULL || PMPI_Type_size(type, &size) != MPI_SUCCESS || size <= 0)
        return sent;
    PMPI_Type_get_extent(type, &low, &extent);
    PMPI_Type_get_true_extent(type, &true_low, &true_extent);
    if (extent <= 0 || true_extent <= 0)
        return sent;
    sent.first = (const char *)buffer + true_low;
    sent.bytes = (size_t)extent * (count - 1) + true_extent;
    if (true_extent != size || (count > 1 && extent != size)) {
        if ((size_t)size * count > MOST_PACKED || sent.bytes > 4 * (size_t)MOST_PACKED)
            return sent;
        PMPI_Type_dup(type, &sent.type);
    }
    sent.has_sum = sum_of(&sent, &sent.sum);
    return sent;
}

/* Whether what is sent is another than it was; it is told once. */
static int has_changed(struct sent *sent)
{
    uint64_t sum;
    if (!sent->has_sum || (sum_of(sent, &sum) && sum == sent->sum))
        return 0;
    sent->has_sum = 0;
    return 1;
}

static void let_go(struct sent *sent)
{
    if (sent->type != MPI_DATATYPE_NULL)
        PMPI_Type_free(&sent->type);
    sent->type = MPI_DATATYPE_NULL;
    sent->has_sum = 0;
}
