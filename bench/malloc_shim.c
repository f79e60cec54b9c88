/* Counts what a program asks of memory, and refuses it where it is told to. Preloaded: see bench/memory.py.
 *
 * The program writes a line that begins with "mark begin" and one that begins with "mark end"; what it asks for between
 * these two writes is inside, all else is outside. Only growths count: malloc, calloc, realloc and their kin.
 *
 *   SHIM_REPORT=FILE           at the end writes there: inside N outside N refused N elsewhere N, the last of them in threads that
 *                              the program has started
 *   SHIM_REFUSE=inside         refuses all that is asked for inside
 *   SHIM_REFUSE=N              refuses the Nth that is asked for, and all after it
 *   SHIM_REFUSE_ONE=N          refuses the Nth alone
 *   SHIM_REFUSE_INSIDE=N       refuses the Nth that is asked for inside, and all after it inside
 *   SHIM_REFUSE_INSIDE_ONE=N   refuses the Nth inside alone
 */
/* (no header of the system is read: the kit's compiler comes with none) */
typedef __SIZE_TYPE__ size_t;
enum { NO_MEMORY = 12, SYS_WRITE = 1, SYS_GETPID = 39, SYS_GETTID = 186, SYS_EXIT_GROUP = 231, WRITE_ANEW = 01 | 0100 | 01000 };
#define NULL ((void *)0)

int *__errno_location(void);
long syscall(long number, ...);
int open(const char *path, int flags, ...);
int close(int file);
char *getenv(const char *name);
unsigned long strtoul(const char *text, char **end, int base);
int strcmp(const char *left, const char *right);
int strncmp(const char *left, const char *right, size_t most);
size_t strlen(const char *text);
int snprintf(char *out, size_t most, const char *format, ...);
void *__libc_malloc(size_t size);
void *__libc_calloc(size_t count, size_t size);
void *__libc_realloc(void *old, size_t size);
void *__libc_memalign(size_t alignment, size_t size);

static int is_inside, refuses_inside;
static unsigned long asked_for, inside, outside, refused, elsewhere, refused_from, refused_one, inside_from, inside_one;

/* One more of what several threads may count. */
static unsigned long count(unsigned long *counter) {
    return __atomic_add_fetch(counter, 1, __ATOMIC_SEQ_CST);
}

/* Whether a number is that of the one that is refused, or not below the first of those that are. */
static int is_told(unsigned long number, unsigned long from, unsigned long one) {
    return (from && number >= from) || number == one;
}

/* Counts one request; whether it is to be refused. */
static int refuses(void) {
    int is_refused = 0;
    if (is_inside)
        is_refused = is_told(count(&inside), inside_from, inside_one) || refuses_inside;
    else
        count(&outside);
    is_refused |= is_told(count(&asked_for), refused_from, refused_one);
    if (is_refused) {
        count(&refused);
        if (syscall(SYS_GETTID) != syscall(SYS_GETPID))
            count(&elsewhere);
        *__errno_location() = NO_MEMORY;
    }
    return is_refused;
}

void *malloc(size_t size) {
    return refuses() ? NULL : __libc_malloc(size);
}

void *calloc(size_t count, size_t size) {
    return refuses() ? NULL : __libc_calloc(count, size);
}

void *realloc(void *old, size_t size) {
    return refuses() ? NULL : __libc_realloc(old, size);
}

void *memalign(size_t alignment, size_t size) {
    return refuses() ? NULL : __libc_memalign(alignment, size);
}

void *aligned_alloc(size_t alignment, size_t size) {
    return refuses() ? NULL : __libc_memalign(alignment, size);
}

void *valloc(size_t size) {
    return refuses() ? NULL : __libc_memalign(4096, size);
}

int posix_memalign(void **made, size_t alignment, size_t size) {
    if (refuses())
        return NO_MEMORY;
    *made = __libc_memalign(alignment, size);
    return *made ? 0 : NO_MEMORY;
}

static int begins_with(const void *data, size_t size, const char *text) {
    return size >= strlen(text) && strncmp(data, text, strlen(text)) == 0;
}

long write(int file, const void *data, size_t size) {
    if (begins_with(data, size, "mark end"))
        is_inside = 0;
    long wrote = syscall(SYS_WRITE, file, data, size);
    if (begins_with(data, size, "mark begin"))
        is_inside = 1;
    return wrote;
}

long __write(int file, const void *data, size_t size) {
    return write(file, data, size);
}

/* The number that a variable of the environment has; 0 where there is none. */
static unsigned long number_in(const char *name) {
    const char *text = getenv(name);
    return text ? strtoul(text, NULL, 10) : 0;
}

__attribute__((constructor)) static void begin(void) {
    const char *asked = getenv("SHIM_REFUSE");
    if (asked && strcmp(asked, "inside") == 0)
        refuses_inside = 1;
    else if (asked)
        refused_from = strtoul(asked, NULL, 10);
    refused_one = number_in("SHIM_REFUSE_ONE");
    inside_from = number_in("SHIM_REFUSE_INSIDE");
    inside_one = number_in("SHIM_REFUSE_INSIDE_ONE");
}

__attribute__((destructor)) static void end(void) {
    const char *report = getenv("SHIM_REPORT");
    char line[120];
    int file = report ? open(report, WRITE_ANEW, 0644) : -1;
    if (file < 0)
        return;
    int size = snprintf(line, sizeof line, "inside %lu outside %lu refused %lu elsewhere %lu\n", inside, outside, refused, elsewhere);
    if (syscall(SYS_WRITE, file, line, (size_t)size) != size)
        syscall(SYS_EXIT_GROUP, 70);
    close(file);
}

/* A program that may start threads ends so, and calls no destructor. */
__attribute__((noreturn)) void _exit(int status) {
    end();
    for (;;)
        syscall(SYS_EXIT_GROUP, status);
}
