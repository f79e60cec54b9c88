/* Says of each read of a program how many bytes it has written before, and of each write how many it takes: a line `read N` or
 * `write N` on standard error. Each is interrupted once, of which nothing is said. Preloaded: see compare/statuses/worked_program.py.
 * (no header of the system is read: the kit's compiler comes with none) */
typedef __SIZE_TYPE__ size_t;
enum { INTERRUPTED = 4, SYS_READ = 0, SYS_WRITE = 1, STDIN = 0, STDOUT = 1, STDERR = 2 };

int *__errno_location(void);
long syscall(long number, ...);

static int reads, writes;
static long written;

static long interrupted(void) {
    *__errno_location() = INTERRUPTED;
    return -1;
}

static void say(const char *what, long number) {
    char line[32], digits[20];
    int length = 0, count = 0;
    while (what[length]) {
        line[length] = what[length];
        length++;
    }
    do {
        digits[count++] = '0' + number % 10;
        number /= 10;
    } while (number);
    while (count) {
        line[length++] = digits[--count];
    }
    line[length++] = '\n';
    syscall(SYS_WRITE, STDERR, line, (size_t)length);
}

long read(int file, void *data, size_t size) {
    if (++reads % 2) {
        return interrupted();
    }
    if (file == STDIN) {
        say("read ", written);
    }
    return syscall(SYS_READ, file, data, size);
}

long write(int file, const void *data, size_t size) {
    long count;
    if (++writes % 2) {
        return interrupted();
    }
    count = syscall(SYS_WRITE, file, data, size);
    if (file == STDOUT && count >= 0) {
        say("write ", count);
        written += count;
    }
    return count;
}

long __write(int file, const void *data, size_t size) {
    return write(file, data, size);
}
