/* Has one device of a program fail: FAIL_FILE names it (0 standard input, 1 standard output, 3 files that are opened, 4 what the first
 * connection brings, 5 what is sent to it), FAIL_CALLS after how many reads or writes, FAIL_BYTES after how many bytes, up to which a
 * read or a write is cut short. Preloaded: see compare/statuses/worked_program.py and compare/statuses/device_statuses.py.
 * (no header of the system is read: the kit's compiler comes with none) */
typedef __SIZE_TYPE__ size_t;
enum { BROKEN = 5, SYS_READ = 0, SYS_WRITE = 1, SYS_CLOSE = 3, SYS_SENDTO = 44, SYS_RECVFROM = 45, OPENED = 3, RECEIVED = 4, SENT = 5 };

int *__errno_location(void);
long syscall(long number, ...);
char *getenv(const char *name);

static const long UNREAD = -2, NO_LIMIT = -1;
static long device = UNREAD, calls = NO_LIMIT, bytes = NO_LIMIT;

/* The first connection, until it is closed: another may get its number then. */
enum { NOT_YET = -1, CLOSED = -2 };
static int connection = NOT_YET;

static long number_of(const char *name) {
    const char *text = getenv(name);
    long number = 0;
    if (!text) {
        return NO_LIMIT;
    }
    while (*text) {
        number = number * 10 + (*text++ - '0');
    }
    return number;
}

/* Passes a call on; on the device that fails it is counted, cut short, or broken off. */
static long passed(long call, int file, long kind, void *data, size_t size, long flags) {
    long count;
    if (device == UNREAD) {
        device = number_of("FAIL_FILE");
        calls = number_of("FAIL_CALLS");
        bytes = number_of("FAIL_BYTES");
    }
    if (kind != device) {
        return syscall(call, file, data, size, flags, 0, 0);
    }
    if (calls == 0 || bytes == 0) {
        *__errno_location() = BROKEN;
        return -1;
    }
    if (bytes > 0 && size > (size_t)bytes) {
        size = (size_t)bytes;
    }
    count = syscall(call, file, data, size, flags, 0, 0);
    if (calls > 0) {
        calls--;
    }
    if (bytes > 0 && count > 0) {
        bytes -= count;
    }
    return count;
}

static long of_file(int file) {
    return file < OPENED ? file : OPENED;
}

/* Which device a connection is: none, but for the first. */
static long of_connection(int file, long kind) {
    if (connection == NOT_YET) {
        connection = file;
    }
    return file == connection ? kind : NO_LIMIT;
}

long read(int file, void *data, size_t size) {
    return passed(SYS_READ, file, of_file(file), data, size, 0);
}

long write(int file, const void *data, size_t size) {
    return passed(SYS_WRITE, file, of_file(file), (void *)data, size, 0);
}

long recv(int file, void *data, size_t size, int flags) {
    return passed(SYS_RECVFROM, file, of_connection(file, RECEIVED), data, size, flags);
}

long send(int file, const void *data, size_t size, int flags) {
    return passed(SYS_SENDTO, file, of_connection(file, SENT), (void *)data, size, flags);
}

int close(int file) {
    if (file == connection) {
        connection = CLOSED;
    }
    return (int)syscall(SYS_CLOSE, file);
}

long __write(int file, const void *data, size_t size) {
    return write(file, data, size);
}
