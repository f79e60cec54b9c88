/* Interrupts a program: each read and each write fails once with EINTR, and is then done, and so each call of a connection, and each
 * that accepts one. Preloaded: see compare/runs/statuses.py and compare/statuses/device_statuses.py.
 * (no header of the system is read: the kit's compiler comes with none) */
typedef __SIZE_TYPE__ size_t;
enum { INTERRUPTED = 4, SYS_READ = 0, SYS_WRITE = 1, SYS_SENDTO = 44, SYS_RECVFROM = 45, SYS_ACCEPT4 = 288 };

int *__errno_location(void);
long syscall(long number, ...);

static int reads, writes, received, sent, accepted;

static long interrupted(void) {
    *__errno_location() = INTERRUPTED;
    return -1;
}

long read(int file, void *data, size_t size) {
    return ++reads % 2 ? interrupted() : syscall(SYS_READ, file, data, size);
}

long write(int file, const void *data, size_t size) {
    return ++writes % 2 ? interrupted() : syscall(SYS_WRITE, file, data, size);
}

long __write(int file, const void *data, size_t size) {
    return write(file, data, size);
}

long recv(int file, void *data, size_t size, int flags) {
    return ++received % 2 ? interrupted() : syscall(SYS_RECVFROM, file, data, size, flags, 0, 0);
}

long send(int file, const void *data, size_t size, int flags) {
    return ++sent % 2 ? interrupted() : syscall(SYS_SENDTO, file, data, size, flags, 0, 0);
}

int accept4(int file, void *address, void *size, int flags) {
    return (int)(++accepted % 2 ? interrupted() : syscall(SYS_ACCEPT4, file, address, size, flags));
}
