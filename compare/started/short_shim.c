/* Has each read, each write and each call of a connection move one byte at most. Preloaded: see compare/statuses/device_statuses.py.
 * (no header of the system is read: the kit's compiler comes with none) */
typedef __SIZE_TYPE__ size_t;
enum { SYS_READ = 0, SYS_WRITE = 1, SYS_SENDTO = 44, SYS_RECVFROM = 45, MOST = 1 };

long syscall(long number, ...);

static size_t few(size_t size) {
    return size < MOST ? size : MOST;
}

long read(int file, void *data, size_t size) {
    return syscall(SYS_READ, file, data, few(size));
}

long write(int file, const void *data, size_t size) {
    return syscall(SYS_WRITE, file, data, few(size));
}

long __write(int file, const void *data, size_t size) {
    return write(file, data, size);
}

long recv(int file, void *data, size_t size, int flags) {
    return syscall(SYS_RECVFROM, file, data, few(size), flags, 0, 0);
}

long send(int file, const void *data, size_t size, int flags) {
    return syscall(SYS_SENDTO, file, data, few(size), flags, 0, 0);
}
