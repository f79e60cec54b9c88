/* Has an accept of a connection fail once: ACCEPT_FAILS tells which, the first being 1, and ACCEPT_ERROR with which number. Preloaded:
 * see compare/statuses/connection_statuses.py.
 * (no header of the system is read: the kit's compiler comes with none) */
enum { SYS_ACCEPT4 = 288 };

int *__errno_location(void);
long syscall(long number, ...);
char *getenv(const char *name);
int atoi(const char *text);

static int accepted;

int accept4(int file, void *address, void *size, int flags) {
    if (++accepted == atoi(getenv("ACCEPT_FAILS"))) {
        *__errno_location() = atoi(getenv("ACCEPT_ERROR"));
        return -1;
    }
    return (int)syscall(SYS_ACCEPT4, file, address, size, flags);
}
