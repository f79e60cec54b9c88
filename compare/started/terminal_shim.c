/* A clock that goes on by CLOCK_MS milliseconds each time that it is asked, from 0; and a file that nobody may open, whoever asks, since
 * the name of its folder's entry is `denied`. Preloaded: see compare/runs/statuses.py. (no header of the system is read: the kit's compiler
 * comes with none) */
typedef struct { long seconds, nanoseconds; } Time;
enum { DENIED = 13, SYS_OPEN = 2, MS_OF_SECOND = 1000, NS_OF_MS = 1000000 };

int *__errno_location(void);
long syscall(long number, ...);
char *getenv(const char *name);

static long asked;

int clock_gettime(int clock, Time *time) {
    const char *text = getenv("CLOCK_MS");
    long step = 0;
    (void)clock;
    while (text && *text) {
        step = step * 10 + (*text++ - '0');
    }
    time->seconds = asked * step / MS_OF_SECOND;
    time->nanoseconds = asked * step % MS_OF_SECOND * NS_OF_MS;
    asked++;
    return 0;
}

static int is_denied(const char *path) {
    const char *name = "/denied", *at;
    for (at = path; *at; at++) {
        if (*at == '/') {
            path = at;
        }
    }
    while (*name && *name == *path) {
        name++;
        path++;
    }
    return !*name && !*path;
}

int open(const char *path, int flags, int mode) {
    if (is_denied(path)) {
        *__errno_location() = DENIED;
        return -1;
    }
    return (int)syscall(SYS_OPEN, path, flags, mode);
}
