/*
 * Runs a command in the middle of a program that it is preloaded into: the shell's command of PAUSE, right behind the
 * call that PAUSE_AT names, of the file whose whole path is PAUSED. The program waits for its end. PAUSE_AT is a letter
 * for what is done to the file, and a number, counted from 1 for each letter alone:
 *     w  a write at the place where the file stands (write)
 *     p  a write at a given place (pwrite)
 *     t  a change of its length (ftruncate)
 *     s  a sync (fsync, fdatasync)
 *     l  a lock, whether it was got or not (fcntl, flock)
 * So "s2" is behind the second sync. PAUSED may name the log of a farm's file, FILE-wal, which is a file as another.
 * The command is run without this library, and its parent is the program: 'kill -9 $PPID' stops it there.
 *
 * It declares what it takes of the C library itself, so that the toolchain's own compiler can make it too,
 * which has no headers.
 */
typedef __SIZE_TYPE__ size_t;
typedef __INTPTR_TYPE__ ssize_t;
typedef long off_t;

#define NULL ((void *)0)
#define RTLD_NEXT ((void *)-1l)
#define F_SETLK 6
#define F_SETLKW 7
#define F_OFD_SETLK 37
#define F_OFD_SETLKW 38
#define F_UNLCK 2
#define LOCK_UN 8

extern void *dlsym(void *from, const char *name);
extern char *getenv(const char *name);
extern int unsetenv(const char *name);
extern long atol(const char *text);
extern ssize_t readlink(const char *path, char *text, size_t room);
extern int snprintf(char *text, size_t room, const char *form, ...);
extern int strcmp(const char *one, const char *other);
extern int system(const char *command);
extern int *__errno_location(void);
#define errno (*__errno_location())

ssize_t write(int file, const void *bytes, size_t count);
ssize_t pwrite(int file, const void *bytes, size_t count, off_t offset);
ssize_t pwrite64(int file, const void *bytes, size_t count, off_t offset);
int ftruncate(int file, off_t length);
int ftruncate64(int file, off_t length);
int fsync(int file);
int fdatasync(int file);
int fcntl(int file, int what, ...);
int fcntl64(int file, int what, ...);
int flock(int file, int what);

/* The function of that name which this one stands before. */
#define NEXT(name) ((__typeof__(&name))dlsym(RTLD_NEXT, #name))

/* Whether an open file is the one. */
static int is_paused(int file) {
    const char *wanted = getenv("PAUSED");
    char name[64], path[4096];
    snprintf(name, sizeof name, "/proc/self/fd/%d", file);
    ssize_t length = readlink(name, path, sizeof path - 1);
    path[length < 0 ? 0 : length] = 0;
    return wanted != NULL && strcmp(path, wanted) == 0;
}

/* Counts a call that was done, and runs the command where it is the one. */
static void done(char what, int file) {
    static long seen;
    const char *place = getenv("PAUSE_AT"), *command = getenv("PAUSE");
    int before = errno;
    if (place != NULL && command != NULL && place[0] == what && is_paused(file) && ++seen == atol(place + 1)) {
        unsetenv("LD_PRELOAD");
        (void)!system(command);
    }
    errno = before;
}

ssize_t write(int file, const void *bytes, size_t count) {
    ssize_t written = NEXT(write)(file, bytes, count);
    done('w', file);
    return written;
}

ssize_t pwrite(int file, const void *bytes, size_t count, off_t offset) {
    ssize_t written = NEXT(pwrite)(file, bytes, count, offset);
    done('p', file);
    return written;
}

ssize_t pwrite64(int file, const void *bytes, size_t count, off_t offset) {
    ssize_t written = NEXT(pwrite64)(file, bytes, count, offset);
    done('p', file);
    return written;
}

int ftruncate(int file, off_t length) {
    int ended = NEXT(ftruncate)(file, length);
    done('t', file);
    return ended;
}

int ftruncate64(int file, off_t length) {
    int ended = NEXT(ftruncate64)(file, length);
    done('t', file);
    return ended;
}

int fsync(int file) {
    int ended = NEXT(fsync)(file);
    done('s', file);
    return ended;
}

int fdatasync(int file) {
    int ended = NEXT(fdatasync)(file);
    done('s', file);
    return ended;
}

/* Whether a call of fcntl locks. */
static int is_lock(int what, const void *given) {
    int locks = what == F_SETLK || what == F_SETLKW || what == F_OFD_SETLK || what == F_OFD_SETLKW;
    return locks && *(const short *)given != F_UNLCK;
}

int fcntl(int file, int what, ...) {
    __builtin_va_list more;
    __builtin_va_start(more, what);
    void *given = __builtin_va_arg(more, void *);
    __builtin_va_end(more);
    int ended = NEXT(fcntl)(file, what, given);
    if (is_lock(what, given))
        done('l', file);
    return ended;
}

int fcntl64(int file, int what, ...) {
    __builtin_va_list more;
    __builtin_va_start(more, what);
    void *given = __builtin_va_arg(more, void *);
    __builtin_va_end(more);
    int ended = NEXT(fcntl64)(file, what, given);
    if (is_lock(what, given))
        done('l', file);
    return ended;
}

int flock(int file, int what) {
    int ended = NEXT(flock)(file, what);
    if ((what & LOCK_UN) == 0)
        done('l', file);
    return ended;
}
