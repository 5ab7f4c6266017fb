/*
 * Writes down, for a program that it is preloaded into, each write, change of length, sync and removal of a
 * file whose path begins with RECORDED, in the order in which they were made, at the end of the file named by
 * RECORD. tests/faults/power_cuts.py reads it. An entry is one letter ('w' a write, 't' a change of length, 's' a
 * sync, 'f' one that failed, 'u' a removal), then the path's length, the offset and the count as three numbers of
 * 8 bytes, then the path, and for a write its bytes. An entry stands before what it records is done. The sync whose
 * number, counted from 1, stands in FAILED fails, as where the disk doesn't take what is to be written.
 *
 * It declares what it takes of the C library itself, so that the toolchain's own compiler can make it too,
 * which has no headers.
 */
typedef __SIZE_TYPE__ size_t;
typedef __INTPTR_TYPE__ ssize_t;
typedef long off_t;

#define NULL ((void *)0)
#define RTLD_NEXT ((void *)-1l)
#define O_WRONLY 1
#define O_CREAT 64
#define O_APPEND 1024
#define O_CLOEXEC 02000000
#define SEEK_CUR 1
#define EIO 5
#define errno (*__errno_location())

struct part {
    const void *bytes;
    size_t count;
};

extern int *__errno_location(void);
extern void *dlsym(void *from, const char *name);
extern char *getenv(const char *name);
extern long atol(const char *text);
extern int open(const char *path, int flags, ...);
extern off_t lseek(int file, off_t offset, int from);
extern ssize_t readlink(const char *path, char *text, size_t room);
extern int snprintf(char *text, size_t room, const char *form, ...);
extern size_t strlen(const char *text);
extern int strncmp(const char *one, const char *other, size_t count);
extern void abort(void);

ssize_t write(int file, const void *bytes, size_t count);
ssize_t writev(int file, const struct part *parts, int count);
ssize_t pwrite(int file, const void *bytes, size_t count, off_t offset);
ssize_t pwrite64(int file, const void *bytes, size_t count, off_t offset);
int ftruncate(int file, off_t length);
int ftruncate64(int file, off_t length);
int fsync(int file);
int fdatasync(int file);
int unlink(const char *path);
int unlinkat(int folder, const char *path, int flags);

/* The function of that name which this one stands before. */
#define NEXT(name) ((__typeof__(&name))dlsym(RTLD_NEXT, #name))

/* The record, which is open from the first entry on. */
static int record(void) {
    static int file = -1;
    const char *name = getenv("RECORD");
    if (file < 0 && name != NULL)
        file = open(name, O_CREAT | O_WRONLY | O_APPEND | O_CLOEXEC, 0600);
    return file;
}

static void keep(const void *bytes, size_t count) {
    if (count > 0 && NEXT(write)(record(), bytes, count) != (ssize_t)count)
        abort();
}

static void enter(char what, const char *path, size_t offset, const void *bytes, size_t count) {
    const char *prefix = getenv("RECORDED");
    if (prefix == NULL || strncmp(path, prefix, strlen(prefix)) != 0 || record() < 0)
        return;
    size_t numbers[3] = {strlen(path), offset, count};
    keep(&what, 1);
    keep(numbers, sizeof numbers);
    keep(path, numbers[0]);
    if (bytes != NULL)
        keep(bytes, count);
}

/* The path of an open file; nothing for what is none. */
static const char *path_of(int file) {
    static char path[4096];
    char name[64];
    snprintf(name, sizeof name, "/proc/self/fd/%d", file);
    ssize_t length = readlink(name, path, sizeof path - 1);
    path[length < 0 ? 0 : length] = 0;
    return path;
}

static size_t place(int file) { return (size_t)lseek(file, 0, SEEK_CUR); }

ssize_t write(int file, const void *bytes, size_t count) {
    enter('w', path_of(file), place(file), bytes, count);
    return NEXT(write)(file, bytes, count);
}

ssize_t writev(int file, const struct part *parts, int count) {
    size_t offset = place(file);
    for (int i = 0; i < count; i++) {
        enter('w', path_of(file), offset, parts[i].bytes, parts[i].count);
        offset += parts[i].count;
    }
    return NEXT(writev)(file, parts, count);
}

ssize_t pwrite(int file, const void *bytes, size_t count, off_t offset) {
    enter('w', path_of(file), offset, bytes, count);
    return NEXT(pwrite)(file, bytes, count, offset);
}

ssize_t pwrite64(int file, const void *bytes, size_t count, off_t offset) {
    enter('w', path_of(file), offset, bytes, count);
    return NEXT(pwrite64)(file, bytes, count, offset);
}

int ftruncate(int file, off_t length) {
    enter('t', path_of(file), length, NULL, 0);
    return NEXT(ftruncate)(file, length);
}

int ftruncate64(int file, off_t length) {
    enter('t', path_of(file), length, NULL, 0);
    return NEXT(ftruncate64)(file, length);
}

/* Writes a sync down; whether it is the one that fails. */
static int fails(int file) {
    static long seen;
    const char *path = path_of(file), *prefix = getenv("RECORDED"), *number = getenv("FAILED");
    int counts = prefix != NULL && strncmp(path, prefix, strlen(prefix)) == 0;
    seen += counts;
    int failed = counts && number != NULL && seen == atol(number);
    enter(failed ? 'f' : 's', path, 0, NULL, 0);
    if (failed)
        errno = EIO;
    return failed;
}

int fsync(int file) { return fails(file) ? -1 : NEXT(fsync)(file); }

int fdatasync(int file) { return fails(file) ? -1 : NEXT(fdatasync)(file); }

int unlink(const char *path) {
    enter('u', path, 0, NULL, 0);
    return NEXT(unlink)(path);
}

int unlinkat(int folder, const char *path, int flags) {
    enter('u', path, 0, NULL, 0);
    return NEXT(unlinkat)(folder, path, flags);
}
