/*
 * Refuses one growth of memory of a program that it is preloaded into: the one whose number, counted
 * from 1, stands in REFUSE. A file named by REFUSED is made when it does. Where COUNTED names a file, each
 * write to the standard output adds to it how many growths there were before, and how many bytes are
 * written, as two numbers of 8 bytes. tests/faults/refused_memory.sh uses it.
 *
 * It declares what it takes of the C library itself, so that the toolchain's own compiler can make it too,
 * which has no headers.
 */
typedef __SIZE_TYPE__ size_t;
typedef __INTPTR_TYPE__ ssize_t;

#define NULL ((void *)0)
#define ENOMEM 12
#define O_WRONLY 1
#define O_CREAT 64
#define O_APPEND 1024
#define STDOUT 1
#define errno (*__errno_location())

extern int *__errno_location(void);
extern char *getenv(const char *name);
extern long atol(const char *text);
extern int open(const char *path, int flags, ...);
extern int close(int file);
extern long syscall(long number, ...);
extern void *__libc_malloc(size_t size);
extern void *__libc_calloc(size_t count, size_t size);
extern void *__libc_realloc(void *old, size_t size);
extern void *__libc_memalign(size_t align, size_t size);

static long seen;

/* Whether this growth is the one to refuse. */
static int is_refused(void) {
    const char *number = getenv("REFUSE");
    seen++;
    if (number == NULL || seen != atol(number))
        return 0;
    const char *flag = getenv("REFUSED");
    int file = flag == NULL ? -1 : open(flag, O_CREAT | O_WRONLY, 0600);
    if (file >= 0)
        close(file);
    errno = ENOMEM;
    return 1;
}

/* The system's own call: number 1 on x86-64. */
static ssize_t write_to(int file, const void *bytes, size_t count) { return syscall(1, file, bytes, count); }

ssize_t write(int file, const void *bytes, size_t count) {
    const char *name = file == STDOUT ? getenv("COUNTED") : NULL;
    int notes = name == NULL ? -1 : open(name, O_CREAT | O_WRONLY | O_APPEND, 0600);
    if (notes >= 0) {
        long pair[2] = {seen, (long)count};
        write_to(notes, pair, sizeof pair);
        close(notes);
    }
    return write_to(file, bytes, count);
}

void *malloc(size_t size) { return is_refused() ? NULL : __libc_malloc(size); }

void *calloc(size_t count, size_t size) { return is_refused() ? NULL : __libc_calloc(count, size); }

void *realloc(void *old, size_t size) { return is_refused() ? NULL : __libc_realloc(old, size); }

void *aligned_alloc(size_t align, size_t size) { return is_refused() ? NULL : __libc_memalign(align, size); }

void *memalign(size_t align, size_t size) { return is_refused() ? NULL : __libc_memalign(align, size); }

int posix_memalign(void **out, size_t align, size_t size) {
    *out = is_refused() ? NULL : __libc_memalign(align, size);
    return *out == NULL ? ENOMEM : 0;
}
