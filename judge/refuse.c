/* Loaded before the C library by LD_PRELOAD, it refuses the call whose number stands in one of these variables:
   FAIL_ALLOC an allocation, FAIL_OPEN the opening or creating of a file, FAIL_READ a read, FAIL_WRITE a write, FAIL_CLOSE the
   closing of a file, FAIL_THREAD the making of a thread. Of the write FAIL_SHORT half is taken, and the next one is refused.
   From the thread FAIL_THREADS on none is made. With TELL_ALLOC and TELL_CALLS it
   tells on standard error how many of each there were. */
#define _GNU_SOURCE
#include <dlfcn.h>
#include <errno.h>
#include <fcntl.h>
#include <pthread.h>
#include <stdarg.h>
#include <stdio.h>
#include <stdlib.h>
#include <string.h>
#include <unistd.h>

enum { ALLOC, OPEN, READ, WRITE, SHORT, CLOSE, THREAD, THREADS, KINDS };
static const char *const names[KINDS] = {"FAIL_ALLOC", "FAIL_OPEN",  "FAIL_READ",   "FAIL_WRITE",
                                         "FAIL_SHORT", "FAIL_CLOSE", "FAIL_THREAD", "FAIL_THREADS"};
static long wanted[KINDS], counts[KINDS];
static int is_read;

static int refuse(int kind, long offset) {
    if (!is_read) {
        for (int k = 0; k < KINDS; k++) {
            const char *text = getenv(names[k]);
            wanted[k] = text ? atol(text) : -1;
        }
        is_read = 1;
    }
    return wanted[kind] > 0 && __atomic_add_fetch(&counts[kind], 1, __ATOMIC_SEQ_CST) == wanted[kind] + offset;
}

static void note(int kind) {
    if (wanted[kind] <= 0) __atomic_add_fetch(&counts[kind], 1, __ATOMIC_SEQ_CST);
}

#define REAL(result, name, ...) \
    static result (*real)(__VA_ARGS__); \
    if (!real) real = (result (*)(__VA_ARGS__))dlsym(RTLD_NEXT, name)

static int no_memory(void) {
    int refused = refuse(ALLOC, 0);
    note(ALLOC);
    if (refused) errno = ENOMEM;
    return refused;
}

static int fails(int kind) {
    int refused = refuse(kind, 0);
    note(kind);
    if (refused) errno = EIO;
    return refused;
}

void *malloc(size_t size) {
    REAL(void *, "malloc", size_t);
    return no_memory() ? 0 : real(size);
}
void *realloc(void *p, size_t size) {
    REAL(void *, "realloc", void *, size_t);
    return no_memory() ? 0 : real(p, size);
}
int posix_memalign(void **p, size_t align, size_t size) {
    REAL(int, "posix_memalign", void **, size_t, size_t);
    return no_memory() ? ENOMEM : real(p, align, size);
}
void *aligned_alloc(size_t align, size_t size) {
    REAL(void *, "aligned_alloc", size_t, size_t);
    return no_memory() ? 0 : real(align, size);
}
int open(const char *path, int flags, ...) {
    REAL(int, "open", const char *, int, ...);
    va_list rest;
    va_start(rest, flags);
    int mode = flags & O_CREAT ? va_arg(rest, int) : 0;
    va_end(rest);
    return fails(OPEN) ? -1 : real(path, flags, mode);
}
ssize_t read(int file, void *to, size_t size) {
    REAL(ssize_t, "read", int, void *, size_t);
    return fails(READ) ? -1 : real(file, to, size);
}
ssize_t write(int file, const void *from, size_t size) {
    REAL(ssize_t, "write", int, const void *, size_t);
    if (fails(WRITE)) return -1;
    if (refuse(SHORT, 0)) return real(file, from, size / 2);
    if (wanted[SHORT] > 0 && counts[SHORT] == wanted[SHORT] + 1) {
        counts[SHORT]++;
        errno = EIO;
        return -1;
    }
    return real(file, from, size);
}
int close(int file) {
    REAL(int, "close", int);
    if (!fails(CLOSE)) return real(file);
    real(file);
    errno = EIO;
    return -1;
}
int pthread_create(pthread_t *thread, const pthread_attr_t *attributes, void *(*run)(void *), void *argument) {
    REAL(int, "pthread_create", pthread_t *, const pthread_attr_t *, void *(*)(void *), void *);
    int refused = refuse(THREAD, 0);
    long count = __atomic_add_fetch(&counts[THREADS], 1, __ATOMIC_SEQ_CST);
    if (wanted[THREADS] > 0 && count >= wanted[THREADS]) refused = 1;
    return refused ? EAGAIN : real(thread, attributes, run, argument);
}
__attribute__((destructor)) static void tell(void) {
    if (getenv("TELL_ALLOC")) dprintf(2, "allocations %ld\n", counts[ALLOC]);
    if (getenv("TELL_CALLS"))
        dprintf(2, "opens %ld reads %ld writes %ld closes %ld threads %ld\n", counts[OPEN], counts[READ], counts[WRITE],
                counts[CLOSE], counts[THREADS]);
}
