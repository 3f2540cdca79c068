/* Loaded before the C library by LD_PRELOAD, it tells on standard error how many bytes of memory were taken and not given back
   at the moment when these were most. Each piece counts as the C library's, with its head. The pieces of more than 32 KB, as a
   long list, a buffer or an image, are told apart from the others.

   gcc -O2 -shared -fPIC -o live_bytes.so bench/live_bytes.c */
#define _GNU_SOURCE
#include <dlfcn.h>
#include <malloc.h>
#include <pthread.h>
#include <stdio.h>
#include <stdlib.h>
#include <sys/syscall.h>
#include <unistd.h>

enum { HEAD = 8, LARGE = 32768 };
static pthread_mutex_t lock = PTHREAD_MUTEX_INITIALIZER;
static long all, large, most, large_then;

/* A piece that was taken, or with the sign -1 one that is given back. */
static void count(void *p, long sign) {
    if (!p) return;
    long size = malloc_usable_size(p) + HEAD;
    pthread_mutex_lock(&lock);
    all += sign * size;
    if (size > LARGE) large += sign * size;
    if (all > most) {
        most = all;
        large_then = large;
    }
    pthread_mutex_unlock(&lock);
}

#define REAL(result, name, ...) \
    static result (*real)(__VA_ARGS__); \
    if (!real) real = (result (*)(__VA_ARGS__))dlsym(RTLD_NEXT, name)

void *malloc(size_t size) {
    REAL(void *, "malloc", size_t);
    void *p = real(size);
    count(p, 1);
    return p;
}
void free(void *p) {
    REAL(void, "free", void *);
    count(p, -1);
    real(p);
}
void *realloc(void *p, size_t size) {
    REAL(void *, "realloc", void *, size_t);
    count(p, -1);
    void *moved = real(p, size);
    count(moved ? moved : p, 1);
    return moved;
}
int posix_memalign(void **p, size_t align, size_t size) {
    REAL(int, "posix_memalign", void **, size_t, size_t);
    int refused = real(p, align, size);
    if (!refused) count(*p, 1);
    return refused;
}
void *aligned_alloc(size_t align, size_t size) {
    REAL(void *, "aligned_alloc", size_t, size_t);
    void *p = real(align, size);
    count(p, 1);
    return p;
}
/* The program ends by this call, which runs no destructor. */
void _exit(int status) {
    dprintf(2, "most bytes %ld, of these %ld in pieces of more than %d\n", most, large_then, LARGE);
    syscall(SYS_exit_group, status);
    __builtin_unreachable();
}
