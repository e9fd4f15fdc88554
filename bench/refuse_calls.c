/* Loaded into a program by LD_PRELOAD, refuses one of its calls: the allocation whose number ALLOCATION names, from 1, the thread
   that THREAD names, the read of standard input that READ names, or the write of standard output that WRITE names. Where PIECE is
   set, a read or a write moves at most so many bytes. The file that CALLS names gets the numbers of allocations, threads, reads and
   writes where the program ends, which it does by _exit. */
#define _GNU_SOURCE
#include <dlfcn.h>
#include <errno.h>
#include <pthread.h>
#include <stdatomic.h>
#include <stdio.h>
#include <stdlib.h>
#include <unistd.h>

static atomic_ulong allocations, threads, reads, writes;
static unsigned long no_allocation, no_thread, no_read, no_write, piece;

static unsigned long number(const char *name) {
    const char *text = getenv(name);
    return text ? strtoul(text, NULL, 10) : 0;
}

__attribute__((constructor)) static void begin(void) {
    no_allocation = number("ALLOCATION");
    no_thread = number("THREAD");
    no_read = number("READ");
    no_write = number("WRITE");
    piece = number("PIECE");
}

static int refused(atomic_ulong *calls, unsigned long which) {
    return atomic_fetch_add(calls, 1) + 1 == which;
}

void *malloc(size_t size) {
    static void *(*next)(size_t);
    if (!next) next = (void *(*)(size_t))dlsym(RTLD_NEXT, "malloc");
    return refused(&allocations, no_allocation) ? NULL : next(size);
}

void *realloc(void *block, size_t size) {
    static void *(*next)(void *, size_t);
    if (!next) next = (void *(*)(void *, size_t))dlsym(RTLD_NEXT, "realloc");
    return refused(&allocations, no_allocation) ? NULL : next(block, size);
}

ssize_t read(int file, void *bytes, size_t size) {
    static ssize_t (*next)(int, void *, size_t);
    if (!next) next = (ssize_t (*)(int, void *, size_t))dlsym(RTLD_NEXT, "read");
    if (file != STDIN_FILENO) return next(file, bytes, size);
    if (refused(&reads, no_read)) {
        errno = EIO;
        return -1;
    }
    return next(file, bytes, piece && piece < size ? piece : size);
}

ssize_t write(int file, const void *bytes, size_t size) {
    static ssize_t (*next)(int, const void *, size_t);
    if (!next) next = (ssize_t (*)(int, const void *, size_t))dlsym(RTLD_NEXT, "write");
    if (file != STDOUT_FILENO) return next(file, bytes, size);
    if (refused(&writes, no_write)) {
        errno = EIO;
        return -1;
    }
    return next(file, bytes, piece && piece < size ? piece : size);
}

int pthread_create(pthread_t *thread, const pthread_attr_t *how, void *(*start)(void *), void *given) {
    static int (*next)(pthread_t *, const pthread_attr_t *, void *(*)(void *), void *);
    if (!next) next = (int (*)(pthread_t *, const pthread_attr_t *, void *(*)(void *), void *))dlsym(RTLD_NEXT, "pthread_create");
    return refused(&threads, no_thread) ? EAGAIN : next(thread, how, start, given);
}

void _exit(int status) {
    void (*next)(int);
    unsigned long made[4] = {allocations, threads, reads, writes};
    const char *name = getenv("CALLS");
    FILE *file = name ? fopen(name, "w") : NULL;
    if (file) {
        fprintf(file, "%lu %lu %lu %lu\n", made[0], made[1], made[2], made[3]);
        fclose(file);
    }
    next = (void (*)(int))dlsym(RTLD_NEXT, "_exit");
    next(status);
    __builtin_unreachable();
}
