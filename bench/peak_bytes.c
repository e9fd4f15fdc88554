/* Counts the bytes that the program that it is loaded into, by LD_PRELOAD, has taken and not given back, and writes the
   greatest number that there ever were to the file that PEAK names. */
#define _GNU_SOURCE
#include <dlfcn.h>
#include <malloc.h>
#include <stdio.h>
#include <stdlib.h>

static unsigned long held, peak;

static void *taken(void *block) {
    if (block) {
        held += malloc_usable_size(block);
        if (held > peak) peak = held;
    }
    return block;
}

void *malloc(size_t size) {
    static void *(*next)(size_t);
    if (!next) next = (void *(*)(size_t))dlsym(RTLD_NEXT, "malloc");
    return taken(next(size));
}

/* A block that grows counts once: large ones are moved page by page, and are never there twice. */
void *realloc(void *block, size_t size) {
    static void *(*next)(void *, size_t);
    size_t before = block ? malloc_usable_size(block) : 0;
    if (!next) next = (void *(*)(void *, size_t))dlsym(RTLD_NEXT, "realloc");
    void *moved = next(block, size);
    if (moved) {
        held -= before;
        taken(moved);
    }
    return moved;
}

void free(void *block) {
    static void (*next)(void *);
    if (!next) next = (void (*)(void *))dlsym(RTLD_NEXT, "free");
    if (block) held -= malloc_usable_size(block);
    next(block);
}

__attribute__((destructor)) static void tell(void) {
    const char *name = getenv("PEAK");
    FILE *file = name ? fopen(name, "w") : NULL;
    if (file) {
        fprintf(file, "%lu\n", peak);
        fclose(file);
    }
}
