/* To be preloaded into a program: it refuses the growth of memory whose number REFUSE_NTH gives, counted from 1, and no
 * other; 0 refuses none. When the program ends, the number of growths is written to the file that REFUSE_SEEN names.
 * A growth is a call of malloc, calloc, realloc, aligned_alloc or posix_memalign of more than no bytes. */
#define _GNU_SOURCE
#include <dlfcn.h>
#include <errno.h>
#include <stdio.h>
#include <stdlib.h>
#include <string.h>
#include <sys/syscall.h>
#include <unistd.h>

static void *(*next_malloc)(size_t);
static void *(*next_calloc)(size_t, size_t);
static void *(*next_realloc)(void *, size_t);
static void *(*next_aligned)(size_t, size_t);
static int (*next_memalign)(void **, size_t, size_t);
static void (*next_free)(void *);
static unsigned long nth, seen;
static int counting;

/* What the search for the functions below takes itself, before they are known. It is never given back. */
static char early[65536];
static size_t taken;

static void *take_early(size_t size) {
    size_t at = taken;
    size = (size + 15) & ~(size_t)15;
    if (size > sizeof early - at) return NULL;
    taken += size;
    return early + at;
}

__attribute__((constructor)) static void begin(void) {
    static int begun;
    const char *number;
    if (begun) return;
    begun = 1;
    next_calloc = (void *(*)(size_t, size_t))dlsym(RTLD_NEXT, "calloc");
    next_realloc = (void *(*)(void *, size_t))dlsym(RTLD_NEXT, "realloc");
    next_aligned = (void *(*)(size_t, size_t))dlsym(RTLD_NEXT, "aligned_alloc");
    next_memalign = (int (*)(void **, size_t, size_t))dlsym(RTLD_NEXT, "posix_memalign");
    next_free = (void (*)(void *))dlsym(RTLD_NEXT, "free");
    next_malloc = (void *(*)(size_t))dlsym(RTLD_NEXT, "malloc");
    number = getenv("REFUSE_NTH");
    nth = number ? strtoul(number, NULL, 10) : 0;
    counting = 1;
}

__attribute__((destructor)) static void end(void) {
    static int ended;
    const char *name = getenv("REFUSE_SEEN");
    FILE *file;
    if (ended) return;
    ended = 1;
    counting = 0;
    file = name ? fopen(name, "w") : NULL;
    if (file) {
        fprintf(file, "%lu\n", seen);
        fclose(file);
    }
}

/* A program that has threads ends by this call, and runs no destructor. */
void _exit(int status) {
    end();
    syscall(SYS_exit_group, status);
    for (;;) {}
}

static int is_refused(void) {
    if (!counting || ++seen != nth) return 0;
    errno = ENOMEM;
    return 1;
}

void *malloc(size_t size) {
    begin();
    if (!next_malloc) return take_early(size);
    return size && is_refused() ? NULL : next_malloc(size);
}

void *calloc(size_t count, size_t size) {
    begin();
    if (!next_malloc) return take_early(count * size);
    return count && size && is_refused() ? NULL : next_calloc(count, size);
}

void *realloc(void *block, size_t size) {
    begin();
    if ((char *)block >= early && (char *)block < early + sizeof early) {
        void *moved = malloc(size);
        size_t there = (size_t)(early + sizeof early - (char *)block);
        if (moved) memcpy(moved, block, size < there ? size : there);
        return moved;
    }
    return size && is_refused() ? NULL : next_realloc(block, size);
}

void *aligned_alloc(size_t alignment, size_t size) {
    begin();
    return size && is_refused() ? NULL : next_aligned(alignment, size);
}

int posix_memalign(void **block, size_t alignment, size_t size) {
    begin();
    return size && is_refused() ? ENOMEM : next_memalign(block, alignment, size);
}

void free(void *block) {
    if ((char *)block >= early && (char *)block < early + sizeof early) return;
    begin();
    if (next_free) next_free(block);
}
