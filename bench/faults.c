/* Refuses or cuts calls of the C library, as the environment says. It is loaded before the program's own library
   (LD_PRELOAD) by bench/faults.py, and is no part of the program.

   FAULT_ALLOC=K        the K-th request for memory is refused, counted from 1
   FAULT_ALLOC_FROM=K   the K-th and all later ones
   FAULT_READ=K         the K-th read of a file, FAULT_WRITE=K the K-th write, as FAULT_KIND says:
   FAULT_KIND=fail      it fails (EIO)
   FAULT_KIND=interrupt it is interrupted (EINTR), with nothing moved
   FAULT_KIND=short     it moves one byte
   FAULT_COUNTS=FILE    at the end, how many requests for memory, reads and writes there were */

#define _GNU_SOURCE
#include <dlfcn.h>
#include <errno.h>
#include <fcntl.h>
#include <stdio.h>
#include <stdlib.h>
#include <string.h>
#include <sys/types.h>
#include <unistd.h>

static unsigned long allocs, reads, writes;
static unsigned long alloc_at, alloc_from, read_at, write_at;
static const char *kind, *counts;
static int ready;

static unsigned long number_of(const char *name) {
    const char *text = getenv(name);
    return text ? strtoul(text, NULL, 10) : 0;
}

/* The calls are counted from the program's own start on: what the loader asks for before isn't its. */
__attribute__((constructor)) static void begin(void) {
    alloc_at = number_of("FAULT_ALLOC");
    alloc_from = number_of("FAULT_ALLOC_FROM");
    read_at = number_of("FAULT_READ");
    write_at = number_of("FAULT_WRITE");
    kind = getenv("FAULT_KIND");
    counts = getenv("FAULT_COUNTS");
    ready = 1;
}

__attribute__((destructor)) static void end(void) {
    ready = 0;
    if (counts) {
        FILE *file = fopen(counts, "w");
        if (file) {
            fprintf(file, "%lu %lu %lu\n", allocs, reads, writes);
            fclose(file);
        }
    }
}

static int is_refused(void) {
    if (!ready)
        return 0;
    allocs++;
    return allocs == alloc_at || (alloc_from && allocs >= alloc_from);
}

extern void *__libc_malloc(size_t);
extern void *__libc_calloc(size_t, size_t);
extern void *__libc_realloc(void *, size_t);
extern void *__libc_memalign(size_t, size_t);

static void *none(void) {
    errno = ENOMEM;
    return NULL;
}

void *malloc(size_t size) { return is_refused() ? none() : __libc_malloc(size); }
void *calloc(size_t count, size_t size) { return is_refused() ? none() : __libc_calloc(count, size); }
void *realloc(void *old, size_t size) { return is_refused() ? none() : __libc_realloc(old, size); }
void *memalign(size_t align, size_t size) { return is_refused() ? none() : __libc_memalign(align, size); }
void *aligned_alloc(size_t align, size_t size) { return is_refused() ? none() : __libc_memalign(align, size); }
int posix_memalign(void **into, size_t align, size_t size) {
    if (is_refused())
        return ENOMEM;
    *into = __libc_memalign(align, size);
    return *into ? 0 : ENOMEM;
}

static int is_kind(const char *name) { return kind && strcmp(kind, name) == 0; }

/* What a faulty call answers: -1, or 1 where the real call is to move one byte. */
static int fault(void) {
    if (is_kind("short"))
        return 1;
    errno = is_kind("interrupt") ? EINTR : EIO;
    return -1;
}

ssize_t read(int file, void *into, size_t size) {
    static ssize_t (*real)(int, void *, size_t);
    if (!real)
        real = (ssize_t(*)(int, void *, size_t))dlsym(RTLD_NEXT, "read");
    if (ready && ++reads == read_at && size > 0) {
        if (fault() < 0)
            return -1;
        size = 1;
    }
    return real(file, into, size);
}

ssize_t write(int file, const void *from, size_t size) {
    static ssize_t (*real)(int, const void *, size_t);
    if (!real)
        real = (ssize_t(*)(int, const void *, size_t))dlsym(RTLD_NEXT, "write");
    if (ready && file == 1 && ++writes == write_at && size > 0) {
        if (fault() < 0)
            return -1;
        size = 1;
    }
    return real(file, from, size);
}
