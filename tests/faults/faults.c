/* Preloaded: one call of a program, of its allocations, its reads or its writes, is refused.

   FAULT_OF   which calls are counted: alloc, read or write
   FAULT_AT   the number of the call that is refused, counted from 1; none where it isn't set
   FAULT_LOG  a file that gets the number of calls that were made when the program exits */

#define _GNU_SOURCE
#include <errno.h>
#include <stdio.h>
#include <stdlib.h>
#include <string.h>
#include <sys/syscall.h>
#include <unistd.h>

extern void *__libc_malloc(size_t);
extern void *__libc_calloc(size_t, size_t);
extern void *__libc_realloc(void *, size_t);
extern void *__libc_memalign(size_t, size_t);

static const char *counted;
static unsigned long made, refused;

__attribute__((constructor)) static void begin(void) {
    const char *at = getenv("FAULT_AT");
    refused = at ? strtoul(at, NULL, 10) : 0;
    made = 0;
    counted = getenv("FAULT_OF");
}

/* Whether this call is the one that is refused. */
static int is_refused(const char *of) {
    return counted && strcmp(counted, of) == 0 && ++made == refused;
}

__attribute__((destructor)) static void end(void) {
    const char *log = getenv("FAULT_LOG");
    unsigned long count = made;
    counted = NULL;
    if (log) {
        FILE *file = fopen(log, "w");
        if (file) {
            fprintf(file, "%lu\n", count);
            fclose(file);
        }
    }
}

static void *no_memory(void) {
    errno = ENOMEM;
    return NULL;
}

void *malloc(size_t size) { return is_refused("alloc") ? no_memory() : __libc_malloc(size); }

void *calloc(size_t count, size_t size) { return is_refused("alloc") ? no_memory() : __libc_calloc(count, size); }

void *realloc(void *block, size_t size) { return is_refused("alloc") ? no_memory() : __libc_realloc(block, size); }

void *aligned_alloc(size_t align, size_t size) { return is_refused("alloc") ? no_memory() : __libc_memalign(align, size); }

int posix_memalign(void **block, size_t align, size_t size) {
    if (is_refused("alloc"))
        return ENOMEM;
    *block = __libc_memalign(align, size);
    return *block ? 0 : ENOMEM;
}

static ssize_t io_fault(void) {
    errno = EIO;
    return -1;
}

ssize_t read(int from, void *into, size_t size) { return is_refused("read") ? io_fault() : syscall(SYS_read, from, into, size); }

ssize_t write(int to, const void *bytes, size_t size) { return is_refused("write") ? io_fault() : syscall(SYS_write, to, bytes, size); }
