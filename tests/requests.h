/* Counts the requests for memory of a program and their bytes, and refuses the request whose number REFUSED_REQUEST has,
   counting from 1. For a library that is loaded before the C library. */
#define _GNU_SOURCE
#include <dlfcn.h>
#include <stdlib.h>

static long requests, bytes; /* those of a realloc are all bytes of the larger block */

static int is_refused(size_t size)
{
    static long refused = -1;
    if (refused < 0) {
        const char *number = getenv("REFUSED_REQUEST");
        refused = number ? atol(number) : 0;
    }
    requests += 1;
    bytes += size;
    return requests == refused;
}

void *malloc(size_t size)
{
    static void *(*next)(size_t);
    if (!next)
        next = dlsym(RTLD_NEXT, "malloc");
    return is_refused(size) ? NULL : next(size);
}

void *realloc(void *block, size_t size)
{
    static void *(*next)(void *, size_t);
    if (!next)
        next = dlsym(RTLD_NEXT, "realloc");
    return is_refused(size) ? NULL : next(block, size);
}

void *aligned_alloc(size_t alignment, size_t size)
{
    static void *(*next)(size_t, size_t);
    if (!next)
        next = dlsym(RTLD_NEXT, "aligned_alloc");
    return is_refused(size) ? NULL : next(alignment, size);
}
