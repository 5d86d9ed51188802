/* Counts the requests for memory of each call that a program makes, and refuses the one whose number REFUSED_REQUEST has,
   counting from 1. It is loaded before the C library, and belongs to no crate.

   The program writes a call right before it makes it, and ` -> ` right after: the requests between the two are the call's own.
   The file that COUNTS_FILE names gets a line for each call: the number of the last request before it, that of the last
   request by its end, and how many bytes the call requested. */
#include "requests.h"
#include <stdio.h>
#include <string.h>
#include <unistd.h>

#define MOST_CALLS 4096

static long at_write, bytes_at_write; /* how many there were at the last write to standard output */
static struct { long before, by_end, bytes; } made[MOST_CALLS];
static int calls;

ssize_t write(int file, const void *text, size_t count)
{
    static ssize_t (*next)(int, const void *, size_t);
    if (!next)
        next = dlsym(RTLD_NEXT, "write");
    if (file == STDOUT_FILENO) {
        if (count == 4 && memcmp(text, " -> ", 4) == 0 && calls < MOST_CALLS) {
            made[calls].before = at_write;
            made[calls].by_end = requests;
            made[calls].bytes = bytes - bytes_at_write;
            calls += 1;
        }
        at_write = requests;
        bytes_at_write = bytes;
    }
    return next(file, text, count);
}

__attribute__((destructor)) static void write_counts(void)
{
    const char *name = getenv("COUNTS_FILE");
    FILE *file = name ? fopen(name, "w") : NULL;
    if (file) {
        for (int call = 0; call < calls; call++)
            fprintf(file, "%ld %ld %ld\n", made[call].before, made[call].by_end, made[call].bytes);
        fclose(file);
    }
}
