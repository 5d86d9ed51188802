/* Refuses the request for memory whose number REFUSED_REQUEST has, counting from 1, and writes the number of all requests to the
   file that COUNTS_FILE names. It is loaded before the C library, and belongs to no crate. */
#include "requests.h"
#include <stdio.h>

__attribute__((destructor)) static void write_count(void)
{
    const char *name = getenv("COUNTS_FILE");
    FILE *file = name ? fopen(name, "w") : NULL;
    if (file) {
        fprintf(file, "%ld\n", requests);
        fclose(file);
    }
}
