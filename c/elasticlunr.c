/* What the library in Rattle can't export: a function that takes a block back, and one that returns a pointer. */
#include "elasticlunr.h"
#include <stdlib.h>

void elasticlunr_free(uint8_t *text)
{
    free(text);
}

const char *elasticlunr_version(void)
{
    return ELASTICLUNR_VERSION;
}
