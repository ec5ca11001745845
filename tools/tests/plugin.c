/* A library that allocates by a function of the name ALLOCATES. */
#include <stdlib.h>

void *ALLOCATES(void)
{
    return malloc(WANTED);
}
