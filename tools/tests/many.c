/* Five blocks more than a region can have. */
#include <stdlib.h>

enum { MANY = 1000005 };

static void *blocks[MANY];

int main(void)
{
    int i;
    for (i = 0; i < MANY; i++) if (!(blocks[i] = malloc(8))) return 1;
    free(blocks[7]);
    if (!(blocks[7] = malloc(9))) return 1;
    if (!(blocks[MANY - 1] = realloc(blocks[MANY - 1], 10))) return 1;
    for (i = 0; i < MANY; i++) free(blocks[i]);
    return 0;
}
