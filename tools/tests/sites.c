/* Functions that allocate, so that the counts of their sites are known. */
#include <stdlib.h>

static void *kept[8];

static void make_list(void)
{
    int i;
    for (i = 0; i < 3; i++) kept[i] = malloc(100);
    free(kept[2]);
}

void make_table(void)
{
    kept[3] = calloc(10, 50);
    kept[3] = realloc(kept[3], 900);
}

void _underscored(void)
{
    kept[4] = realloc(NULL, 5);
}

void a_function_with_a_name_of_more_than_32_bytes(void)
{
    kept[5] = malloc(33);
}

int main(void)
{
    free(malloc(7));
    make_list();
    make_table();
    _underscored();
    a_function_with_a_name_of_more_than_32_bytes();
    return 0;
}
