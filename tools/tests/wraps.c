/* Functions that ask for memory through others, so that those who asked are known. */
#include <stdlib.h>

#define CALLED __attribute__((noinline))

/* Volatile, so that no call is the last thing that its function does. */
static void *volatile kept;

CALLED void *xmalloc(size_t size)
{
    void *p = malloc(size);
    if (!p) abort();
    return p;
}

CALLED void *xrealloc(void *p, size_t size)
{
    p = realloc(p, size);
    if (!p) abort();
    return p;
}

CALLED char *copy(size_t size)
{
    char *p = xmalloc(size + 1);
    p[size] = 0;
    return p;
}

CALLED void make_word(void)
{
    kept = copy(10);
    free(kept);
}

CALLED void make_line(void)
{
    kept = copy(80);
    free(kept);
    kept = xmalloc(33);
    free(kept);
}

/* A block that comes into the script when it is made small enough. */
CALLED void make_less(void)
{
    kept = xrealloc(NULL, 20000000);
    kept = xrealloc(kept, 100);
    kept = xrealloc(kept, 200);
    free(kept);
}

CALLED void make_plain(void)
{
    kept = malloc(7);
    free(kept);
}

CALLED void deep(int n)
{
    kept = xmalloc(n);
    free(kept);
    if (n > 1) deep(n - 1);
    kept = NULL;
}

int main(void)
{
    int i;
    for (i = 0; i < 3; i++) make_word();
    make_line();
    make_less();
    make_plain();
    deep(5);
    return 0;
}
