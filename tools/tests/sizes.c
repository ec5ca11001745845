/* Each call once, with each kind of size, in an order that makes the lines of the script known. */
#define _GNU_SOURCE
#include <errno.h>
#include <malloc.h>
#include <stdint.h>
#include <stdlib.h>
#include <string.h>

/* The name of the first thing that isn't as it should be is the status. */
#define WANT(number, holds) do { if (!(holds)) return number; } while (0)

int main(void)
{
    void *none, *p = NULL;
    char *a = malloc(100), *c, *n, *big, *q;
    none = malloc(0);
    c = calloc(3, 7);
    WANT(1, a && none && c && c[0] == 0 && c[20] == 0);
    memcpy(a, "kept", 5);
    a = realloc(a, 5000);
    WANT(2, a && strcmp(a, "kept") == 0);
    n = realloc(NULL, 10);
    WANT(3, n);
    errno = 77;
    free(NULL);
    WANT(4, errno == 77);
    n = realloc(n, 0);
    WANT(5, n == NULL);
    none = realloc(none, 40);
    WANT(6, none);
    none = realloc(none, 20000000);
    WANT(7, none);
    free(none);
    big = malloc(16777216);
    WANT(8, big);
    free(big);
    big = malloc(16777217);
    WANT(9, big);
    big = realloc(big, 16777218);
    WANT(10, big);
    big = realloc(big, 8);
    WANT(11, big);
    WANT(12, aligned_alloc(16, 48));
    p = aligned_alloc(64, 128);
    WANT(13, p && (uintptr_t)p % 64 == 0);
    WANT(14, posix_memalign(&p, 4096, 10) == 0 && (uintptr_t)p % 4096 == 0);
    p = memalign(8192, 10);
    WANT(15, p && (uintptr_t)p % 8192 == 0);
    free(p);
    p = memalign(32, 0);
    free(p);
    WANT(16, posix_memalign(&p, 3, 8) == EINVAL);
    errno = 0;
    WANT(17, malloc(SIZE_MAX) == NULL && errno == ENOMEM);
    WANT(18, calloc(SIZE_MAX, 2) == NULL);
    q = reallocarray(NULL, 3, 5);
    WANT(19, q);
    q = reallocarray(q, 4, 5);
    WANT(20, q);
    errno = 0;
    WANT(21, reallocarray(q, SIZE_MAX, 5) == NULL && errno == ENOMEM);
    WANT(22, realloc(q, SIZE_MAX) == NULL);
    errno = 77;
    free(q);
    WANT(23, errno == 77);
    free(c);
    free(a);
    free(big);
    return 0;
}
