/* Preloaded behind the recording library: looking a symbol up allocates, as it may in any C library. The recording library
   looks its allocator up, so these calls come before it is ready. */
#define _GNU_SOURCE
#include <dlfcn.h>
#include <stdint.h>
#include <stdlib.h>
#include <string.h>
#include <unistd.h>

static char *kept;
static int depth;

static void want(int holds)
{
    if (!holds) _exit(99);
}

void *dlsym(void *handle, const char *name)
{
    static const char *const versions[] = { "GLIBC_2.34", "GLIBC_2.2.5", "GLIBC_2.17" };
    static void *(*next)(void *, const char *);
    size_t i;
    for (i = 0; !next && i < sizeof versions / sizeof *versions; i++)
        *(void **)&next = dlvsym(RTLD_NEXT, "dlsym", versions[i]);
    want(next != NULL);
    if (depth++ == 0) {
        char *p = malloc(10), *q = calloc(3, 7), *r = NULL;
        void *s = NULL;
        want(p && q && (uintptr_t)p % 16 == 0 && q[0] == 0 && q[20] == 0);
        memcpy(p, "early bird", 10);
        p = realloc(p, 3000);
        r = realloc(NULL, 5);
        want(p && memcmp(p, "early bird", 10) == 0 && r);
        want(posix_memalign(&s, 256, 40) == 0 && (uintptr_t)s % 256 == 0);
        want((uintptr_t)aligned_alloc(1024, 10) % 1024 == 0);
        want(calloc(SIZE_MAX, 2) == NULL);
        free(p);
        free(q);
        free(s);
        kept = malloc(8);
        memcpy(kept, "kept on", 8);
    }
    return next(handle, name);
}

/* What was allocated early gets a place of its own later, and that is in the script. In a program that isn't recorded nobody
   looked a symbol up. */
__attribute__((constructor)) static void later(void)
{
    free(malloc(1));
    if (!kept) return;
    kept = realloc(kept, 333);
    want(kept && strcmp(kept, "kept on") == 0);
    free(kept);
}
