/* Preloaded behind the recording library: an allocator that takes its time after a realloc, when the old place is free
   already and another thread may get it. */
#define _GNU_SOURCE
#include <dlfcn.h>
#include <stddef.h>
#include <unistd.h>

void *realloc(void *old, size_t size)
{
    static void *(*next)(void *, size_t);
    void *p;
    if (!next) *(void **)&next = dlsym(RTLD_NEXT, "realloc");
    p = next(old, size);
    if (old) usleep(300);
    return p;
}
