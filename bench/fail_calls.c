/* Between a program and the C library: the allocation whose number FAIL_AT gives, from 1 on, finds no memory, and the read and
   the write whose numbers FAIL_READ and FAIL_WRITE give fail. At the end the file REPORT gets the number of allocations, how
   many of them were not freed, and how many did not begin at a multiple of 8. */
#define _GNU_SOURCE
#include <dlfcn.h>
#include <errno.h>
#include <stdint.h>
#include <stdio.h>
#include <stdlib.h>
#include <fcntl.h>
#include <unistd.h>

static long made, held, odd, reads, writes;

/* Whether the call of that number is the one that a variable of the environment names. */
static int fails(const char *name, long number)
{
    const char *text = getenv(name);
    return text && number == atol(text);
}

void *malloc(size_t size)
{
    static void *(*real)(size_t);
    void *p;
    if (!real) real = (void *(*)(size_t))dlsym(RTLD_NEXT, "malloc");
    if (fails("FAIL_AT", ++made)) return NULL;
    p = real(size);
    if (p) held++;
    if ((uintptr_t)p % 8) odd++;
    return p;
}

void *realloc(void *old, size_t size)
{
    static void *(*real)(void *, size_t);
    void *p;
    if (!real) real = (void *(*)(void *, size_t))dlsym(RTLD_NEXT, "realloc");
    if (fails("FAIL_AT", ++made)) return NULL;
    p = real(old, size);
    if (p && !old) held++;
    if ((uintptr_t)p % 8) odd++;
    return p;
}

void free(void *p)
{
    static void (*real)(void *);
    if (!real) real = (void (*)(void *))dlsym(RTLD_NEXT, "free");
    if (p) held--;
    real(p);
}

ssize_t read(int file, void *to, size_t size)
{
    static ssize_t (*real)(int, void *, size_t);
    if (!real) real = (ssize_t (*)(int, void *, size_t))dlsym(RTLD_NEXT, "read");
    if (!fails("FAIL_READ", ++reads)) return real(file, to, size);
    errno = EIO;
    return -1;
}

ssize_t write(int file, const void *from, size_t size)
{
    static ssize_t (*real)(int, const void *, size_t);
    if (!real) real = (ssize_t (*)(int, const void *, size_t))dlsym(RTLD_NEXT, "write");
    if (!fails("FAIL_WRITE", ++writes)) return real(file, from, size);
    errno = EIO;
    return -1;
}

__attribute__((destructor)) static void report(void)
{
    const char *path = getenv("REPORT");
    char text[64];
    long m = made, h = held, o = odd;
    int file;
    if (!path) return;
    file = open(path, O_WRONLY | O_CREAT | O_TRUNC, 0600);
    if (file < 0) return;
    if (pwrite(file, text, (size_t)snprintf(text, sizeof text, "%ld %ld %ld\n", m, h, o), 0) < 0) _exit(99);
    close(file);
}
