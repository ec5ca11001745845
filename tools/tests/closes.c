/* Closes every file that it didn't open, puts a file of its own in their place, allocates, lowers its limit for files, and
   allocates again: its own files hold what it wrote, errno stays, and it isn't ended. The argument is the path of its own file. */
#define _GNU_SOURCE
#include <errno.h>
#include <fcntl.h>
#include <stdlib.h>
#include <sys/resource.h>
#include <sys/stat.h>
#include <unistd.h>

int main(int argc, char **argv)
{
    struct rlimit none = { 0, 0 };
    struct stat own;
    void *p;
    int file, i;
    if (argc < 2) return 1;
    for (i = 3; i < 1024; i++) close(i);
    errno = 77;
    p = malloc(999);
    if (!p || errno != 77) return 6;
    for (i = 3; i < 1024; i++) close(i);
    errno = 77;
    free(p);
    if (errno != 77) return 7;
    for (i = 3; i < 1024; i++) close(i);
    file = open(argv[1], O_WRONLY | O_CREAT | O_TRUNC, 0600);
    for (i = file + 1; i < 1000; i++) if (dup2(file, i) != i) return 2;
    if (write(file, "own\n", 4) != 4) return 3;
    for (i = 0; i < 100; i++) free(malloc(1000 + i));
    if (fstat(file, &own) != 0 || own.st_size != 4) return 4;
    if (setrlimit(RLIMIT_FSIZE, &none) != 0) return 5;
    for (i = 0; i < 100; i++) free(malloc(2000 + i));
    return 0;
}
