/* Loads one library, lets it allocate, and puts another in its place, and so on; then loads one of C++. It prints whether each
   stood where the one before it had stood. Its words are triples: the library, its function, and whether it stays. */
#include <dlfcn.h>
#include <stdio.h>
#include <stdlib.h>
#include <string.h>

int main(int argc, char **argv)
{
    static char output[4096];
    void *before = NULL, *library, *(*allocates)(void);
    int i;
    setvbuf(stdout, output, _IOFBF, sizeof output);
    for (i = 1; i + 2 < argc; i += 3) {
        library = dlopen(argv[i], RTLD_NOW | RTLD_LOCAL);
        if (!library) return 1;
        *(void **)&allocates = dlsym(library, argv[i + 1]);
        if (!allocates) return 2;
        if (before) puts((void *)allocates == before ? "same" : "other");
        before = (void *)allocates;
        free(allocates());
        if (strcmp(argv[i + 2], "stays") != 0 && dlclose(library) != 0) return 3;
    }
    return 0;
}
