/* Allocates so many blocks of so many bytes, and frees none:
       live BLOCKS BYTES */
#include <stdlib.h>

int main(int argc, char **argv)
{
    long i;
    if (argc < 3) return 1;
    for (i = 0; i < atol(argv[1]); i++) if (!malloc(atol(argv[2]))) return 2;
    return 0;
}
