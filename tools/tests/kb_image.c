/* Judges or shows an image on standard input, through kb_check or kb_show: kb_image check|show [OUT [ERR]], with the sizes of
 * the buffers. What is written and told goes to the standard streams. */
#include "kolbista.h"
#include <stdio.h>
#include <stdlib.h>
#include <string.h>

int main(int argc, char **argv) {
    static uint8_t image[1 << 20], out[1 << 20], err[128];
    size_t size = fread(image, 1, sizeof image, stdin), out_used = 0, err_used;
    size_t out_size = argc > 2 ? strtoul(argv[2], 0, 10) : sizeof out;
    size_t err_size = argc > 3 ? strtoul(argv[3], 0, 10) : sizeof err;
    int shows = argc > 1 && !strcmp(argv[1], "show");
    uint32_t code = shows ? kb_show(image, size, out, out_size, &out_used, err, err_size, &err_used)
                          : kb_check(image, size, err, err_size, &err_used);
    fwrite(out, 1, out_used, stdout);
    fwrite(err, 1, err_used, stderr);
    return (int)code;
}
