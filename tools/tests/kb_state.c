/* Runs a script from standard input over an image, through kb_run_over, or over nothing, through kb_save:
 *   kb_state IMAGE MADE [ROOM [OUT [ERR]]]
 * IMAGE is a file, or - for nothing, and the image that is made goes to the file MADE; the numbers are the sizes of the buffers.
 * The replies and the line of what is wrong go to the standard streams. */
#include "kolbista.h"
#include <stdio.h>
#include <stdlib.h>
#include <string.h>

static uint8_t image[1 << 20], script[1 << 20], made[1 << 20], out[1 << 20], err[128];

static size_t size_of(int argc, char **argv, int place, size_t all) {
    return argc > place ? strtoul(argv[place], 0, 10) : all;
}

int main(int argc, char **argv) {
    if (argc < 3) return 99;
    size_t made_size = size_of(argc, argv, 3, sizeof made), out_size = size_of(argc, argv, 4, sizeof out);
    size_t err_size = size_of(argc, argv, 5, sizeof err), made_used, out_used, err_used;
    size_t size = fread(script, 1, sizeof script, stdin);
    uint32_t code;
    if (strcmp(argv[1], "-")) {
        FILE *from = fopen(argv[1], "rb");
        if (!from) return 99;
        size_t image_size = fread(image, 1, sizeof image, from);
        fclose(from);
        code = kb_run_over(image, image_size, script, size, made, made_size, &made_used, out, out_size, &out_used, err,
                           err_size, &err_used);
    } else
        code = kb_save(script, size, made, made_size, &made_used, out, out_size, &out_used, err, err_size, &err_used);
    FILE *to = fopen(argv[2], "wb");
    if (!to || fwrite(made, 1, made_used, to) < made_used || fclose(to)) return 99;
    fwrite(out, 1, out_used, stdout);
    fwrite(err, 1, err_used, stderr);
    return (int)code;
}
