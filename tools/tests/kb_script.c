/* Runs a script from standard input as a tool does, through kb_run: kb_script TOOL FLAGS [OUT [ERR]], with the sizes of the
 * buffers. The replies and the line of what is wrong go to the standard streams. */
#include "kolbista.h"
#include <stdio.h>
#include <stdlib.h>

int main(int argc, char **argv) {
    size_t size = 0, room = 65536, out_size = argc > 3 ? strtoul(argv[3], 0, 10) : 1 << 20, out_used, err_used;
    uint8_t *script = malloc(room), *out = malloc(out_size + 1), err[128];
    size_t err_size = argc > 4 ? strtoul(argv[4], 0, 10) : sizeof err;
    if (argc < 3 || !script || !out) return 99;
    for (;;) {
        size_t n = fread(script + size, 1, room - size, stdin);
        if (!n) break;
        size += n;
        if (size == room) {
            uint8_t *more = realloc(script, room *= 2);
            if (!more) return 99;
            script = more;
        }
    }
    uint32_t code = kb_run(strtoul(argv[1], 0, 10), strtoul(argv[2], 0, 10), script, size, out, out_size, &out_used, err,
                           err_size, &err_used);
    fwrite(out, 1, out_used, stdout);
    fwrite(err, 1, err_used, stderr);
    free(script);
    free(out);
    return (int)code;
}
