/* Runs three scripts on one ordered bag: what it holds lasts from one to the next in an image in memory. */
#include <kolbista.h>
#include <stdio.h>
#include <string.h>

int main(void) {
    static const char *const scripts[] = {
        "open r best 1\ndict d obag r 1\ninsert d fig\ninsert d pear\n",
        "insert d1 apple\ninsert d1 fig\n",
        "walk d1\ncount d1\n",
    };
    static uint8_t images[2][65536], out[1024], err[128];
    size_t used[2] = {0, 0}, out_used, err_used;
    for (int i = 0; i < 3; i++) {
        const uint8_t *script = (const uint8_t *)scripts[i];
        uint8_t *made = images[i % 2], *last = images[1 - i % 2];
        size_t size = strlen(scripts[i]), *made_used = &used[i % 2];
        uint32_t code = i == 0 ? kb_save(script, size, made, sizeof images[0], made_used, out, sizeof out, &out_used, err,
                                         sizeof err, &err_used)
                               : kb_run_over(last, used[1 - i % 2], script, size, made, sizeof images[0], made_used, out,
                                             sizeof out, &out_used, err, sizeof err, &err_used);
        fwrite(out, 1, out_used, stdout);
        fwrite(err, 1, err_used, stderr);
        if (code != KB_OK) return (int)code;
    }
    return 0;
}
