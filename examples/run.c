/* Runs a script in memory, and prints its replies. */
#include <kolbista.h>
#include <stdio.h>

int main(void) {
    const char script[] = "open r best 1\nalloc r a 100\nfree r a\nclose r\n";
    uint8_t out[256], err[128];
    size_t out_used, err_used;
    uint32_t code = kb_run(KB_VMREPLAY, 0, (const uint8_t *)script, sizeof script - 1, out, sizeof out, &out_used, err,
                           sizeof err, &err_used);
    fwrite(out, 1, out_used, stdout);
    fwrite(err, 1, err_used, stderr);
    return (int)code;
}
