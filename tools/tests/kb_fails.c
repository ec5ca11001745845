/* Makes the image of what a script leaves, through kb_save, and runs another one over it, through kb_run_over, where each
 * allocation fails in turn, up to the first that isn't made: the status has to be that of want of memory, with a front of the
 * replies and no image, and all memory has to be freed. Told are the bytes of both images, and the allocations.
 * It is linked with -Wl,--wrap=malloc,--wrap=realloc,--wrap=free. */
#include <kolbista.h>
#include <string.h>
#include "counted.h"

/* A script, and what came of it. */
typedef struct {
    const char *script;
    uint8_t image[65536], out[1024];
    size_t image_used, out_used;
} Run;

/* Runs it over the image that another one left, or over nothing. */
static uint32_t run(Run *run, const Run *over) {
    uint8_t err[128];
    size_t err_used, size = strlen(run->script);
    const uint8_t *script = (const uint8_t *)run->script;
    begin_counting();
    uint32_t status = over ? kb_run_over(over->image, over->image_used, script, size, run->image, sizeof run->image,
                                         &run->image_used, run->out, sizeof run->out, &run->out_used, err, sizeof err, &err_used)
                           : kb_save(script, size, run->image, sizeof run->image, &run->image_used, run->out, sizeof run->out,
                                     &run->out_used, err, sizeof err, &err_used);
    end_counting();
    return status;
}

static void fail_each(Run *wanted, const Run *over) {
    Run got = {.script = wanted->script};
    if (run(wanted, over) != KB_OK) exit(1);
    for (long n = 1;; n++) {
        fail_at = n;
        uint32_t status = run(&got, over);
        if (made < n && status == KB_OK) break;
        if (status != KB_MEMORY || got.image_used || memcmp(got.out, wanted->out, got.out_used)) {
            printf("allocation %ld: status %u\n", n, status);
            exit(1);
        }
    }
    fail_at = 0;
    if (got.image_used != wanted->image_used || memcmp(got.image, wanted->image, got.image_used)) exit(1);
    printf("%zu bytes of an image, %ld allocations\n", got.image_used, made);
}

int main(void) {
    static Run first = {.script = "open r best 1\ndict s set r 1\ninsert s fig\nalloc r a 100\ndict o oset r 3\ninsert o Plum\n"};
    static Run second = {.script = "free r b1\ninsert d1 pear\ndelete d2 plum\nwalk d1\ndict q queue r 1\ninsert q x\n"};
    fail_each(&first, NULL);
    fail_each(&second, &first);
    return 0;
}
