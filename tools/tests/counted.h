/* Allocations that are counted, of a program that is linked with -Wl,--wrap=malloc,--wrap=realloc,--wrap=free. */
#include <stdio.h>
#include <stdlib.h>

/* Of the calls of the archive: how many were made, how many are held, and which one fails; 0 for none. */
static long made, held, fail_at;
static int is_counting;

void *__real_malloc(size_t size);
void *__real_realloc(void *old, size_t size);
void __real_free(void *block);

void *__wrap_malloc(size_t size) {
    if (is_counting && ++made == fail_at) return NULL;
    void *block = __real_malloc(size);
    if (is_counting && block) held++;
    return block;
}

void *__wrap_realloc(void *old, size_t size) {
    if (is_counting && ++made == fail_at) return NULL;
    void *block = __real_realloc(old, size);
    if (is_counting && block && !old) held++;
    return block;
}

void __wrap_free(void *block) {
    if (is_counting && block) held--;
    __real_free(block);
}

static void begin_counting(void) {
    made = 0;
    is_counting = 1;
}

/* All have to be freed. */
static void end_counting(void) {
    is_counting = 0;
    if (held) {
        printf("%ld allocations were not freed\n", held);
        exit(1);
    }
}
