/* Eight threads allocate, resize and free, and hand blocks to one another; meanwhile the program forks. With an argument of
   0 rounds only what the library itself allocates is left. It prints what its own calls were, and what is live at the end:
       ALLOCS RESIZES FREES LIVE BYTES */
#define _GNU_SOURCE
#include <pthread.h>
#include <stdio.h>
#include <stdlib.h>
#include <string.h>
#include <sys/wait.h>
#include <unistd.h>

enum { THREADS = 8, SLOTS = 256 };

static struct slot { void *block; size_t size; } slots[SLOTS];
static pthread_mutex_t locks[SLOTS];
static pthread_mutex_t sums = PTHREAD_MUTEX_INITIALIZER;
static long rounds, allocs, resizes, frees;

static void *work(void *seed_at)
{
    unsigned seed = *(unsigned *)seed_at;
    long round, made = 0, changed = 0, gone = 0;
    for (round = 0; round < rounds; round++) {
        size_t i = rand_r(&seed) % SLOTS, size = rand_r(&seed) % 3000 + 1;
        struct slot *slot = &slots[i];
        /* Blocks that never leave the thread, so that addresses go round quickly. */
        void *own = malloc(size);
        free(own);
        made++;
        gone++;
        pthread_mutex_lock(&locks[i]);
        if (!slot->block) {
            slot->block = rand_r(&seed) % 2 ? malloc(size) : calloc(1, size);
            slot->size = size;
            made++;
        } else if (rand_r(&seed) % 2) {
            slot->block = realloc(slot->block, size);
            slot->size = size;
            changed++;
        } else {
            free(slot->block);
            slot->block = NULL;
            gone++;
        }
        if (slot->block) memset(slot->block, 1, slot->size);
        pthread_mutex_unlock(&locks[i]);
    }
    pthread_mutex_lock(&sums);
    allocs += made;
    resizes += changed;
    frees += gone;
    pthread_mutex_unlock(&sums);
    return NULL;
}

/* A child that allocates and ends in one of two ways; nothing of it may stand in the script. */
static int child(int i)
{
    pid_t pid = fork();
    int status;
    if (pid == 0) {
        int n;
        for (n = 0; n < 100; n++) free(realloc(malloc(100 + n), 70000));
        if (!malloc(123456)) _exit(1);
        if (i % 2) _exit(0);
        exit(0);
    }
    return pid > 0 && waitpid(pid, &status, 0) == pid && status == 0;
}

int main(int argc, char **argv)
{
    static char output[4096];
    pthread_t threads[THREADS];
    unsigned seeds[THREADS];
    long live = 0, bytes = 0, i;
    setvbuf(stdout, output, _IOFBF, sizeof output);
    rounds = argc > 1 ? atol(argv[1]) : 0;
    for (i = 0; i < SLOTS; i++) pthread_mutex_init(&locks[i], NULL);
    for (i = 0; i < THREADS; i++) {
        seeds[i] = i + 1;
        if (pthread_create(&threads[i], NULL, work, &seeds[i])) return 1;
    }
    for (i = 0; i < (rounds ? 20 : 0); i++)
        if (!child(i)) return 2;
    for (i = 0; i < THREADS; i++) pthread_join(threads[i], NULL);
    for (i = 0; i < SLOTS; i++)
        if (slots[i].block) {
            live++;
            bytes += slots[i].size;
        }
    printf("%ld %ld %ld %ld %ld\n", allocs, resizes, frees, live, bytes);
    return 0;
}
