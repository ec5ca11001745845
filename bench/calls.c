/* Allocates and frees: calls THREADS CALLS makes so many calls in all, half of them malloc and half free, by so many
   threads, each of which has at most 1,000 blocks of 16 to 1,015 bytes at a time. */
#include <pthread.h>
#include <stdlib.h>

enum { SLOTS = 1000 };

static long rounds;

static void *work(void *seed)
{
    unsigned n = (unsigned)(size_t)seed;
    void *slots[SLOTS] = { 0 };
    long i;
    for (i = 0; i < rounds; i++) {
        void **slot = &slots[i % SLOTS];
        free(*slot);
        n = n * 1103515245 + 12345;
        *slot = malloc(16 + n / 65536 % 1000);
    }
    for (i = 0; i < SLOTS; i++) free(slots[i]);
    return NULL;
}

int main(int argc, char **argv)
{
    long threads = argc > 1 ? atol(argv[1]) : 1, calls = argc > 2 ? atol(argv[2]) : 1000000, i;
    pthread_t all[64];
    if (threads < 1 || threads > 64) return 2;
    rounds = calls / 2 / threads;
    for (i = 0; i < threads; i++) if (pthread_create(&all[i], NULL, work, (void *)(i + 1)) != 0) return 1;
    for (i = 0; i < threads; i++) pthread_join(all[i], NULL);
    return 0;
}
