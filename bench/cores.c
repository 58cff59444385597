/* cores THREADS TICKS PARTS: plain threads that stay and share no memory but a barrier. In each tick each does an equal part of
   PARTS parts of arithmetic, each of about a millisecond, and waits for the others: what a machine has to give to a program whose
   ticks wait for their slowest worker. */
#include <pthread.h>
#include <stdint.h>
#include <stdlib.h>

static pthread_barrier_t all;
static int threads, ticks, parts;
static volatile uint64_t kept[64 * 8];

static void *work(void *of) {
    int self = (int)(intptr_t)of;
    uint64_t x = (uint64_t)self;
    for (int tick = 0; tick < ticks; tick++) {
        for (int part = self; part < parts; part += threads)
            for (int i = 0; i < 700000; i++)
                x = x * 6364136223846793005u + 1442695040888963407u;
        kept[self * 8] = x;
        pthread_barrier_wait(&all);
    }
    return 0;
}

int main(int count, char **words) {
    if (count != 4)
        return 1;
    threads = atoi(words[1]), ticks = atoi(words[2]), parts = atoi(words[3]);
    if (threads < 1 || threads > 64 || ticks < 1 || parts < 1)
        return 1;
    pthread_t others[64];
    pthread_barrier_init(&all, 0, (unsigned)threads);
    for (int at = 1; at < threads; at++)
        if (pthread_create(&others[at], 0, work, (void *)(intptr_t)at))
            return 2;
    work(0);
    for (int at = 1; at < threads; at++)
        pthread_join(others[at], 0);
    return 0;
}
