/* Stores as many words as a screen of 640 x 480 has, a hundred times, sequentially consistently, and prints the picoseconds of
   processor time for a word. */
#include <stdatomic.h>
#include <stdint.h>
#include <stdio.h>
#include <time.h>

enum { WORDS = 640 * 480, TIMES = 100 };

static _Atomic uint64_t words[WORDS];

static uint64_t now(void) {
    struct timespec at;
    clock_gettime(CLOCK_THREAD_CPUTIME_ID, &at);
    return (uint64_t)at.tv_sec * 1000000000u + (uint64_t)at.tv_nsec;
}

int main(void) {
    uint64_t start = now();
    for (uint64_t time = 0; time < TIMES; time++)
        for (int i = 0; i < WORDS; i++)
            atomic_store(&words[i], time);
    printf("%llu\n", (unsigned long long)((now() - start) * 1000 / TIMES / WORDS));
    return 0;
}
