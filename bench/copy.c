// Copies so many rows of 4,096 bytes, so many times over, and prints the seconds of the fastest pass.
#include <stdio.h>
#include <stdlib.h>
#include <string.h>
#include <time.h>

int main(int argc, char **argv)
{
    size_t rows = argc > 1 ? strtoul(argv[1], NULL, 10) : 1;
    size_t held = 1024;
    char *from = malloc(held * 4096), *to = malloc(held * 4096);
    double best = 1e9;
    if (!from || !to)
        return 1;
    memset(from, 1, held * 4096);
    memset(to, 2, held * 4096);
    for (int pass = 0; pass < 5; pass++) {
        struct timespec a, b;
        clock_gettime(CLOCK_MONOTONIC, &a);
        for (size_t i = 0; i < rows; i++) {
            memcpy(to + i * 7 % held * 4096, from + i * 13 % held * 4096, 4096);
            __asm__ volatile("" : : "r"(to) : "memory");
        }
        clock_gettime(CLOCK_MONOTONIC, &b);
        double seconds = (b.tv_sec - a.tv_sec) + (b.tv_nsec - a.tv_nsec) / 1e9;
        if (seconds < best)
            best = seconds;
    }
    printf("%.9f\n", best);
    return 0;
}
