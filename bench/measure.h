/* Two ways of doing one thing, timed in one run and given as a ratio. The file
 * that includes this has fill(), which sets both up alike, and same(name),
 * which ends the program if they differ. */
#define _POSIX_C_SOURCE 200809L
#include <stddef.h>
#include <stdio.h>
#include <time.h>

/* Seconds of processor time, so that other programs' turns do not count. */
static double now(void)
{
    struct timespec t;
    clock_gettime(CLOCK_PROCESS_CPUTIME_ID, &t);
    return (double)t.tv_sec + 1e-9 * (double)t.tv_nsec;
}

#define HEADING(what, other) printf("%-34s %11s %11s   %5s\n", what, "proved", other, "ratio")

/* The best of many short rounds each, in turn, so that both meet the same machine. */
enum { ROUNDS = 45 };

/* Each is done `times` times in a round. One time has `parts` parts: the table has the time of one. */
#define MEASURE(name, times, parts, a, b)                                            \
    do {                                                                             \
        fill();                                                                      \
        for (unsigned i = 0; i < 64; i++) { a; b; same(name); }                      \
        double best_a = 1e9, best_b = 1e9;                                           \
        for (int round = 0; round < ROUNDS; round++) {                               \
            double t0 = now();                                                       \
            for (unsigned i = 0; i < (times); i++) { a; }                            \
            double t1 = now();                                                       \
            for (unsigned i = 0; i < (times); i++) { b; }                            \
            double t2 = now();                                                       \
            if (t1 - t0 < best_a) best_a = t1 - t0;                                  \
            if (t2 - t1 < best_b) best_b = t2 - t1;                                  \
        }                                                                            \
        printf("%-34s %8.1f ns %8.1f ns   %5.2f\n", name,                            \
               1e9 * best_a / (times) / (parts), 1e9 * best_b / (times) / (parts),   \
               best_a / best_b);                                                     \
    } while (0)
