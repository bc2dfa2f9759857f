/* Waits on a semaphore that end by their time, beside glibc's, in turns: over already, and in 20 microseconds. */

#define _GNU_SOURCE
#include "parklot_sem.h"

#include <semaphore.h>
#include <stdio.h>
#include <stdlib.h>

enum { RUNS = 15, OVER = 20000, SOON = 500, NANOSECONDS = 20000 };

static parklot_sem_t ours;
static sem_t theirs;

static double now(void)
{
    struct timespec time;

    clock_gettime(CLOCK_MONOTONIC, &time);
    return (double)time.tv_sec * 1e9 + (double)time.tv_nsec;
}

static int wait_ours(const struct timespec *end)
{
    return parklot_sem_clockwait(&ours, CLOCK_MONOTONIC, end);
}

static int wait_theirs(const struct timespec *end)
{
    return sem_clockwait(&theirs, CLOCK_MONOTONIC, end);
}

/* Nanoseconds a wait. */
static double measure(int (*wait)(const struct timespec *), int times, long ahead)
{
    double began = now();

    for (int at = 0; at < times; at++) {
        struct timespec end = {1, 0};

        if (ahead != 0) {
            clock_gettime(CLOCK_MONOTONIC, &end);
            end.tv_nsec += ahead;
            end.tv_sec += end.tv_nsec / 1000000000;
            end.tv_nsec %= 1000000000;
        }
        if (wait(&end) == 0)
            exit(1);
    }
    return (now() - began) / times;
}

static int compare(const void *one, const void *other)
{
    double a = *(const double *)one, b = *(const double *)other;

    return (a > b) - (a < b);
}

static void report(const char *what, int times, long ahead)
{
    double mine[RUNS], glibcs[RUNS];

    for (int run = 0; run < RUNS; run++) {
        mine[run] = measure(wait_ours, times, ahead);
        glibcs[run] = measure(wait_theirs, times, ahead);
    }
    qsort(mine, RUNS, sizeof *mine, compare);
    qsort(glibcs, RUNS, sizeof *glibcs, compare);
    printf("%s: ours %.0f ns, glibc %.0f ns, ratio %.2f\n", what, mine[RUNS / 2], glibcs[RUNS / 2],
        mine[RUNS / 2] / glibcs[RUNS / 2]);
}

int main(void)
{
    if (parklot_sem_init(&ours, 0, 0) != 0 || sem_init(&theirs, 0, 0) != 0)
        return 1;
    report("a wait whose time is over", OVER, 0);
    report("a wait that ends in 20 microseconds", SOON, NANOSECONDS);
    return 0;
}
