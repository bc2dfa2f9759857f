/* A post and a try_acquire of one thread, nobody else there: the library's, the same in plain C, and glibc's sem_post and
   sem_trywait. Medians of 25 rounds, in each of which all three run in turn. */

#define _GNU_SOURCE
#include "parklot.h"
#include "plain.h"

#include <sched.h>
#include <semaphore.h>
#include <stdio.h>
#include <stdlib.h>
#include <string.h>
#include <time.h>

enum { PAIRS = 200000, ROUNDS = 25, KINDS = 3, LINE = 64 };

static struct parklot_seat seat;
static struct plain_seat plain;
static sem_t sem;

/* This thread's time on its processor: that of others, who may take turns with it, doesn't count. */
static double now(void)
{
    struct timespec time;

    clock_gettime(CLOCK_THREAD_CPUTIME_ID, &time);
    return (double)time.tv_sec * 1e9 + (double)time.tv_nsec;
}

static void must(int holds, const char *what)
{
    if (!holds) {
        fprintf(stderr, "pair: %s\n", what);
        exit(1);
    }
}

static void library(void)
{
    for (int pair = 0; pair < PAIRS; pair++) {
        must(parklot_post(&seat, 0) == PARKLOT_DONE, "parklot_post");
        must(parklot_try_acquire(&seat, 0) == PARKLOT_TAKEN, "parklot_try_acquire");
    }
}

static void plain_c(void)
{
    for (int pair = 0; pair < PAIRS; pair++) {
        must(plain_post(&plain, 0) == 0, "plain_post");
        must(plain_try_acquire(&plain, 0) == 0, "plain_try_acquire");
    }
}

static void glibc(void)
{
    for (int pair = 0; pair < PAIRS; pair++) {
        must(sem_post(&sem) == 0, "sem_post");
        must(sem_trywait(&sem) == 0, "sem_trywait");
    }
}

static double time_of(void (*pairs)(void))
{
    double begin = now();

    pairs();
    return (now() - begin) / PAIRS;
}

static int by_size(const void *one, const void *other)
{
    double a = *(const double *)one, b = *(const double *)other;

    return (a > b) - (a < b);
}

static double median(double *times)
{
    qsort(times, ROUNDS, sizeof *times, by_size);
    return times[ROUNDS / 2];
}

/* On the processor where it runs already. */
static int pin(void)
{
    cpu_set_t one;

    CPU_ZERO(&one);
    CPU_SET(sched_getcpu(), &one);
    return sched_setaffinity(0, sizeof one, &one) == 0;
}

static void make(void)
{
    const uint32_t starts[1] = {0};
    static struct plain_table table = {NULL, 1};
    size_t size = (size_t)LINE * (1 + PLAIN_ROOTS);

    must(parklot_new(starts, 1, PLAIN_ROOTS, 1, UINT64_C(1) << 40, &seat, 1) == PARKLOT_OK, "parklot_new");
    table.words = aligned_alloc(LINE, size);
    must(table.words != NULL, "memory");
    memset(table.words, 0, size);
    plain = (struct plain_seat){&table, UINT64_C(1) << 40, 0};
    must(sem_init(&sem, 0, 0) == 0, "sem_init");
}

int main(void)
{
    static void (*const kinds[KINDS])(void) = {library, plain_c, glibc};
    static double times[KINDS][ROUNDS];
    double middle[KINDS];
    int pinned = pin();

    make();
    for (int round = 0; round < ROUNDS; round++)
        for (int kind = 0; kind < KINDS; kind++)
            times[kind][round] = time_of(kinds[kind]);
    for (int kind = 0; kind < KINDS; kind++)
        middle[kind] = median(times[kind]);
    printf("ns for a pair, medians of %d%s: library %.1f, plain C %.1f, glibc %.1f\n", ROUNDS, pinned ? ", pinned" : "",
           middle[0], middle[1], middle[2]);
    printf("beside plain C %.2f, beside glibc %.2f\n", middle[0] / middle[1], middle[0] / middle[2]);
    parklot_free(&seat);
    free(plain.table->words);
    return 0;
}
