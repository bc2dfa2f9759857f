/* A seat enters, and then leaves, behind so many others that wait on the same counter: what that takes, by how many
   they are. Medians of 9 rounds. */

#define _GNU_SOURCE
#include "parklot.h"

#include <stdio.h>
#include <stdlib.h>
#include <time.h>

enum { ROUNDS = 9 };

/* This thread's time on its processor: that of others, who may take turns with it, doesn't count. */
static double now(void)
{
    struct timespec time;

    clock_gettime(CLOCK_THREAD_CPUTIME_ID, &time);
    return (double)time.tv_sec * 1e9 + (double)time.tv_nsec;
}

static void must(int holds, const char *what)
{
    if (!holds) {
        fprintf(stderr, "leave: %s\n", what);
        exit(1);
    }
}

static int by_value(const void *one, const void *other)
{
    double a = *(const double *)one, b = *(const double *)other;

    return (a > b) - (a < b);
}

/* Nanoseconds for an enter and a leave behind so many waits. */
static double behind(size_t waits, int turns)
{
    static const uint32_t start = 0;
    struct parklot_seat *seats = calloc(waits + 1, sizeof *seats);
    double times[ROUNDS];

    must(seats != NULL, "no memory");
    must(parklot_new(&start, 1, 1, 1, (uint64_t)1 << 40, seats, waits + 1) == PARKLOT_OK, "no table");
    for (size_t at = 0; at < waits; at++)
        must(parklot_enter(&seats[at], 0, false) == PARKLOT_ASLEEP, "not asleep");
    for (int round = 0; round < ROUNDS; round++) {
        double begun = now();

        for (int turn = 0; turn < turns; turn++) {
            must(parklot_enter(&seats[waits], 0, false) == PARKLOT_ASLEEP, "not asleep");
            must(parklot_leave(&seats[waits]) == PARKLOT_LEFT, "not left");
        }
        times[round] = (now() - begun) / turns;
    }
    for (size_t at = 0; at < waits; at++)
        must(parklot_leave(&seats[at]) == PARKLOT_LEFT, "not left");
    for (size_t at = 0; at <= waits; at++)
        must(parklot_free(&seats[at]) == PARKLOT_OK, "not freed");
    free(seats);
    qsort(times, ROUNDS, sizeof *times, by_value);
    return times[ROUNDS / 2];
}

int main(void)
{
    static const size_t waits[] = {0, 15, 63, 255, 4095, 65533};

    for (size_t at = 0; at < sizeof waits / sizeof *waits; at++) {
        int turns = waits[at] < 1000 ? 20000 : 300;

        printf("behind %zu waits: %.0f ns\n", waits[at], behind(waits[at], turns));
    }
    return 0;
}
