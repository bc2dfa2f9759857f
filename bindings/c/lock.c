/* A lock of four threads over one counter. Each parks on a semaphore of its own, as a runtime parks its tasks. */

#include "answers.h"

#include <errno.h>
#include <pthread.h>
#include <sched.h>
#include <semaphore.h>
#include <stdatomic.h>

enum { THREADS = 4, ROUNDS = 20000 };

static struct parklot_seat seats[THREADS];
static sem_t parks[THREADS];
static unsigned long sum; /* guarded by the lock */
static atomic_ulong slept, woke;

static void park(uint32_t me)
{
    while (sem_wait(&parks[me]) != 0)
        must(errno == EINTR, "sem_wait", PARKLOT_OK);
}

static bool has_tried(struct parklot_seat *seat)
{
    uint32_t answer;

    while ((answer = parklot_try_acquire(seat, 0)) == PARKLOT_LOST)
        continue;
    must(answer == PARKLOT_TAKEN || answer == PARKLOT_ZERO, "parklot_try_acquire", answer);
    return answer == PARKLOT_TAKEN;
}

/* What a seat does that is queued: true where it came out with the unit. */
static bool has_slept(uint32_t me)
{
    struct parklot_seat *seat = &seats[me];
    uint32_t answer;

    atomic_fetch_add(&slept, 1);
    park(me);
    answer = parklot_poll(seat);
    must(answer == PARKLOT_WOKEN || answer == PARKLOT_HANDED, "parklot_poll of a named seat", answer);
    if (answer == PARKLOT_HANDED)
        return true;
    answer = parklot_retry(seat);
    must(answer == PARKLOT_TAKEN || answer == PARKLOT_ZERO, "parklot_retry", answer);
    return answer == PARKLOT_TAKEN;
}

static void acquire(uint32_t me, bool lifo)
{
    if (has_tried(&seats[me]))
        return;
    for (;;) {
        uint32_t answer = parklot_enter(&seats[me], 0, lifo);

        if (answer == PARKLOT_TAKEN)
            return;
        must(answer == PARKLOT_ASLEEP || answer == PARKLOT_BUSY, "parklot_enter", answer);
        if (answer == PARKLOT_BUSY)
            sched_yield();
        else if (has_slept(me))
            return;
    }
}

static void release(uint32_t me, bool handoff)
{
    uint32_t woken, answer = parklot_post(&seats[me], 0);

    if (answer == PARKLOT_DONE)
        return;
    must(answer == PARKLOT_OWES, "parklot_post", answer);
    while ((answer = parklot_wake(&seats[me], handoff, &woken)) == PARKLOT_BUSY)
        sched_yield();
    if (answer == PARKLOT_NOBODY)
        return;
    must(answer == PARKLOT_ONE || (handoff && answer == PARKLOT_HANDED), "parklot_wake", answer);
    atomic_fetch_add(&woke, 1);
    sem_post(&parks[woken]);
}

static void *work(void *which)
{
    uint32_t me = *(uint32_t *)which;

    for (int round = 0; round < ROUNDS; round++) {
        acquire(me, round % 3 == 0);
        sum++;
        if (round % 32 == 0)
            sched_yield();
        release(me, round % 5 == 0);
    }
    return NULL;
}

int main(void)
{
    const uint32_t starts[1] = {1};
    uint32_t numbers[THREADS], answer = parklot_new(starts, 1, 1, 1, UINT64_C(1) << 40, seats, THREADS);
    pthread_t threads[THREADS];

    must(answer == PARKLOT_OK, "parklot_new", answer);
    for (uint32_t at = 0; at < THREADS; at++) {
        numbers[at] = at;
        sem_init(&parks[at], 0, 0);
    }
    for (uint32_t at = 0; at < THREADS; at++)
        if (pthread_create(&threads[at], NULL, work, &numbers[at]) != 0)
            return 1;
    for (uint32_t at = 0; at < THREADS; at++)
        pthread_join(threads[at], NULL);
    printf("sum %lu of %d\n", sum, THREADS * ROUNDS);
    printf("as many woke as slept: %s\n", slept == woke ? "yes" : "no");
    printf("some slept: %s\n", slept > 0 ? "yes" : "no");
    for (uint32_t at = 0; at < THREADS; at++)
        expect(PARKLOT_OK, "parklot_free", parklot_free(&seats[at]));
    return 0;
}
