/* threads.h: what the semaphores and condition variables stand on: counters on which this process's threads sleep. */

#ifndef PARKLOT_THREADS_H
#define PARKLOT_THREADS_H

#include <stdbool.h>
#include <stdint.h>
#include <time.h>

/* How many threads may have a seat at once. */
#ifndef PARKLOT_THREAD_SEATS
#define PARKLOT_THREAD_SEATS 4096
#endif

/* Counters 1 to THREAD_LOCKS begin with one unit: each is a lock. The others are taken and given back. */
enum { THREAD_SEATS = PARKLOT_THREAD_SEATS, THREAD_LOCKS = 64 };

/* What ends a wait without a unit: a time, a signal that this thread handles, its cancellation. */
struct patience {
    bool has_end;
    bool by_signal;
    bool by_cancellation;
    clockid_t clock;
    struct timespec end;
};

/* Gives this thread a seat, where it has none. False where none is free. All calls below ask for one. */
bool thread_is_seated(void);

/* The counter on which this thread alone waits. */
uint32_t thread_counter(void);

/* A counter of nobody's, with this many units at most; 0 where there is none. */
uint32_t counter_take(uint64_t units);
void counter_give_back(uint32_t counter);

bool counter_try(uint32_t counter);
uint64_t counter_value(uint32_t counter);

/* Takes a unit, and sleeps while there is none. 0, or ETIMEDOUT or EINTR. */
int counter_acquire_with(uint32_t counter, const struct patience *patience);

/* The same, as long as it takes. */
void counter_acquire(uint32_t counter);

/* Adds a unit, and wakes the first who waits for one. */
void counter_release(uint32_t counter);

/* The same by a thread with or without a seat, or by a signal handler, where the counter has fewer units than this: 0. Else
   EOVERFLOW; or EAGAIN, where all seats that are kept for this are in use. */
int counter_post(uint32_t counter, uint64_t most);

#endif
