/* parklot.h: counters on which tasks sleep and wake each other, after the semaphores of Go's runtime/sema.go.
   A machine has proved the calls; link libparklot_c.a and heap.c (or anything else that defines what heap.c does).

   A table is some counters of units. A seat is one task's place at a table: each call is made with a seat, and all
   seats of a table are made with it. The library puts nobody to sleep: it says when your task has to, and whom to wake,
   by the seat's number. How a task sleeps is yours: a thread on a sem_t, a futex or a condition variable of its own,
   a coroutine by not being run.

   What C has to keep, and nothing checks:

   - A struct parklot_seat begins as zeros, and only these calls write it afterwards. It may be moved, as by memcpy; a
     copy is never used beside it. Nobody reads or writes what `cell` points to.
   - One call at a time for each seat. A seat may go from thread to thread, if something orders the last call there
     before the first call here: a lock, the start or the end of a thread, or a sequentially consistent atomic. Calls
     with different seats of one table may run at once.
   - No pointer is null. What it points to may be read, and written where it isn't const, for as long as the call says,
     and two parameters of one call don't overlap.
   - malloc, realloc and free (heap.c) are of one allocator, and align as C asks.
   - No call comes from a signal handler, or from the child of a fork that left threads behind.
   - Once parklot_post has answered PARKLOT_OWES, parklot_wake is called until it answers something else than
     PARKLOT_BUSY; the same of parklot_post_many and parklot_wake_some. A number that these name is made ready to
     run: its task calls parklot_poll. Else somebody may sleep beside a unit for good.

   No call waits, sleeps or starts a thread, and each returns. A seat that is empty or in the middle of another call, a
   counter that isn't there, and settings that don't fit are answered by a code of 100 or more: then nothing was done,
   and nothing was written but where it is said. */

#ifndef PARKLOT_H
#define PARKLOT_H

#include <stdbool.h>
#include <stddef.h>
#include <stdint.h>

#ifdef __cplusplus
extern "C" {
#endif

/* A seat. Begin with zeros: struct parklot_seat seat = {0}; */
struct parklot_seat {
    bool full;
    void *cell;
};

/* What calls answer. */
enum parklot_answer {
    PARKLOT_OK = 0,
    PARKLOT_TAKEN = 1,  /* the seat has a unit, and rests */
    PARKLOT_ZERO = 2,   /* there was no unit; the seat rests */
    PARKLOT_LOST = 3,   /* another changed the counter meanwhile; the seat rests: try again */
    PARKLOT_DONE = 4,   /* all is done; the seat rests */
    PARKLOT_OWES = 5,   /* the units are added, and somebody may wait: the seat's next call is parklot_wake(_some) */
    PARKLOT_ASLEEP = 6, /* the seat is queued: its task sleeps until it is named, and then calls parklot_poll */
    PARKLOT_WOKEN = 7,  /* the seat is woken, without a unit: its next call is parklot_retry */
    PARKLOT_NOBODY = 8, /* nobody waited for this counter; the seat rests */
    PARKLOT_ONE = 9,    /* one was woken, *woken says which; the seat rests */
    PARKLOT_HANDED = 10, /* parklot_wake: one was woken and given the unit; parklot_poll: this seat has that unit */

    PARKLOT_LEFT = 14,   /* the seat gave up: it is queued no more, and rests */
    PARKLOT_COMING = 15, /* the seat gave up too late: it will be named, and sleeps on until then */

    /* Answers of a list alone (parklot_list.h). */
    PARKLOT_AT_ONCE = 11, /* the ticket was granted already; the seat rests */
    PARKLOT_PARKED = 12,  /* the seat is queued: its task sleeps until it is named */
    PARKLOT_GRANTED = 13, /* one is granted that isn't parked yet, and won't be: nobody is to be woken */

    /* Refusals: nothing was done, but by BUSY of parklot_list_one and parklot_list_all (parklot_list.h). */
    PARKLOT_NO_SEAT = 100,    /* the seat is empty, or one of a list (parklot_list.h: of a table), which stays as it was */
    PARKLOT_OTHER_CALL = 101, /* the seat stands in the middle of another call, or (poll, retry, wake) of none */
    PARKLOT_NO_COUNTER = 102, /* the table has no such counter */
    PARKLOT_BUSY = 103,       /* others hold the lock of the counter's root, or the list's: call again a little later */
    PARKLOT_LIMIT = 104,      /* the seat may spend no more: it has used up release_limit units */
    PARKLOT_FULL = 105,       /* parklot_new: a seat isn't empty */
    PARKLOT_UNITS = 106,      /* not 1 to 256 units */
    PARKLOT_ROOM = 107,       /* room for too few numbers */
    PARKLOT_COUNTERS = 110,   /* not 1 to 65,536 counters */
    PARKLOT_SEATS = 111,      /* not 1 to 65536 seats */
    PARKLOT_ROOTS = 112,      /* not 1 to 251 roots */
    PARKLOT_RELEASE_LIMIT = 113, /* not 1 to 2^54 units, or above 2^62 for all seats */
    PARKLOT_NO_MEMORY = 114
};

/* Any call with a seat but those that make one may answer NO_SEAT, any of these but those that tell a seat's number
   OTHER_CALL, and any with a counter NO_COUNTER. What else it answers stands behind it. */

/* Makes a table and all its seats; seats[n] has number n. starts[c] is the number of units that counter c begins with.
   Counter c is at root c modulo roots: counters of one root wait for one another's lock, and one root is enough for a
   few counters (Go has 251). seed shapes the trees in which a root finds its counters, and nothing that a caller sees.
   Each seat may add release_limit units in its life; a wait that it gives up counts as one. Memory is taken here and nowhere else, and goes with the last seat.
   OK, COUNTERS, SEATS, ROOTS, RELEASE_LIMIT, FULL, NO_MEMORY. */
uint32_t parklot_new(const uint32_t *starts, size_t counters, uint32_t roots, uint64_t seed, uint64_t release_limit,
                     struct parklot_seat *seats, size_t count);

/* The seat's number, by which `woken` names it: in the middle of any call too. OK. */
uint32_t parklot_number(struct parklot_seat *seat, uint32_t *number);

/* Takes a unit, if there is one. TAKEN, ZERO, LOST. */
uint32_t parklot_try_acquire(struct parklot_seat *seat, uint32_t counter);

/* The slow half of an acquire: takes a unit, or queues the seat, at the end, or with lifo at the front. Another thread
   may name the seat before this call has returned. TAKEN, ASLEEP, BUSY. */
uint32_t parklot_enter(struct parklot_seat *seat, uint32_t counter, bool lifo);

/* Whether a seat that is asleep was woken. Once it was named, never ASLEEP. ASLEEP, WOKEN, HANDED. */
uint32_t parklot_poll(struct parklot_seat *seat);

/* Gives up the wait of a seat that is asleep: its task's time is over, or it is cancelled. LEFT: nobody will name it, and
   it has used up one of its release_limit units. COMING: a release has taken it out already, and will name it: the task
   sleeps on, without a time, and then polls. WOKEN, HANDED: it was woken before, as parklot_poll tells. BUSY, LIMIT: it is
   asleep as before. */
uint32_t parklot_leave(struct parklot_seat *seat);

/* The try of a seat that was woken. Where it answers ZERO, another took the unit: parklot_enter again, with the same
   counter and lifo. TAKEN, ZERO. */
uint32_t parklot_retry(struct parklot_seat *seat);

/* Adds a unit. OWES: somebody may wait. DONE, OWES, LIMIT. */
uint32_t parklot_post(struct parklot_seat *seat, uint32_t counter);

/* Adds 1 to 256 units at once. OWES: somebody may wait; parklot_wake_some. DONE, OWES, LIMIT, UNITS. */
uint32_t parklot_post_many(struct parklot_seat *seat, uint32_t counter, uint32_t units);

/* The rest of a parklot_post: takes the first out of the queue, and writes its number where it answers ONE or HANDED.
   With handoff it tries to give it the unit too. NOBODY, ONE, HANDED, BUSY. */
uint32_t parklot_wake(struct parklot_seat *seat, bool handoff, uint32_t *woken);

/* The rest of a parklot_post_many: takes as many out of the queue as there were units, or all where there are fewer, and
   writes their numbers, *count of them. There has to be room for 256. DONE, BUSY, ROOM. */
uint32_t parklot_wake_some(struct parklot_seat *seat, uint32_t *woken, size_t room, uint32_t *count);

/* How many units the counter has: one look, old as soon as it is told. OK. */
uint32_t parklot_value(struct parklot_seat *seat, uint32_t counter, uint64_t *value);

/* How many wait, or are about to, at the root of this counter: one look. OK. */
uint32_t parklot_waiters_of_root(struct parklot_seat *seat, uint32_t counter, uint64_t *waits);

/* Gives a seat back that rests; it is empty afterwards, and zeros. Any thread may free it. OK. */
uint32_t parklot_free(struct parklot_seat *seat);

#ifdef __cplusplus
}
#endif

#endif
