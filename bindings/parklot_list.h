/* parklot_list.h: lists of waiters, after the notifyList of Go's runtime/sema.go, on which a condition variable can stand.

   Who wants to wait adds itself, and so takes a ticket, the next number; then it lets go of whatever it holds, and waits.
   parklot_list_one grants the least ticket that isn't granted; parklot_list_all grants all. So nobody who has its ticket
   misses what is told after it, though it doesn't sleep yet.

   The library puts nobody to sleep: parklot.h says how that goes, and what C has to keep holds of a list's seats too.
   A number that parklot_list_one and parklot_list_all name is made ready to run: its task calls parklot_list_poll. */

#ifndef PARKLOT_LIST_H
#define PARKLOT_LIST_H

#include "parklot.h"

#ifdef __cplusplus
extern "C" {
#endif

/* A seat at a list: one task's place. Begin with zeros. */
struct parklot_list_seat {
    bool full;
    void *cell;
};

/* Makes a list and all its seats, 1 to 65536; seats[n] has number n, and the first ticket is `first`. OK, SEATS, FULL,
   NO_MEMORY. */
uint32_t parklot_list_new(uint64_t first, struct parklot_list_seat *seats, size_t count);

/* The seat's number, by which `woken` names it. OK. */
uint32_t parklot_list_number(struct parklot_list_seat *seat, uint32_t *number);

/* Takes a ticket: the seat's next call is parklot_list_try_wait. OK. */
uint32_t parklot_list_add(struct parklot_list_seat *seat, uint64_t *ticket);

/* Waits with the ticket: it was granted (AT_ONCE), or the seat is queued and its task sleeps (PARKED). Another thread may
   name the seat before this call has returned. AT_ONCE, PARKED, BUSY. */
uint32_t parklot_list_try_wait(struct parklot_list_seat *seat);

/* Whether a seat that is parked was woken. Once it was named, never ASLEEP. ASLEEP, WOKEN. */
uint32_t parklot_list_poll(struct parklot_list_seat *seat);

/* Gives up the wait of a seat that is parked. LEFT: nobody will name it, and its ticket is never granted. COMING: its ticket
   is granted, and it will be named: the task sleeps on, without a time, and then polls. WOKEN: it was granted before. BUSY,
   LIMIT: it is parked as before; LIMIT is for tickets from 2^60 on. */
uint32_t parklot_list_leave(struct parklot_list_seat *seat);

/* Grants the least ticket that is neither granted nor left. NOBODY: there is none. GRANTED: its owner isn't parked yet. ONE: its owner
   was parked, *woken says which seat. NOBODY, GRANTED, ONE, BUSY. */
uint32_t parklot_list_one(struct parklot_list_seat *seat, uint32_t *woken);

/* Grants all tickets, and writes the numbers of those that were parked, *count of them. There has to be room for all
   seats of the list. BUSY: the seat has begun, and can't do anything else: call it again, and it goes on. DONE, BUSY, ROOM. */
uint32_t parklot_list_all(struct parklot_list_seat *seat, uint32_t *woken, size_t room, uint32_t *count);

/* Whether all tickets are granted: a look at each of the two words. OK. */
uint32_t parklot_list_quiet(struct parklot_list_seat *seat, bool *quiet);

/* Gives a seat back that rests. OK. */
uint32_t parklot_list_free(struct parklot_list_seat *seat);

#ifdef __cplusplus
}
#endif

#endif
