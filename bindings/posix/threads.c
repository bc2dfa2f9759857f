/* Threads that sleep on the counters of one table. Each has a seat, and sleeps on a word of that seat's own. */

#define _GNU_SOURCE
#include "threads.h"

#include "parklot.h"

#include <errno.h>
#include <linux/futex.h>
#include <pthread.h>
#include <sched.h>
#include <stdatomic.h>
#include <stdio.h>
#include <stdlib.h>
#include <sys/syscall.h>
#include <unistd.h>

enum { COUNTERS = 16384, ROOTS = 251 };

/* Seats that no thread has: for posts by threads without one, and by signal handlers. */
enum { KEPT = 32, KEPT_TRIES = 1000 };

/* What each seat may spend of the 2^62 units of a table. */
static const uint64_t RELEASE_LIMIT = ((uint64_t)1 << 62) / (THREAD_SEATS + KEPT < 256 ? 256 : THREAD_SEATS + KEPT);

/* What a seat's word says while it is queued. */
enum { STAYS, NAMED };

/* A seat and its word. */
struct place {
    _Alignas(128) atomic_uint word;
    struct parklot_seat seat;
};

static struct place places[THREAD_SEATS + KEPT];
static atomic_bool kept_in_use[KEPT];

/* Which seats and counters are nobody's. Counters go round, the one that was given back first is taken first. */
static pthread_mutex_t pool = PTHREAD_MUTEX_INITIALIZER;
static uint32_t free_seats[THREAD_SEATS], free_seats_count;
static uint32_t free_counters[COUNTERS], free_counters_count, free_counters_first;

static pthread_once_t once = PTHREAD_ONCE_INIT;
static pthread_key_t at_exit;

/* This thread. A signal handler may find it anywhere: so it is told when its seat is in use, when it is inside of a call that
   may hold a root's lock, and which kept seats have to look for a wait once it comes out of that. */
static _Thread_local struct {
    struct place *place;
    uint32_t counter;
    atomic_uint uses, inside, owing;
} self;

static void must(bool holds, const char *what)
{
    if (!holds) {
        fprintf(stderr, "parklot: %s\n", what);
        abort();
    }
}

/* The pool. */

static struct place *seat_taken(void)
{
    return free_seats_count > 0 ? &places[free_seats[--free_seats_count]] : NULL;
}

static void seat_given(struct place *place)
{
    free_seats[free_seats_count++] = (uint32_t)(place - places);
}

static void seat_give_back(struct place *place)
{
    pthread_mutex_lock(&pool);
    seat_given(place);
    pthread_mutex_unlock(&pool);
}

static void counter_given(uint32_t counter)
{
    free_counters[(free_counters_first + free_counters_count++) % COUNTERS] = counter;
}

static uint32_t counter_taken(void)
{
    uint32_t counter = 0;

    pthread_mutex_lock(&pool);
    if (free_counters_count > 0) {
        counter = free_counters[free_counters_first];
        free_counters_first = (free_counters_first + 1) % COUNTERS;
        free_counters_count--;
    }
    pthread_mutex_unlock(&pool);
    return counter;
}

/* A thread's coming and going. */

static void go(void *unused)
{
    (void)unused;
    counter_give_back(self.counter);
    seat_give_back(self.place);
    self.place = NULL;
}

/* Where it isn't made, no seat is free. */
static void make_table(void)
{
    static uint32_t starts[COUNTERS];
    static struct parklot_seat seats[THREAD_SEATS + KEPT];

    for (uint32_t lock = 1; lock <= THREAD_LOCKS; lock++)
        starts[lock] = 1;
    if (pthread_key_create(&at_exit, go) != 0)
        return;
    if (parklot_new(starts, COUNTERS, ROOTS, 1, RELEASE_LIMIT, seats, THREAD_SEATS + KEPT) != PARKLOT_OK)
        return;
    for (uint32_t number = THREAD_SEATS + KEPT; number-- > 0;) {
        places[number].seat = seats[number];
        if (number < THREAD_SEATS)
            seat_given(&places[number]);
    }
    for (uint32_t counter = THREAD_LOCKS + 1; counter < COUNTERS; counter++)
        counter_given(counter);
}

static bool come(void)
{
    pthread_once(&once, make_table);
    pthread_mutex_lock(&pool);
    self.place = seat_taken();
    pthread_mutex_unlock(&pool);
    if (self.place == NULL)
        return false;
    self.counter = counter_take(0);
    if (self.counter == 0 || pthread_setspecific(at_exit, &self) != 0) {
        if (self.counter != 0)
            counter_give_back(self.counter);
        seat_give_back(self.place);
        self.place = NULL;
    }
    return self.place != NULL;
}

bool thread_is_seated(void)
{
    return self.place != NULL || come();
}

uint32_t thread_counter(void)
{
    return self.counter;
}

/* Calls that may hold a root's lock. A wake-up that a signal handler began meanwhile ends behind them. */

static void wake_first(struct place *place);

static void come_in(void)
{
    atomic_fetch_add(&self.inside, 1);
}

static void come_out(void)
{
    unsigned owing;

    if (atomic_fetch_sub(&self.inside, 1) != 1)
        return;
    while ((owing = atomic_exchange(&self.owing, 0)) != 0)
        for (uint32_t at = 0; at < KEPT; at++)
            if (owing >> at & 1) {
                wake_first(&places[THREAD_SEATS + at]);
                atomic_store(&kept_in_use[at], false);
            }
}

/* Sleeping. */

static int futex_wait(atomic_uint *word, const struct patience *patience)
{
    int call = FUTEX_WAIT_BITSET | FUTEX_PRIVATE_FLAG;
    struct timespec end = patience->end;

    if (patience->clock == CLOCK_REALTIME)
        call |= FUTEX_CLOCK_REALTIME;
    if (end.tv_sec < 0) /* the kernel takes no time before 1970 */
        end = (struct timespec){0, 0};
    if (syscall(SYS_futex, word, call, STAYS, patience->has_end ? &end : NULL, NULL, FUTEX_BITSET_MATCH_ANY) == 0)
        return 0;
    return errno;
}

/* The try of a seat that was woken. */
static bool took(void)
{
    uint32_t answer = parklot_retry(&self.place->seat);

    must(answer == PARKLOT_TAKEN || answer == PARKLOT_ZERO, "a woken seat's try was refused");
    return answer == PARKLOT_TAKEN;
}

/* The try of a seat that was named. */
static bool took_when_named(void)
{
    must(parklot_poll(&self.place->seat) == PARKLOT_WOKEN, "a seat was named, and isn't woken");
    return took();
}

/* Gives the wait up: whether there was a unit after all. Where a release has the seat it will name it, and that name is
   waited for, since it would end the seat's next wait. */
static bool leave(void)
{
    atomic_uint *word = &self.place->word;
    uint32_t answer;

    do {
        come_in();
        answer = parklot_leave(&self.place->seat);
        come_out();
    } while (answer == PARKLOT_BUSY && sched_yield() == 0);
    if (answer == PARKLOT_LEFT)
        return false;
    must(answer == PARKLOT_COMING || answer == PARKLOT_WOKEN, "a wait can't be given up");
    while (atomic_load(word) != NAMED)
        futex_wait(word, &(struct patience){.has_end = false});
    return answer == PARKLOT_WOKEN ? took() : took_when_named();
}

/* What a thread does yet that is cancelled in its sleep: a unit that came for it goes to another. */
static void is_cancelled(void *given)
{
    if (leave())
        counter_release(*(uint32_t *)given);
}

/* Between the two calls of pthread_setcanceltype nothing is done but to sleep: it may end there at any instruction. */
static int futex_wait_cancellable(uint32_t counter, atomic_uint *word, const struct patience *patience)
{
    int error, type;

    pthread_cleanup_push(is_cancelled, &counter);
    pthread_setcanceltype(PTHREAD_CANCEL_ASYNCHRONOUS, &type);
    error = futex_wait(word, patience);
    pthread_setcanceltype(type, NULL);
    pthread_cleanup_pop(0);
    return error;
}

/* Sleeps until the seat is named: 0; or until the wait is to end before. */
static int sleep_until_named(uint32_t counter, const struct patience *patience)
{
    atomic_uint *word = &self.place->word;

    while (atomic_load(word) != NAMED) {
        int error = patience->by_cancellation ? futex_wait_cancellable(counter, word, patience)
                                              : futex_wait(word, patience);

        if (error == ETIMEDOUT || (error == EINTR && patience->by_signal))
            return error;
    }
    return 0;
}

static uint32_t enter(uint32_t counter)
{
    uint32_t answer;

    /* Before the call: the seat may be named before the call is back. */
    atomic_store(&self.place->word, STAYS);
    do {
        come_in();
        answer = parklot_enter(&self.place->seat, counter, false);
        come_out();
    } while (answer == PARKLOT_BUSY && sched_yield() == 0);
    return answer;
}

static bool tries(uint32_t counter)
{
    uint32_t answer;

    do
        answer = parklot_try_acquire(&self.place->seat, counter);
    while (answer == PARKLOT_LOST);
    must(answer == PARKLOT_TAKEN || answer == PARKLOT_ZERO, "a try was refused");
    return answer == PARKLOT_TAKEN;
}

bool counter_try(uint32_t counter)
{
    bool taken;

    atomic_fetch_add(&self.uses, 1);
    taken = tries(counter);
    atomic_fetch_sub(&self.uses, 1);
    return taken;
}

static int acquires(uint32_t counter, const struct patience *patience)
{
    if (tries(counter))
        return 0;
    do {
        uint32_t answer = enter(counter);
        int error;

        if (answer == PARKLOT_TAKEN)
            return 0;
        must(answer == PARKLOT_ASLEEP, "an acquire was refused");
        error = sleep_until_named(counter, patience);
        if (error != 0)
            return leave() ? 0 : error;
    } while (!took_when_named());
    return 0;
}

int counter_acquire_with(uint32_t counter, const struct patience *patience)
{
    int error;

    atomic_fetch_add(&self.uses, 1);
    error = acquires(counter, patience);
    atomic_fetch_sub(&self.uses, 1);
    return error;
}

void counter_acquire(uint32_t counter)
{
    counter_acquire_with(counter, &(struct patience){.has_end = false});
}

/* Waking. */

/* Another seat for one that has used up all its units, which isn't given back: they are 35 years at a million each second. */
static void change_seats(void)
{
    pthread_mutex_lock(&pool);
    self.place = seat_taken();
    pthread_mutex_unlock(&pool);
    must(self.place != NULL, "the seats have used up all their units");
}

/* The rest of a release. */
static void wake_first(struct place *place)
{
    uint32_t number, answer;

    do {
        come_in();
        answer = parklot_wake(&place->seat, false, &number);
        come_out();
    } while (answer == PARKLOT_BUSY && sched_yield() == 0);
    if (answer == PARKLOT_NOBODY)
        return;
    must(answer == PARKLOT_ONE, "a wake-up was refused");
    atomic_store(&places[number].word, NAMED);
    syscall(SYS_futex, &places[number].word, FUTEX_WAKE | FUTEX_PRIVATE_FLAG, 1, NULL, NULL, 0);
}

void counter_release(uint32_t counter)
{
    uint32_t answer;

    atomic_fetch_add(&self.uses, 1);
    while ((answer = parklot_post(&self.place->seat, counter)) == PARKLOT_LIMIT)
        change_seats();
    must(answer == PARKLOT_DONE || answer == PARKLOT_OWES, "a release was refused");
    if (answer == PARKLOT_OWES)
        wake_first(self.place);
    atomic_fetch_sub(&self.uses, 1);
}

static uint64_t value_by(struct place *place, uint32_t counter)
{
    uint64_t value = 0;

    must(parklot_value(&place->seat, counter, &value) == PARKLOT_OK, "a look was refused");
    return value;
}

/* One of the kept seats; KEPT where all are in use. */
static uint32_t kept_taken(void)
{
    for (uint32_t tries = 0; tries < KEPT_TRIES; tries++) {
        for (uint32_t at = 0; at < KEPT; at++)
            if (!atomic_exchange(&kept_in_use[at], true))
                return at;
        sched_yield();
    }
    return KEPT;
}

static int post_by_kept(uint32_t at, uint32_t counter, uint64_t most)
{
    struct place *place = &places[THREAD_SEATS + at];
    uint32_t answer;
    int error = value_by(place, counter) >= most ? EOVERFLOW : 0;

    if (error == 0) {
        answer = parklot_post(&place->seat, counter);
        must(answer == PARKLOT_DONE || answer == PARKLOT_OWES, "a post was refused");
        if (answer == PARKLOT_OWES && atomic_load(&self.inside) != 0) {
            /* this handler's thread may hold the root's lock: it goes on with the wake-up */
            atomic_fetch_or(&self.owing, 1u << at);
            return 0;
        }
        if (answer == PARKLOT_OWES)
            wake_first(place);
    }
    atomic_store(&kept_in_use[at], false);
    return error;
}

int counter_post(uint32_t counter, uint64_t most)
{
    uint32_t at;

    if (self.place != NULL && atomic_load(&self.uses) == 0) {
        if (counter_value(counter) >= most)
            return EOVERFLOW;
        counter_release(counter);
        return 0;
    }
    at = kept_taken();
    return at == KEPT ? EAGAIN : post_by_kept(at, counter, most);
}

/* Counters of nobody's. */

void counter_give_back(uint32_t counter)
{
    pthread_mutex_lock(&pool);
    counter_given(counter);
    pthread_mutex_unlock(&pool);
}

/* What was left there is taken out, but for so many. */
uint32_t counter_take(uint64_t units)
{
    uint32_t counter = counter_taken();

    if (counter != 0)
        while (counter_value(counter) > units)
            counter_try(counter);
    return counter;
}

uint64_t counter_value(uint32_t counter)
{
    uint64_t value;

    atomic_fetch_add(&self.uses, 1);
    value = value_by(self.place, counter);
    atomic_fetch_sub(&self.uses, 1);
    return value;
}
