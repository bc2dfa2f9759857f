/* The calls of POSIX over counters on which threads sleep. */

#include "parklot_sem.h"

#include "threads.h"

#include <errno.h>
#include <stddef.h>

static bool is_time(const struct timespec *time)
{
    return time->tv_nsec >= 0 && time->tv_nsec < 1000000000;
}

static bool is_clock(clockid_t clock)
{
    return clock == CLOCK_REALTIME || clock == CLOCK_MONOTONIC;
}

/* Semaphores. */

static int failed(int error)
{
    errno = error;
    return -1;
}

/* What refuses any call: no semaphore, or no seat for this thread. */
static int refused(const parklot_sem_t *sem)
{
    if (sem->counter == 0)
        return EINVAL;
    return thread_is_seated() ? 0 : ENOMEM;
}

int parklot_sem_init(parklot_sem_t *sem, int shared, unsigned int value)
{
    sem->counter = 0;
    if (value > PARKLOT_SEM_VALUE_MAX)
        return failed(EINVAL);
    if (shared != 0)
        return failed(ENOSYS);
    if (!thread_is_seated())
        return failed(ENOMEM);
    sem->counter = counter_take(value);
    if (sem->counter == 0)
        return failed(ENOSPC);
    sem->rest = value - (uint32_t)counter_value(sem->counter);
    return 0;
}

int parklot_sem_destroy(parklot_sem_t *sem)
{
    int error = refused(sem);
    uint32_t counter = sem->counter;

    if (error != 0)
        return failed(error);
    sem->counter = 0;
    counter_give_back(counter);
    return 0;
}

/* Takes a unit of those with which the semaphore began. There are never more of these: who finds none goes to the counter. */
static bool took_of_rest(parklot_sem_t *sem)
{
    uint32_t rest = __atomic_load_n(&sem->rest, __ATOMIC_SEQ_CST);

    while (rest != 0)
        if (__atomic_compare_exchange_n(&sem->rest, &rest, rest - 1, true, __ATOMIC_SEQ_CST, __ATOMIC_SEQ_CST))
            return true;
    return false;
}

int parklot_sem_wait(parklot_sem_t *sem)
{
    int error = refused(sem);

    pthread_testcancel();
    if (error == 0 && !took_of_rest(sem))
        error = counter_acquire_with(sem->counter, &(struct patience){.by_signal = true, .by_cancellation = true});
    return error == 0 ? 0 : failed(error);
}

int parklot_sem_trywait(parklot_sem_t *sem)
{
    int error = refused(sem);

    if (error != 0)
        return failed(error);
    return took_of_rest(sem) || counter_try(sem->counter) ? 0 : failed(EAGAIN);
}

int parklot_sem_timedwait(parklot_sem_t *sem, const struct timespec *end)
{
    return parklot_sem_clockwait(sem, CLOCK_REALTIME, end);
}

int parklot_sem_clockwait(parklot_sem_t *sem, clockid_t clock, const struct timespec *end)
{
    int error = refused(sem);

    pthread_testcancel();
    if (error == 0 && (!is_clock(clock) || !is_time(end)))
        error = EINVAL;
    if (error == 0 && !took_of_rest(sem))
        error = counter_acquire_with(sem->counter, &(struct patience){true, true, true, clock, *end});
    return error == 0 ? 0 : failed(error);
}

int parklot_sem_post(parklot_sem_t *sem)
{
    int before = errno, error = EINVAL;

    if (sem->counter != 0) /* who takes the unit may free `sem` */
        error = counter_post(sem->counter, PARKLOT_SEM_VALUE_MAX - __atomic_load_n(&sem->rest, __ATOMIC_SEQ_CST));
    errno = before;
    return error == 0 ? 0 : failed(error);
}

int parklot_sem_getvalue(parklot_sem_t *sem, int *value)
{
    int error = refused(sem);
    uint64_t units;

    if (error != 0)
        return failed(error);
    units = __atomic_load_n(&sem->rest, __ATOMIC_SEQ_CST) + counter_value(sem->counter);
    *value = (int)(units < PARKLOT_SEM_VALUE_MAX ? units : PARKLOT_SEM_VALUE_MAX);
    return 0;
}

/* Condition variables. Each thread waits on a counter of its own, so a unit that was brought for it is taken by no other,
   and waits for it if it doesn't sleep yet. It is in the queue before it gives its mutex back: no signal is lost. */

struct parklot_waiter {
    uint32_t counter;
    bool told;      /* taken out of the queue, and a unit is there or coming */
    bool passes_on; /* by a signal, while others waited: if this one waits no longer, it is for them */
    struct parklot_waiter *next;
};

/* The lock of the queue. It isn't in the condition variable: who was told doesn't touch that again, so it may be freed. */
static uint32_t lock_of(const parklot_cond_t *cond)
{
    return 1 + (uint32_t)(((uintptr_t)cond / sizeof *cond) % THREAD_LOCKS);
}

static void lock(const parklot_cond_t *cond)
{
    counter_acquire(lock_of(cond));
}

static void unlock(const parklot_cond_t *cond)
{
    counter_release(lock_of(cond));
}

int parklot_cond_init(parklot_cond_t *cond, const pthread_condattr_t *attributes)
{
    int shared = PTHREAD_PROCESS_PRIVATE;

    *cond = (parklot_cond_t)PARKLOT_COND_INITIALIZER;
    if (attributes == NULL)
        return 0;
    pthread_condattr_getpshared(attributes, &shared);
    pthread_condattr_getclock(attributes, &cond->clock);
    return shared == PTHREAD_PROCESS_PRIVATE ? 0 : ENOTSUP;
}

int parklot_cond_destroy(parklot_cond_t *cond)
{
    cond->first = NULL;
    return 0;
}

static void join_queue(parklot_cond_t *cond, struct parklot_waiter *waiter)
{
    struct parklot_waiter **end = &cond->first;

    lock(cond);
    while (*end != NULL)
        end = &(*end)->next;
    *end = waiter;
    unlock(cond);
}

/* False where it was told before: then it isn't in the queue, and `cond` may be gone. */
static bool leave_queue(parklot_cond_t *cond, struct parklot_waiter *waiter)
{
    bool queued;

    lock(cond);
    queued = !waiter->told;
    if (queued) {
        struct parklot_waiter **link = &cond->first;

        while (*link != waiter)
            link = &(*link)->next;
        *link = waiter->next;
    }
    unlock(cond);
    return queued;
}

/* A wait that is over. False where it was told meanwhile: then the unit that was coming is here. */
static bool withdraws(parklot_cond_t *cond, struct parklot_waiter *waiter)
{
    bool leaves = leave_queue(cond, waiter);

    if (!leaves)
        counter_acquire(waiter->counter);
    return leaves;
}

/* A wait that comes to nothing, and takes no signal with it. */
static void wait_is_dropped(parklot_cond_t *cond, struct parklot_waiter *waiter)
{
    if (!withdraws(cond, waiter) && waiter->passes_on)
        parklot_cond_signal(cond);
}

struct waiting {
    parklot_cond_t *cond;
    pthread_mutex_t *mutex;
    struct parklot_waiter waiter;
};

/* A thread that is cancelled has its mutex again when its own handlers run. */
static void is_cancelled(void *given)
{
    struct waiting *waiting = given;

    wait_is_dropped(waiting->cond, &waiting->waiter);
    pthread_mutex_lock(waiting->mutex);
}

static int wait_with(parklot_cond_t *cond, pthread_mutex_t *mutex, const struct patience *patience)
{
    struct waiting waiting = {cond, mutex, {0, false, false, NULL}};
    int error, mutex_error;

    pthread_testcancel();
    if (!thread_is_seated())
        return ENOMEM;
    waiting.waiter.counter = thread_counter();
    join_queue(cond, &waiting.waiter);
    mutex_error = pthread_mutex_unlock(mutex);
    if (mutex_error != 0) {
        wait_is_dropped(cond, &waiting.waiter);
        return mutex_error;
    }
    pthread_cleanup_push(is_cancelled, &waiting);
    error = counter_acquire_with(waiting.waiter.counter, patience);
    pthread_cleanup_pop(0);
    if (error != 0 && !withdraws(cond, &waiting.waiter))
        error = 0;
    mutex_error = pthread_mutex_lock(mutex);
    return mutex_error != 0 ? mutex_error : error;
}

int parklot_cond_wait(parklot_cond_t *cond, pthread_mutex_t *mutex)
{
    return wait_with(cond, mutex, &(struct patience){.by_cancellation = true});
}

int parklot_cond_timedwait(parklot_cond_t *cond, pthread_mutex_t *mutex, const struct timespec *end)
{
    return parklot_cond_clockwait(cond, mutex, cond->clock, end);
}

int parklot_cond_clockwait(parklot_cond_t *cond, pthread_mutex_t *mutex, clockid_t clock, const struct timespec *end)
{
    if (!is_clock(clock) || !is_time(end))
        return EINVAL;
    return wait_with(cond, mutex, &(struct patience){true, false, true, clock, *end});
}

/* Takes the first out of the queue, under its lock: the counter that it waits on, or 0. */
static uint32_t tell_first(parklot_cond_t *cond, bool is_signal)
{
    struct parklot_waiter *first = cond->first;

    if (first == NULL)
        return 0;
    cond->first = first->next;
    first->told = true;
    first->passes_on = is_signal && cond->first != NULL;
    return first->counter;
}

int parklot_cond_signal(parklot_cond_t *cond)
{
    uint32_t counter;

    if (!thread_is_seated())
        return ENOMEM;
    lock(cond);
    counter = tell_first(cond, true);
    unlock(cond);
    if (counter != 0)
        counter_release(counter);
    return 0;
}

/* Tells the first who wait, so many at most, and adds their units once the lock is given back: how many. */
static uint32_t tell_some(parklot_cond_t *cond, uint32_t most)
{
    uint32_t counters[64], count = 0;

    if (most > sizeof counters / sizeof *counters)
        most = sizeof counters / sizeof *counters;
    lock(cond);
    while (count < most && (counters[count] = tell_first(cond, false)) != 0)
        count++;
    unlock(cond);
    for (uint32_t at = 0; at < count; at++)
        counter_release(counters[at]);
    return count;
}

static uint32_t count_waiters(parklot_cond_t *cond)
{
    uint32_t count = 0;

    lock(cond);
    for (struct parklot_waiter *at = cond->first; at != NULL; at = at->next)
        count++;
    unlock(cond);
    return count;
}

/* Those who come later stand behind those who wait now, so as many are told as there are now. */
int parklot_cond_broadcast(parklot_cond_t *cond)
{
    uint32_t left, told;

    if (!thread_is_seated())
        return ENOMEM;
    left = count_waiters(cond);
    while (left != 0 && (told = tell_some(cond, left)) != 0)
        left -= told;
    return 0;
}
