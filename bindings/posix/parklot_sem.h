/* parklot_sem.h: semaphores and condition variables for threads with the calls of POSIX, over one table of parklot.h.

   The calls answer as POSIX has it: those of semaphores 0, or -1 and errno; those of condition variables an error number.
   The waits are cancellation points. Left out, since a table lives in one process, and a seat makes one call at a time:

   - Nothing is shared between processes (ENOSYS, ENOTSUP), and nothing is used in a forked child.
   - Of these calls a signal handler makes parklot_sem_post alone, as POSIX has it. No call is made with asynchronous
     cancellation, since a thread may be in the middle of a call with its seat.
   - A condition variable isn't freed while a thread that waits there is being cancelled.

   A thread gets one of 4,096 seats (PARKLOT_THREAD_SEATS) at its first call, and gives it back when it ends; where none is
   free a call answers ENOMEM. A post needs none: 32 seats are kept for threads without one and for signal handlers, and if
   all of these stay in use it answers EAGAIN. A wait that ends by its time, a signal or its cancellation takes its seat out
   of the queue (parklot_leave). One that a post was about to wake waits for that, and may end with the unit after all. There
   are 16,000 semaphores and threads at most (ENOSPC, ENOMEM). */

#ifndef PARKLOT_SEM_H
#define PARKLOT_SEM_H

#include <pthread.h>
#include <stdint.h>
#include <time.h>

#ifdef __cplusplus
extern "C" {
#endif

/* A semaphore: which counter it is, or 0, and how many units are left beside it of those that it began with. */
typedef struct {
    uint32_t counter;
    uint32_t rest;
} parklot_sem_t;

#define PARKLOT_SEM_VALUE_MAX 2147483647u

int parklot_sem_init(parklot_sem_t *sem, int shared, unsigned int value); /* EINVAL, ENOSYS, ENOSPC, ENOMEM */
int parklot_sem_destroy(parklot_sem_t *sem);                              /* EINVAL, ENOMEM */
int parklot_sem_wait(parklot_sem_t *sem);                                 /* EINTR, EINVAL, ENOMEM */
int parklot_sem_trywait(parklot_sem_t *sem);                              /* EAGAIN, EINVAL, ENOMEM */
int parklot_sem_timedwait(parklot_sem_t *sem, const struct timespec *end); /* ETIMEDOUT, EINTR, EINVAL, .. */
int parklot_sem_clockwait(parklot_sem_t *sem, clockid_t clock, const struct timespec *end);

/* The look for the highest value and the addition are two steps: posts at once may pass it by as many as they are. */
int parklot_sem_post(parklot_sem_t *sem);                  /* EOVERFLOW, EINVAL, EAGAIN */
int parklot_sem_getvalue(parklot_sem_t *sem, int *value);  /* EINVAL, ENOMEM */

/* A condition variable: the threads that wait, first come first. Zeros are one too, whose clock is CLOCK_REALTIME. */
typedef struct {
    struct parklot_waiter *first;
    clockid_t clock;
} parklot_cond_t;

#define PARKLOT_COND_INITIALIZER {NULL, CLOCK_REALTIME}

/* The mutex is a pthread_mutex_t. A wait ends only by a signal, a broadcast or its time: never for nothing. */
int parklot_cond_init(parklot_cond_t *cond, const pthread_condattr_t *attributes); /* ENOTSUP */
int parklot_cond_destroy(parklot_cond_t *cond);
int parklot_cond_wait(parklot_cond_t *cond, pthread_mutex_t *mutex); /* ENOMEM, and what the mutex answers */
int parklot_cond_timedwait(parklot_cond_t *cond, pthread_mutex_t *mutex, const struct timespec *end); /* ETIMEDOUT, EINVAL */
int parklot_cond_clockwait(parklot_cond_t *cond, pthread_mutex_t *mutex, clockid_t clock, const struct timespec *end);
int parklot_cond_signal(parklot_cond_t *cond);    /* ENOMEM */
int parklot_cond_broadcast(parklot_cond_t *cond); /* ENOMEM */

#ifdef __cplusplus
}
#endif

#endif
