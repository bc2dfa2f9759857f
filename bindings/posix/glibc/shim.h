/* shim.h: gives glibc's own tests the semaphores and condition variables of parklot_sem.h under the names of POSIX. Included
   before anything else. */

#ifndef PARKLOT_SHIM_H
#define PARKLOT_SHIM_H

#ifndef _GNU_SOURCE
#define _GNU_SOURCE
#endif

#include <pthread.h>
#include <semaphore.h>

#include "parklot_sem.h"

#define sem_t parklot_sem_t
#define sem_init parklot_sem_init
#define sem_destroy parklot_sem_destroy
#define sem_wait parklot_sem_wait
#define sem_trywait parklot_sem_trywait
#define sem_timedwait parklot_sem_timedwait
#define sem_clockwait parklot_sem_clockwait
#define sem_post parklot_sem_post
#define sem_getvalue parklot_sem_getvalue

#define pthread_cond_t parklot_cond_t
#define pthread_cond_init parklot_cond_init
#define pthread_cond_destroy parklot_cond_destroy
#define pthread_cond_wait parklot_cond_wait
#define pthread_cond_timedwait parklot_cond_timedwait
#define pthread_cond_clockwait parklot_cond_clockwait
#define pthread_cond_signal parklot_cond_signal
#define pthread_cond_broadcast parklot_cond_broadcast
#undef PTHREAD_COND_INITIALIZER
#define PTHREAD_COND_INITIALIZER PARKLOT_COND_INITIALIZER

#endif
