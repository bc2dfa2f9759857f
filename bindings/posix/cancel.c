/* Threads that are cancelled in their waits: what was brought for them reaches the others. */

#include "parklot_sem.h"

#include <sched.h>
#include <stdbool.h>
#include <stdio.h>
#include <stdlib.h>

enum { ROUNDS = 200 };

static pthread_mutex_t mutex = PTHREAD_MUTEX_INITIALIZER;
static parklot_cond_t cond = PARKLOT_COND_INITIALIZER;
static int tokens; /* guarded by the mutex */

static void must(bool holds, const char *what)
{
    if (!holds) {
        printf("not so: %s\n", what);
        exit(1);
    }
}

static void begin(pthread_t *thread, void *(*work)(void *), void *given)
{
    must(pthread_create(thread, NULL, work, given) == 0, "a thread began");
}

static void join(pthread_t thread)
{
    must(pthread_join(thread, NULL) == 0, "a thread came back");
}

static parklot_sem_t sem;

/* What pthread_join answers doesn't tell whether a thread was cancelled in its wait or a moment after it. */
static void *waits(void *has_taken)
{
    must(parklot_sem_wait(&sem) == 0, "wait");
    *(bool *)has_taken = true;
    return NULL;
}

static void cancelled_semaphores(void)
{
    int value;

    parklot_sem_init(&sem, 0, 0);
    for (int round = 0; round < ROUNDS; round++) {
        bool one_took = false, other_took = false;
        pthread_t one, other;

        begin(&one, waits, &one_took);
        begin(&other, waits, &other_took);
        if (round % 2 == 0)
            sched_yield();
        must(parklot_sem_post(&sem) == 0, "post");
        pthread_cancel(one);
        join(one);
        if (one_took)
            must(parklot_sem_post(&sem) == 0, "post");
        join(other);
        must(other_took, "the other goes on");
    }
    must(parklot_sem_getvalue(&sem, &value) == 0, "getvalue");
    printf("cancelled in sem_wait: value %d\n", value);
    must(parklot_sem_destroy(&sem) == 0, "destroy");
}

static void gives_mutex_back(void *unused)
{
    (void)unused;
    pthread_mutex_unlock(&mutex);
}

static void *takes_a_token(void *has_taken)
{
    pthread_mutex_lock(&mutex);
    pthread_cleanup_push(gives_mutex_back, NULL);
    while (tokens == 0)
        parklot_cond_wait(&cond, &mutex);
    tokens--;
    *(bool *)has_taken = true;
    pthread_cleanup_pop(1);
    return NULL;
}

static void put_token(void)
{
    pthread_mutex_lock(&mutex);
    tokens++;
    pthread_mutex_unlock(&mutex);
    parklot_cond_signal(&cond);
}

static void cancelled_conditions(void)
{
    for (int round = 0; round < ROUNDS; round++) {
        bool one_took = false, other_took = false;
        pthread_t one, other;

        begin(&one, takes_a_token, &one_took);
        begin(&other, takes_a_token, &other_took);
        if (round % 2 == 0)
            sched_yield();
        put_token();
        pthread_cancel(one);
        join(one);
        if (one_took)
            put_token();
        join(other);
        must(other_took, "the other goes on");
    }
    printf("cancelled in cond_wait: tokens left %d\n", tokens);
}

int main(void)
{
    cancelled_semaphores();
    cancelled_conditions();
    return 0;
}
