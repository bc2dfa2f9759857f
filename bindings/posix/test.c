/* The calls of POSIX: their answers, sums of threads, times that are over, and seats that come back. */

#include "parklot_sem.h"

#include <errno.h>
#include <limits.h>
#include <sched.h>
#include <signal.h>
#include <stdbool.h>
#include <stdio.h>
#include <stdlib.h>
#include <sys/time.h>

enum { WORKERS = 4, ROUNDS = 20000 };

static void must(bool holds, const char *what)
{
    if (!holds) {
        printf("not so: %s\n", what);
        exit(1);
    }
}

static const char *error_name(int error)
{
    switch (error) {
    case 0: return "0";
    case EAGAIN: return "EAGAIN";
    case EINVAL: return "EINVAL";
    case ENOSYS: return "ENOSYS";
    case ENOTSUP: return "ENOTSUP";
    case ENOSPC: return "ENOSPC";
    case ENOMEM: return "ENOMEM";
    case EOVERFLOW: return "EOVERFLOW";
    case ETIMEDOUT: return "ETIMEDOUT";
    case EPERM: return "EPERM";
    case EINTR: return "EINTR";
    default: return "another error";
    }
}

static void say(const char *call, int error)
{
    printf("%s: %s\n", call, error_name(error));
}

#define SAY(call) say(#call, (call) == 0 ? 0 : errno)
#define TELL(call) say(#call, (call))

static struct timespec soon(clockid_t clock, long milliseconds)
{
    struct timespec time;

    clock_gettime(clock, &time);
    time.tv_nsec += milliseconds * 1000000;
    time.tv_sec += time.tv_nsec / 1000000000;
    time.tv_nsec %= 1000000000;
    return time;
}

static int value_of(parklot_sem_t *sem)
{
    int value = -1;

    must(parklot_sem_getvalue(sem, &value) == 0, "getvalue");
    return value;
}

static void begin(pthread_t *thread, void *(*work)(void *), void *given)
{
    must(pthread_create(thread, NULL, work, given) == 0, "a thread began");
}

static void join(pthread_t thread)
{
    must(pthread_join(thread, NULL) == 0, "a thread came back");
}

static void answers(void)
{
    parklot_sem_t sem, none = {0};
    struct timespec past = {0, 0}, wrong = {0, 1000000000};
    int value;

    SAY(parklot_sem_init(&sem, 0, (unsigned int)INT_MAX + 1));
    SAY(parklot_sem_init(&sem, 1, 0));
    SAY(parklot_sem_init(&sem, 0, 2));
    SAY(parklot_sem_wait(&sem));
    SAY(parklot_sem_trywait(&sem));
    SAY(parklot_sem_trywait(&sem));
    SAY(parklot_sem_timedwait(&sem, &past));
    SAY(parklot_sem_timedwait(&sem, &wrong));
    SAY(parklot_sem_clockwait(&sem, CLOCK_MONOTONIC, &past));
    SAY(parklot_sem_clockwait(&sem, CLOCK_PROCESS_CPUTIME_ID, &past));
    SAY(parklot_sem_post(&sem));
    printf("value %d\n", value_of(&sem));
    SAY(parklot_sem_timedwait(&sem, &past));
    SAY(parklot_sem_destroy(&sem));
    SAY(parklot_sem_destroy(&sem));
    SAY(parklot_sem_wait(&none));
    SAY(parklot_sem_trywait(&none));
    SAY(parklot_sem_post(&none));
    SAY(parklot_sem_getvalue(&none, &value));
}

static void highest(void)
{
    parklot_sem_t sem;

    SAY(parklot_sem_init(&sem, 0, INT_MAX));
    SAY(parklot_sem_post(&sem));
    SAY(parklot_sem_wait(&sem));
    SAY(parklot_sem_post(&sem));
    printf("the highest value: %s\n", value_of(&sem) == INT_MAX ? "yes" : "no");
}

static void all_semaphores(void)
{
    static parklot_sem_t sems[20000];
    int made = 0;

    while (parklot_sem_init(&sems[made], 0, 1) == 0)
        made++;
    printf("semaphores at once: %s, and then %s\n", made > 16000 ? "more than 16,000" : "few", error_name(errno));
    for (int at = 0; at < made; at++) {
        must(parklot_sem_post(&sems[at]) == 0, "post");
        must(parklot_sem_destroy(&sems[at]) == 0, "destroy");
    }
    SAY(parklot_sem_init(&sems[0], 0, 0));
    printf("value %d\n", value_of(&sems[0]));
    SAY(parklot_sem_destroy(&sems[0]));
}

/* A queue of four places: who puts waits for a place, who takes for a number. */
static struct {
    parklot_sem_t places, numbers, alone;
    int ring[4], put, taken;
    unsigned long sum;
} queue;

static void *puts_numbers(void *unused)
{
    (void)unused;
    for (int number = 1; number <= ROUNDS; number++) {
        parklot_sem_wait(&queue.places);
        parklot_sem_wait(&queue.alone);
        queue.ring[queue.put++ % 4] = number;
        parklot_sem_post(&queue.alone);
        parklot_sem_post(&queue.numbers);
    }
    return NULL;
}

/* Half of its waits have a time that is often over. */
static void *takes_numbers(void *unused)
{
    (void)unused;
    for (int round = 0; round < ROUNDS; round++) {
        struct timespec end = soon(CLOCK_MONOTONIC, 0);

        if (round % 2 == 0 || parklot_sem_clockwait(&queue.numbers, CLOCK_MONOTONIC, &end) != 0)
            parklot_sem_wait(&queue.numbers);
        parklot_sem_wait(&queue.alone);
        queue.sum += (unsigned long)queue.ring[queue.taken++ % 4];
        parklot_sem_post(&queue.alone);
        parklot_sem_post(&queue.places);
    }
    return NULL;
}

static void queue_of_semaphores(void)
{
    pthread_t threads[WORKERS];

    parklot_sem_init(&queue.places, 0, 4);
    parklot_sem_init(&queue.numbers, 0, 0);
    parklot_sem_init(&queue.alone, 0, 1);
    for (int at = 0; at < WORKERS; at++)
        begin(&threads[at], at % 2 == 0 ? puts_numbers : takes_numbers, NULL);
    for (int at = 0; at < WORKERS; at++)
        join(threads[at]);
    printf("queue: sum %lu of %lu, places %d, numbers %d\n", queue.sum, (unsigned long)ROUNDS * (ROUNDS + 1),
           value_of(&queue.places), value_of(&queue.numbers));
    SAY(parklot_sem_destroy(&queue.places));
    SAY(parklot_sem_destroy(&queue.numbers));
    SAY(parklot_sem_destroy(&queue.alone));
}

static void *waits(void *sem)
{
    must(parklot_sem_wait(sem) == 0, "wait");
    return NULL;
}

/* More waits that time out than there are seats, and the units that are posted afterwards aren't lost to them. */
static void times_that_are_over(void)
{
    parklot_sem_t sem;
    pthread_t threads[3];
    struct timespec past = {0, 0};

    parklot_sem_init(&sem, 0, 0);
    for (int round = 0; round < 1000; round++)
        must(parklot_sem_timedwait(&sem, &past) == -1 && errno == ETIMEDOUT, "a time is over");
    for (int at = 0; at < 3; at++)
        begin(&threads[at], waits, &sem);
    for (int at = 0; at < 3; at++)
        must(parklot_sem_post(&sem) == 0, "post");
    for (int at = 0; at < 3; at++)
        join(threads[at]);
    printf("after 1000 times that were over: value %d\n", value_of(&sem));
    must(parklot_sem_timedwait(&sem, &past) == -1 && errno == ETIMEDOUT, "a time is over");
    must(parklot_sem_post(&sem) == 0, "post");
    printf("a post after one: value %d\n", value_of(&sem));
    must(parklot_sem_wait(&sem) == 0, "wait");
    must(parklot_sem_timedwait(&sem, &past) == -1 && errno == ETIMEDOUT, "a time is over");
    SAY(parklot_sem_destroy(&sem));
}

/* More semaphores than there are seats, each with a wait whose time was over: none of them keeps a seat. */
static void times_that_are_over_everywhere(void)
{
    static parklot_sem_t sems[400];
    struct timespec past = {0, 0};

    for (int at = 0; at < 400; at++) {
        must(parklot_sem_init(&sems[at], 0, 0) == 0, "init");
        must(parklot_sem_timedwait(&sems[at], &past) == -1 && errno == ETIMEDOUT, "a time is over");
    }
    for (int at = 0; at < 400; at++)
        must(parklot_sem_destroy(&sems[at]) == 0, "destroy");
    printf("400 semaphores at once with a time that was over\n");
}

static void nothing(int number)
{
    (void)number;
}

/* A wait ends by a signal, and the unit that is posted afterwards isn't lost to it. */
static void signals(void)
{
    struct sigaction action = {.sa_handler = nothing};
    struct itimerval soon_once = {{0, 0}, {0, 20000}};
    parklot_sem_t sem;

    parklot_sem_init(&sem, 0, 0);
    sigaction(SIGALRM, &action, NULL);
    setitimer(ITIMER_REAL, &soon_once, NULL);
    SAY(parklot_sem_wait(&sem));
    SAY(parklot_sem_post(&sem));
    SAY(parklot_sem_wait(&sem));
    SAY(parklot_sem_destroy(&sem));
}

/* A signal handler's posts, while its thread is in the middle of calls at the same root, which hold that root's lock. */
enum { BROUGHT = 1000, SAME_ROOT = 251 };

static parklot_sem_t brought[SAME_ROOT + 1];
static volatile sig_atomic_t handled, refused_posts;

static void brings(int number)
{
    (void)number;
    if (handled == BROUGHT)
        return;
    if (parklot_sem_post(&brought[0]) != 0)
        refused_posts = refused_posts + 1;
    handled = handled + 1;
}

static void *takes_what_is_brought(void *unused)
{
    (void)unused;
    for (int at = 0; at < BROUGHT; at++)
        must(parklot_sem_wait(&brought[0]) == 0, "wait");
    return NULL;
}

static void posts_by_handlers(void)
{
    struct sigaction action = {.sa_handler = brings};
    struct itimerval often = {{0, 200}, {0, 200}}, never = {{0, 0}, {0, 0}};
    struct timespec past = {1, 0};
    sigset_t alarm;
    pthread_t taker;

    for (int at = 0; at <= SAME_ROOT; at++)
        must(parklot_sem_init(&brought[at], 0, 0) == 0, "init");
    sigemptyset(&alarm);
    sigaddset(&alarm, SIGALRM);
    sigaction(SIGALRM, &action, NULL);
    pthread_sigmask(SIG_BLOCK, &alarm, NULL);
    begin(&taker, takes_what_is_brought, NULL);
    pthread_sigmask(SIG_UNBLOCK, &alarm, NULL);
    setitimer(ITIMER_REAL, &often, NULL);
    while (handled < BROUGHT)
        must(parklot_sem_timedwait(&brought[SAME_ROOT], &past) == -1, "nothing is brought there");
    setitimer(ITIMER_REAL, &never, NULL);
    join(taker);
    printf("%d posts by a signal handler, %d refused: value %d\n", handled, refused_posts, value_of(&brought[0]));
    for (int at = 0; at <= SAME_ROOT; at++)
        must(parklot_sem_destroy(&brought[at]) == 0, "destroy");
}

static parklot_sem_t first, second;

static void *meets(void *unused)
{
    (void)unused;
    /* Its seat is taken by a try, if there is one: a post takes none, and the next thread would find this one's free. */
    must(parklot_sem_trywait(&second) != 0, "trywait");
    must(parklot_sem_post(&first) == 0, "post");
    if (parklot_sem_wait(&second) != 0)
        return errno == ENOMEM ? "no seat" : "another error";
    return NULL;
}

static void *posts(void *unused)
{
    (void)unused;
    must(parklot_sem_post(&first) == 0, "post");
    return NULL;
}

/* More threads at once than there are seats, and more than that one after the other. */
static void many_threads(void)
{
    static pthread_t threads[300];
    pthread_attr_t small;
    int refused = 0;

    pthread_attr_init(&small);
    pthread_attr_setstacksize(&small, 256 * 1024);
    parklot_sem_init(&first, 0, 0);
    parklot_sem_init(&second, 0, 0);
    for (int at = 0; at < 255; at++) {
        must(pthread_create(&threads[at], &small, meets, NULL) == 0, "a thread began");
        must(parklot_sem_wait(&first) == 0, "wait");
    }
    for (int at = 255; at < 300; at++) {
        void *answer;

        must(pthread_create(&threads[at], &small, meets, NULL) == 0, "a thread began");
        must(parklot_sem_wait(&first) == 0, "wait");
        pthread_join(threads[at], &answer);
        refused += answer != NULL;
    }
    for (int at = 0; at < 255; at++)
        must(parklot_sem_post(&second) == 0, "post");
    for (int at = 0; at < 255; at++)
        join(threads[at]);
    printf("300 threads at once: %d without a seat\n", refused);
    for (int at = 0; at < 600; at++) {
        pthread_t thread;

        must(pthread_create(&thread, &small, posts, NULL) == 0, "a thread began");
        join(thread);
    }
    printf("600 threads one by one: value %d\n", value_of(&first));
    pthread_attr_destroy(&small);
    parklot_sem_destroy(&first);
    parklot_sem_destroy(&second);
}

static pthread_mutex_t mutex = PTHREAD_MUTEX_INITIALIZER;
static parklot_cond_t cond = PARKLOT_COND_INITIALIZER;

static void cond_answers(void)
{
    struct timespec past = {0, 0}, wrong = {0, -1}, before = {-1, 0}, end = soon(CLOCK_MONOTONIC, 20), now;
    pthread_mutexattr_t kind;
    pthread_mutex_t checked;
    pthread_condattr_t attributes;
    parklot_cond_t other;

    pthread_mutex_lock(&mutex);
    TELL(parklot_cond_timedwait(&cond, &mutex, &past));
    TELL(parklot_cond_timedwait(&cond, &mutex, &before));
    TELL(parklot_cond_timedwait(&cond, &mutex, &wrong));
    TELL(parklot_cond_clockwait(&cond, &mutex, CLOCK_MONOTONIC, &end));
    clock_gettime(CLOCK_MONOTONIC, &now);
    must(now.tv_sec > end.tv_sec || (now.tv_sec == end.tv_sec && now.tv_nsec >= end.tv_nsec), "the whole time");
    pthread_mutex_unlock(&mutex);
    TELL(parklot_cond_signal(&cond));
    TELL(parklot_cond_broadcast(&cond));

    pthread_condattr_init(&attributes);
    pthread_condattr_setclock(&attributes, CLOCK_MONOTONIC);
    TELL(parklot_cond_init(&other, &attributes));
    end = soon(CLOCK_MONOTONIC, 5);
    pthread_mutexattr_init(&kind);
    pthread_mutexattr_settype(&kind, PTHREAD_MUTEX_ERRORCHECK);
    pthread_mutex_init(&checked, &kind);
    TELL(parklot_cond_wait(&other, &checked));
    pthread_mutex_lock(&checked);
    TELL(parklot_cond_timedwait(&other, &checked, &end));
    pthread_mutex_unlock(&checked);
    TELL(parklot_cond_destroy(&other));
    pthread_condattr_setpshared(&attributes, PTHREAD_PROCESS_SHARED);
    TELL(parklot_cond_init(&other, &attributes));
    pthread_condattr_destroy(&attributes);
    pthread_mutexattr_destroy(&kind);
    pthread_mutex_destroy(&checked);
}

/* Tokens that are put one by one, each with one signal. A signal that were lost to a wait whose time is over would leave one
   of those asleep that wait without a time. */
static int tokens, tokens_taken;
static bool tokens_end;

static void *takes_tokens(void *has_time)
{
    pthread_mutex_lock(&mutex);
    while (tokens > 0 || !tokens_end) {
        if (tokens > 0) {
            tokens--;
            tokens_taken++;
        } else if (has_time != NULL) {
            struct timespec end = soon(CLOCK_REALTIME, 0);

            parklot_cond_timedwait(&cond, &mutex, &end);
            if (tokens > 0)
                parklot_cond_signal(&cond); /* it leaves the token to one without a time */
            pthread_mutex_unlock(&mutex);
            sched_yield();
            pthread_mutex_lock(&mutex);
            if (tokens > 0) {
                tokens--;
                tokens_taken++;
            }
        } else {
            must(parklot_cond_wait(&cond, &mutex) == 0, "wait");
        }
    }
    pthread_mutex_unlock(&mutex);
    return NULL;
}

static void tokens_and_signals(void)
{
    pthread_t threads[WORKERS];

    for (int at = 0; at < WORKERS; at++)
        begin(&threads[at], takes_tokens, at % 2 == 0 ? NULL : "has a time");
    for (int round = 0; round < ROUNDS; round++) {
        pthread_mutex_lock(&mutex);
        tokens++;
        pthread_mutex_unlock(&mutex);
        parklot_cond_signal(&cond);
    }
    pthread_mutex_lock(&mutex);
    tokens_end = true;
    parklot_cond_broadcast(&cond);
    pthread_mutex_unlock(&mutex);
    for (int at = 0; at < WORKERS; at++)
        join(threads[at]);
    printf("tokens: %d of %d, left %d\n", tokens_taken, ROUNDS, tokens);
}

/* Two threads that only wait without a time, in turn: each signal has to reach the other. */
static int turn;

static void *takes_turns(void *which)
{
    int me = *(int *)which;

    pthread_mutex_lock(&mutex);
    for (int round = 0; round < ROUNDS; round++) {
        while (turn % 2 != me)
            parklot_cond_wait(&cond, &mutex);
        turn++;
        parklot_cond_signal(&cond);
    }
    pthread_mutex_unlock(&mutex);
    return NULL;
}

static void turns(void)
{
    pthread_t threads[2];
    int numbers[2] = {0, 1};

    for (int at = 0; at < 2; at++)
        begin(&threads[at], takes_turns, &numbers[at]);
    for (int at = 0; at < 2; at++)
        join(threads[at]);
    printf("turns: %d of %d\n", turn, 2 * ROUNDS);
}

/* A condition variable that is freed as soon as its broadcast is over, and whose threads wait with a time: who was told, even
   if its time was over by then, doesn't touch it again. */
static parklot_cond_t *party;
static int parties_begun, guests;

static void *guest(void *unused)
{
    int before;

    (void)unused;
    pthread_mutex_lock(&mutex);
    before = parties_begun;
    guests++;
    while (parties_begun == before) {
        struct timespec end = soon(CLOCK_REALTIME, 1);

        parklot_cond_timedwait(party, &mutex, &end);
    }
    pthread_mutex_unlock(&mutex);
    return NULL;
}

static bool all_are_there(void)
{
    bool all;

    pthread_mutex_lock(&mutex);
    all = guests == 3;
    pthread_mutex_unlock(&mutex);
    return all;
}

static void parties(void)
{
    for (int round = 0; round < 50; round++) {
        pthread_t threads[3];

        guests = 0;
        party = calloc(1, sizeof *party);
        must(party != NULL, "memory");
        for (int at = 0; at < 3; at++)
            begin(&threads[at], guest, NULL);
        while (!all_are_there())
            sched_yield();
        pthread_mutex_lock(&mutex);
        parties_begun++;
        parklot_cond_broadcast(party);
        free(party);
        pthread_mutex_unlock(&mutex);
        for (int at = 0; at < 3; at++)
            join(threads[at]);
    }
    printf("parties: %d\n", parties_begun);
}

int main(void)
{
    answers();
    queue_of_semaphores();
    times_that_are_over();
    times_that_are_over_everywhere();
    all_semaphores();
    signals();
    posts_by_handlers();
    many_threads();
    cond_answers();
    turns();
    tokens_and_signals();
    parties();
    highest();
    return 0;
}
