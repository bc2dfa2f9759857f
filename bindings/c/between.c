/* BUSY and LOST, for which a second thread has to be stopped in the middle of a call: a signal handler that waits does that,
   again and again, until it has stopped where it matters. The handler itself calls nothing of the library. */

#include "answers.h"

#include <pthread.h>
#include <sched.h>
#include <signal.h>
#include <stdatomic.h>

enum { STOPS = 50000 };

static struct parklot_seat seats[3];
static pthread_t other;
static atomic_bool stopped, goes_on, ends, has_lost;

static void wait_here(int number)
{
    (void)number;
    atomic_store(&stopped, true);
    while (!atomic_load(&goes_on))
        sched_yield();
    atomic_store(&stopped, false);
}

static void stop_other(void)
{
    atomic_store(&goes_on, false);
    pthread_kill(other, SIGUSR1);
    while (!atomic_load(&stopped))
        sched_yield();
}

static void let_other_go(void)
{
    atomic_store(&goes_on, true);
    while (atomic_load(&stopped))
        sched_yield();
}

static void begin(void *(*work)(void *))
{
    atomic_store(&ends, false);
    if (pthread_create(&other, NULL, work, NULL) != 0)
        exit(1);
}

static void end(void)
{
    atomic_store(&ends, true);
    pthread_join(other, NULL);
}

static void takes_a_unit(void)
{
    uint32_t answer;

    while ((answer = parklot_try_acquire(&seats[0], 0)) == PARKLOT_LOST)
        atomic_store(&has_lost, true);
    expect(PARKLOT_TAKEN, "parklot_try_acquire", answer);
}

/* LOST: a unit is added between the look and the exchange of the other. */
static void *adds_and_takes(void *unused)
{
    (void)unused;
    while (!atomic_load(&ends)) {
        expect(PARKLOT_DONE, "parklot_post", parklot_post(&seats[0], 0));
        takes_a_unit();
    }
    return NULL;
}

static bool sees_lost(void)
{
    begin(adds_and_takes);
    for (int at = 0; at < STOPS && !atomic_load(&has_lost); at++) {
        stop_other();
        expect(PARKLOT_DONE, "parklot_post", parklot_post(&seats[1], 0));
        let_other_go();
    }
    end();
    return atomic_load(&has_lost);
}

/* BUSY: the lock of the root is held. Seat 2 waits there, so each post owes, and each wake takes the lock. */
static uint32_t wakes_nobody(struct parklot_seat *seat)
{
    uint32_t woken, answer;

    while ((answer = parklot_wake(seat, false, &woken)) == PARKLOT_BUSY)
        sched_yield();
    expect(PARKLOT_NOBODY, "parklot_wake", answer);
    return answer;
}

static void *adds_and_wakes(void *unused)
{
    (void)unused;
    while (!atomic_load(&ends)) {
        expect(PARKLOT_OWES, "parklot_post", parklot_post(&seats[0], 0));
        wakes_nobody(&seats[0]);
        takes_a_unit();
    }
    return NULL;
}

static bool finds_it_busy(void)
{
    uint32_t answer, woken;

    stop_other();
    expect(PARKLOT_OWES, "parklot_post", parklot_post(&seats[1], 1));
    answer = parklot_wake(&seats[1], false, &woken);
    let_other_go();
    if (answer == PARKLOT_BUSY)
        printf("and the same call, later: %s\n", answer_name(wakes_nobody(&seats[1])));
    else
        expect(PARKLOT_NOBODY, "parklot_wake", answer);
    return answer == PARKLOT_BUSY;
}

static bool enter_is_busy(void)
{
    uint32_t answer;

    expect(PARKLOT_OWES, "parklot_post", parklot_post(&seats[1], 1)); /* so that it never sleeps */
    wakes_nobody(&seats[1]);
    stop_other();
    answer = parklot_enter(&seats[1], 1, false);
    let_other_go();
    must(answer == PARKLOT_BUSY || answer == PARKLOT_TAKEN, "parklot_enter", answer);
    return answer == PARKLOT_BUSY;
}

static bool sees_busy(bool (*is_busy)(void))
{
    bool busy = false;

    for (int at = 0; at < STOPS && !busy; at++)
        busy = is_busy();
    return busy;
}

/* Seat 2 is woken, as if nothing had been. */
static void wake_the_third(void)
{
    uint32_t woken;

    expect(PARKLOT_OWES, "parklot_post", parklot_post(&seats[1], 2));
    expect(PARKLOT_ONE, "parklot_wake", parklot_wake(&seats[1], false, &woken));
    must(woken == 2, "parklot_wake named another, and", PARKLOT_ONE);
    expect(PARKLOT_WOKEN, "parklot_poll", parklot_poll(&seats[2]));
    expect(PARKLOT_TAKEN, "parklot_retry", parklot_retry(&seats[2]));
}

int main(void)
{
    const uint32_t starts[3] = {0, 0, 0};
    struct sigaction action = {.sa_handler = wait_here};

    expect(PARKLOT_OK, "parklot_new", parklot_new(starts, 3, 1, 1, UINT64_C(1) << 40, seats, 3));
    sigaction(SIGUSR1, &action, NULL);
    printf("parklot_try_acquire: %s\n", sees_lost() ? "LOST" : "never seen");
    expect(PARKLOT_ASLEEP, "parklot_enter", parklot_enter(&seats[2], 2, false));
    begin(adds_and_wakes);
    printf("parklot_wake: %s\n", sees_busy(finds_it_busy) ? "BUSY" : "never seen");
    printf("parklot_enter: %s\n", sees_busy(enter_is_busy) ? "BUSY" : "never seen");
    end();
    wake_the_third();
    for (int at = 0; at < 3; at++)
        expect(PARKLOT_OK, "parklot_free", parklot_free(&seats[at]));
    return 0;
}
