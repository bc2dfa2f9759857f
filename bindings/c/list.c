/* The calls of a list: what one thread can bring about, and then four threads on a condition variable over a list. */

#include "answers.h"
#include "parklot_list.h"

#include <errno.h>
#include <pthread.h>
#include <sched.h>
#include <semaphore.h>

enum { SEATS = 4, ROUNDS = 5000 };

static struct parklot_list_seat seats[SEATS];

static uint32_t say(const char *call, uint32_t answer)
{
    printf("%s: %s\n", call, answer_name(answer));
    return answer;
}

#define SAY(call) say(#call, call)

static void heading(const char *words)
{
    printf("\n%s\n", words);
}

static void refusals(void)
{
    static struct parklot_list_seat many[65537];
    uint32_t number, count, woken[SEATS];
    uint64_t ticket;
    bool quiet;

    heading("settings that don't fit, and an empty seat");
    SAY(parklot_list_new(0, seats, 0));
    SAY(parklot_list_new(0, many, 65537));
    SAY(parklot_list_number(&seats[0], &number));
    SAY(parklot_list_add(&seats[0], &ticket));
    SAY(parklot_list_try_wait(&seats[0]));
    SAY(parklot_list_poll(&seats[0]));
    SAY(parklot_list_leave(&seats[0]));
    SAY(parklot_list_one(&seats[0], &number));
    SAY(parklot_list_all(&seats[0], woken, SEATS, &count));
    SAY(parklot_list_quiet(&seats[0], &quiet));
    SAY(parklot_list_free(&seats[0]));
}

static void add(int at)
{
    uint64_t ticket;
    uint32_t answer = parklot_list_add(&seats[at], &ticket);

    must(answer == PARKLOT_OK, "parklot_list_add", answer);
    printf("  seat %d has ticket %llu\n", at, (unsigned long long)ticket);
}

static void is_quiet(void)
{
    bool quiet;
    uint32_t answer = parklot_list_quiet(&seats[3], &quiet);

    must(answer == PARKLOT_OK, "parklot_list_quiet", answer);
    printf("  all tickets are granted: %s\n", quiet ? "yes" : "no");
}

static void tickets(void)
{
    uint32_t woken = 77, count = 77, names[SEATS];
    uint64_t ticket;

    heading("a list of 4 seats, whose first ticket is 10");
    SAY(parklot_list_new(10, seats, SEATS));
    SAY(parklot_list_new(10, seats, SEATS));
    is_quiet();
    SAY(parklot_list_one(&seats[3], &woken));
    SAY(parklot_list_poll(&seats[0]));
    SAY(parklot_list_try_wait(&seats[0]));

    heading("a ticket is granted before its owner waits");
    add(0);
    is_quiet();
    SAY(parklot_list_add(&seats[0], &ticket));
    SAY(parklot_list_one(&seats[0], &woken));
    SAY(parklot_list_free(&seats[0]));
    SAY(parklot_list_one(&seats[3], &woken));
    SAY(parklot_list_try_wait(&seats[0]));

    heading("one that is parked");
    add(1);
    add(0);
    SAY(parklot_list_try_wait(&seats[0]));
    SAY(parklot_list_try_wait(&seats[1]));
    SAY(parklot_list_poll(&seats[1]));
    SAY(parklot_list_try_wait(&seats[1]));
    SAY(parklot_list_one(&seats[3], &woken));
    printf("  woken %u\n", (unsigned)woken);
    SAY(parklot_list_poll(&seats[1]));
    SAY(parklot_list_poll(&seats[0]));

    heading("all that are parked, and one that isn't yet");
    add(1);
    add(2);
    SAY(parklot_list_try_wait(&seats[1]));
    SAY(parklot_list_all(&seats[3], names, SEATS - 1, &count));
    SAY(parklot_list_all(&seats[3], names, SEATS, &count));
    for (uint32_t at = 0; at < count; at++)
        printf("  woken %u\n", (unsigned)names[at]);
    SAY(parklot_list_poll(&seats[0]));
    SAY(parklot_list_poll(&seats[1]));
    SAY(parklot_list_try_wait(&seats[2]));
    is_quiet();

    heading("one that leaves, and one that is granted before");
    add(1);
    add(0);
    SAY(parklot_list_try_wait(&seats[0]));
    SAY(parklot_list_try_wait(&seats[1]));
    SAY(parklot_list_leave(&seats[1]));
    SAY(parklot_list_leave(&seats[1]));
    SAY(parklot_list_one(&seats[3], &woken));
    printf("  woken %u\n", (unsigned)woken);
    SAY(parklot_list_leave(&seats[0]));
    is_quiet();
    for (int at = 0; at < SEATS; at++)
        SAY(parklot_list_free(&seats[at]));
    SAY(parklot_list_free(&seats[0]));
}

/* As many seats as a list can have: all but one wait, and are named in their order. */
static void all_of_many(void)
{
    enum { MANY = 65536 };
    static struct parklot_list_seat many[MANY];
    static uint32_t names[MANY];
    uint64_t ticket;
    uint32_t count = 77, in_order = 0;

    heading("a list of 65536 seats");
    SAY(parklot_list_new(0, many, MANY));
    for (int at = 1; at < MANY; at++) {
        expect(PARKLOT_OK, "parklot_list_add", parklot_list_add(&many[at], &ticket));
        expect(PARKLOT_PARKED, "parklot_list_try_wait", parklot_list_try_wait(&many[at]));
    }
    SAY(parklot_list_all(&many[0], names, MANY - 1, &count));
    SAY(parklot_list_all(&many[0], names, MANY, &count));
    for (uint32_t at = 0; at < count; at++)
        in_order += names[at] == at + 1;
    printf("  woken %u, in their order %u\n", (unsigned)count, (unsigned)in_order);
    for (int at = 1; at < MANY; at++)
        expect(PARKLOT_WOKEN, "parklot_list_poll", parklot_list_poll(&many[at]));
    for (int at = 0; at < MANY; at++)
        expect(PARKLOT_OK, "parklot_list_free", parklot_list_free(&many[at]));
}

/* A number that goes round: each thread waits until it is its turn, and tells all. */
static sem_t parks[SEATS];
static pthread_mutex_t mutex = PTHREAD_MUTEX_INITIALIZER;
static int turn;

static void wait_for_a_grant(uint32_t me)
{
    struct parklot_list_seat *seat = &seats[me];
    uint64_t ticket;
    uint32_t answer = parklot_list_add(seat, &ticket);

    must(answer == PARKLOT_OK, "parklot_list_add", answer);
    pthread_mutex_unlock(&mutex);
    while ((answer = parklot_list_try_wait(seat)) == PARKLOT_BUSY)
        sched_yield();
    must(answer == PARKLOT_AT_ONCE || answer == PARKLOT_PARKED, "parklot_list_try_wait", answer);
    if (answer == PARKLOT_PARKED) {
        while (sem_wait(&parks[me]) != 0)
            must(errno == EINTR, "sem_wait", PARKLOT_OK);
        expect(PARKLOT_WOKEN, "parklot_list_poll", parklot_list_poll(seat));
    }
    pthread_mutex_lock(&mutex);
}

static void tell_all(uint32_t me)
{
    uint32_t answer, count, woken[SEATS];

    while ((answer = parklot_list_all(&seats[me], woken, SEATS, &count)) == PARKLOT_BUSY)
        sched_yield();
    must(answer == PARKLOT_DONE, "parklot_list_all", answer);
    for (uint32_t at = 0; at < count; at++)
        sem_post(&parks[woken[at]]);
}

static void *goes_round(void *which)
{
    uint32_t me = *(uint32_t *)which;

    pthread_mutex_lock(&mutex);
    for (int round = 0; round < ROUNDS; round++) {
        while (turn % SEATS != (int)me)
            wait_for_a_grant(me);
        turn++;
        tell_all(me);
    }
    pthread_mutex_unlock(&mutex);
    return NULL;
}

static void rounds(void)
{
    pthread_t threads[SEATS];
    uint32_t numbers[SEATS];

    heading("four threads in turn");
    expect(PARKLOT_OK, "parklot_list_new", parklot_list_new(0, seats, SEATS));
    for (uint32_t at = 0; at < SEATS; at++) {
        expect(PARKLOT_OK, "parklot_list_number", parklot_list_number(&seats[at], &numbers[at]));
        sem_init(&parks[at], 0, 0);
    }
    for (uint32_t at = 0; at < SEATS; at++)
        if (pthread_create(&threads[at], NULL, goes_round, &numbers[at]) != 0)
            exit(1);
    for (uint32_t at = 0; at < SEATS; at++)
        pthread_join(threads[at], NULL);
    printf("  turns %d of %d\n", turn, SEATS * ROUNDS);
    for (uint32_t at = 0; at < SEATS; at++)
        expect(PARKLOT_OK, "parklot_list_free", parklot_list_free(&seats[at]));
}

int main(void)
{
    refusals();
    tickets();
    all_of_many();
    rounds();
    return 0;
}
