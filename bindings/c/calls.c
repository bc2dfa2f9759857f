/* Each call and each answer that one thread can bring about. A line is a call and its answer; the stored output says which
   is right. */

#include "answers.h"

#include <string.h>

enum { SEATS = 4, COUNTERS = 3, LIMIT = 600 };

static struct parklot_seat seats[SEATS];
static uint32_t starts[COUNTERS] = {1, 0, 0};

static uint32_t say(const char *call, uint32_t answer)
{
    printf("%s: %s\n", call, answer_name(answer));
    return answer;
}

#define SAY(call) say(#call, call)

static void heading(const char *words)
{
    printf("\n%s\n", words);
}

static void tell_number(const char *what, uint64_t number)
{
    printf("  %s %llu\n", what, (unsigned long long)number);
}

static bool is_empty(const struct parklot_seat *seat)
{
    return !seat->full && seat->cell == NULL;
}

static void make_refused(void)
{
    static struct parklot_seat many[65537];
    static uint32_t too_many[65537];

    heading("settings that don't fit");
    SAY(parklot_new(starts, 0, 1, 1, LIMIT, seats, SEATS));
    SAY(parklot_new(too_many, 65537, 1, 1, LIMIT, seats, SEATS));
    SAY(parklot_new(starts, COUNTERS, 0, 1, LIMIT, seats, SEATS));
    SAY(parklot_new(starts, COUNTERS, 252, 1, LIMIT, seats, SEATS));
    SAY(parklot_new(starts, COUNTERS, 1, 1, 0, seats, SEATS));
    SAY(parklot_new(starts, COUNTERS, 1, 1, (UINT64_C(1) << 54) + 1, seats, SEATS));
    SAY(parklot_new(starts, COUNTERS, 1, 1, LIMIT, seats, 0));
    SAY(parklot_new(starts, COUNTERS, 1, 1, LIMIT, many, 65537));
    for (int at = 0; at < SEATS; at++)
        must(is_empty(&seats[at]), "a refused parklot_new wrote a seat", PARKLOT_OK);
}

static void empty_seats(void)
{
    struct parklot_seat *seat = &seats[0];
    uint32_t number = 77, count = 77, woken[256];
    uint64_t value = 77;

    heading("a seat that is empty");
    SAY(parklot_number(seat, &number));
    SAY(parklot_try_acquire(seat, 0));
    SAY(parklot_enter(seat, 0, false));
    SAY(parklot_poll(seat));
    SAY(parklot_leave(seat));
    SAY(parklot_retry(seat));
    SAY(parklot_post(seat, 0));
    SAY(parklot_post_many(seat, 0, 1));
    SAY(parklot_wake(seat, false, &number));
    SAY(parklot_wake_some(seat, woken, 256, &count));
    SAY(parklot_value(seat, 0, &value));
    SAY(parklot_waiters_of_root(seat, 0, &value));
    SAY(parklot_free(seat));
    must(number == 77 && count == 77 && value == 77, "a refused call wrote", PARKLOT_OK);
}

static void make(void)
{
    uint32_t number;

    heading("a table of 3 counters, 4 seats and 1 root; 600 units a seat");
    SAY(parklot_new(starts, COUNTERS, 1, 1, LIMIT, seats, SEATS));
    for (int at = 0; at < SEATS; at++) {
        must(parklot_number(&seats[at], &number) == PARKLOT_OK, "parklot_number", PARKLOT_OK);
        tell_number("number", number);
    }
    SAY(parklot_new(starts, COUNTERS, 1, 1, LIMIT, seats, SEATS));
}

static void counts(uint32_t counter)
{
    uint64_t value = 77, waits = 77;
    uint32_t answer = parklot_value(&seats[0], counter, &value);

    must(answer == PARKLOT_OK, "parklot_value", answer);
    answer = parklot_waiters_of_root(&seats[0], counter, &waits);
    must(answer == PARKLOT_OK, "parklot_waiters_of_root", answer);
    printf("  counter %u has %llu, waits at its root %llu\n", (unsigned)counter, (unsigned long long)value,
           (unsigned long long)waits);
}

static void rests(void)
{
    uint32_t number, count, woken[256];
    uint64_t value;

    heading("a seat that rests");
    counts(0);
    SAY(parklot_try_acquire(&seats[0], 0));
    SAY(parklot_try_acquire(&seats[0], 0));
    SAY(parklot_post(&seats[0], 0));
    SAY(parklot_enter(&seats[0], 0, false));
    SAY(parklot_post_many(&seats[0], 0, 3));
    counts(0);
    for (int at = 0; at < 3; at++)
        SAY(parklot_try_acquire(&seats[1], 0));
    SAY(parklot_poll(&seats[0]));
    SAY(parklot_retry(&seats[0]));
    SAY(parklot_wake(&seats[0], false, &number));
    SAY(parklot_wake_some(&seats[0], woken, 256, &count));

    heading("a counter that isn't there, and units that don't fit");
    SAY(parklot_try_acquire(&seats[0], 3));
    SAY(parklot_enter(&seats[0], UINT32_MAX, true));
    SAY(parklot_post(&seats[0], 3));
    SAY(parklot_post_many(&seats[0], 3, 1));
    SAY(parklot_value(&seats[0], 3, &value));
    SAY(parklot_waiters_of_root(&seats[0], 3, &value));
    SAY(parklot_post_many(&seats[0], 0, 0));
    SAY(parklot_post_many(&seats[0], 0, 257));
}

/* Seat 1 in the middle of a call: the calls that it isn't in. */
static void other_calls(bool polls, bool retries, bool wakes, bool wakes_some)
{
    struct parklot_seat *seat = &seats[1];
    uint32_t number = 77, count = 77, woken[256];
    uint64_t value = 77;

    SAY(parklot_try_acquire(seat, 0));
    SAY(parklot_enter(seat, 0, false));
    SAY(parklot_post(seat, 0));
    SAY(parklot_post_many(seat, 0, 1));
    SAY(parklot_value(seat, 0, &value));
    SAY(parklot_waiters_of_root(seat, 0, &value));
    SAY(parklot_free(seat));
    if (!polls)
        SAY(parklot_poll(seat));
    if (!retries)
        SAY(parklot_retry(seat));
    if (!wakes)
        SAY(parklot_wake(seat, false, &number));
    if (!wakes_some)
        SAY(parklot_wake_some(seat, woken, 256, &count));
    must(number == 77 && count == 77 && value == 77, "a refused call wrote", PARKLOT_OK);
    SAY(parklot_number(seat, &number));
    tell_number("number", number);
}

static void sleeps(void)
{
    uint32_t woken = 77;

    heading("seat 1 sleeps, and seat 0 wakes it");
    SAY(parklot_enter(&seats[1], 0, false));
    counts(0);
    SAY(parklot_poll(&seats[1]));
    other_calls(true, false, false, false);
    SAY(parklot_post(&seats[0], 0));
    SAY(parklot_wake(&seats[0], false, &woken));
    tell_number("woken", woken);
    SAY(parklot_poll(&seats[1]));
    heading("seat 1 is woken");
    other_calls(false, true, false, false);
    SAY(parklot_retry(&seats[1]));
    counts(0);

    heading("another takes the unit");
    SAY(parklot_enter(&seats[1], 0, false));
    SAY(parklot_post(&seats[0], 0));
    SAY(parklot_wake(&seats[0], false, &woken));
    SAY(parklot_try_acquire(&seats[2], 0));
    SAY(parklot_poll(&seats[1]));
    SAY(parklot_retry(&seats[1]));
    SAY(parklot_enter(&seats[1], 0, false));

    heading("seat 1 is given the unit with its wake-up");
    SAY(parklot_post(&seats[0], 0));
    SAY(parklot_wake(&seats[0], true, &woken));
    tell_number("woken", woken);
    SAY(parklot_try_acquire(&seats[2], 0));
    SAY(parklot_poll(&seats[1]));
    counts(0);

    heading("the unit is gone before it can be given");
    SAY(parklot_enter(&seats[1], 0, false));
    SAY(parklot_post(&seats[0], 0));
    SAY(parklot_try_acquire(&seats[2], 0));
    SAY(parklot_wake(&seats[0], true, &woken));
    SAY(parklot_poll(&seats[1]));
    SAY(parklot_retry(&seats[1]));
}

static void owes(void)
{
    uint32_t woken = 77, count = 77, names[256];

    heading("seat 1 owes a wake-up, since seat 3 waits at the same root");
    SAY(parklot_enter(&seats[3], 1, false));
    SAY(parklot_post(&seats[1], 0));
    other_calls(false, false, true, false);
    SAY(parklot_wake(&seats[1], false, &woken));
    must(woken == 77, "NOBODY wrote a number", PARKLOT_NOBODY);
    SAY(parklot_try_acquire(&seats[1], 0));

    heading("seat 1 owes wake-ups");
    SAY(parklot_post_many(&seats[1], 0, 2));
    other_calls(false, false, false, true);
    SAY(parklot_wake_some(&seats[1], names, 255, &count));
    must(count == 77, "ROOM wrote a number", PARKLOT_ROOM);
    SAY(parklot_wake_some(&seats[1], names, 256, &count));
    tell_number("count", count);
    SAY(parklot_try_acquire(&seats[1], 0));
    SAY(parklot_try_acquire(&seats[1], 0));

    SAY(parklot_post(&seats[1], 1));
    SAY(parklot_wake(&seats[1], false, &woken));
    tell_number("woken", woken);
    SAY(parklot_poll(&seats[3]));
    SAY(parklot_retry(&seats[3]));
}

/* Queues seats 1, 2 and 3, and wakes all. */
static void order(bool lifo)
{
    uint32_t woken;

    for (int at = 1; at < SEATS; at++)
        SAY(parklot_enter(&seats[at], 2, lifo));
    for (int at = 1; at < SEATS; at++) {
        SAY(parklot_post(&seats[0], 2));
        SAY(parklot_wake(&seats[0], false, &woken));
        tell_number("woken", woken);
        SAY(parklot_poll(&seats[woken]));
        SAY(parklot_retry(&seats[woken]));
    }
}

static void many(void)
{
    uint32_t count, woken[256];

    heading("two of three are woken at once");
    for (int at = 1; at < SEATS; at++)
        SAY(parklot_enter(&seats[at], 2, false));
    SAY(parklot_post_many(&seats[0], 2, 2));
    SAY(parklot_wake_some(&seats[0], woken, 256, &count));
    for (uint32_t at = 0; at < count; at++) {
        tell_number("woken", woken[at]);
        SAY(parklot_poll(&seats[woken[at]]));
        SAY(parklot_retry(&seats[woken[at]]));
    }
    SAY(parklot_poll(&seats[3]));
    heading("and the third by more units than it needs");
    SAY(parklot_post_many(&seats[0], 2, 256));
    SAY(parklot_wake_some(&seats[0], woken, 256, &count));
    tell_number("count", count);
    tell_number("woken", woken[0]);
    SAY(parklot_poll(&seats[3]));
    SAY(parklot_retry(&seats[3]));
    counts(2);
}

static void limit(void)
{
    uint32_t added = 0, answer;

    heading("a seat adds all that it may");
    while ((answer = parklot_post(&seats[2], 2)) == PARKLOT_DONE)
        added++;
    printf("  %u units, and then %s\n", (unsigned)added, answer_name(answer));
    SAY(parklot_post_many(&seats[2], 2, 1));
    SAY(parklot_try_acquire(&seats[2], 2));
    SAY(parklot_post_many(&seats[1], 2, 256));
    SAY(parklot_post_many(&seats[1], 2, 256));
    SAY(parklot_post_many(&seats[1], 2, 256));
}

static void gives_up(void)
{
    uint32_t number;

    heading("a sleeper that gives up");
    SAY(parklot_leave(&seats[3]));
    SAY(parklot_enter(&seats[3], 1, false));
    SAY(parklot_leave(&seats[3]));
    counts(1);
    SAY(parklot_post(&seats[0], 1));
    SAY(parklot_try_acquire(&seats[3], 1));
    heading("one that was woken, one that was handed a unit, and one that may spend no more");
    SAY(parklot_enter(&seats[3], 1, false));
    SAY(parklot_post(&seats[0], 1));
    SAY(parklot_wake(&seats[0], false, &number));
    SAY(parklot_leave(&seats[3]));
    SAY(parklot_retry(&seats[3]));
    SAY(parklot_enter(&seats[3], 1, false));
    SAY(parklot_post(&seats[0], 1));
    SAY(parklot_wake(&seats[0], true, &number));
    SAY(parklot_leave(&seats[3]));
    SAY(parklot_enter(&seats[2], 1, false));
    SAY(parklot_leave(&seats[2]));
    SAY(parklot_post(&seats[0], 1));
    SAY(parklot_wake(&seats[0], true, &number));
    SAY(parklot_poll(&seats[2]));
}

static void end(void)
{
    struct parklot_seat moved;

    heading("the end");
    memcpy(&moved, &seats[0], sizeof moved);
    memset(&seats[0], 0, sizeof moved);
    SAY(parklot_free(&moved));
    SAY(parklot_free(&moved));
    must(is_empty(&moved), "a seat that is freed isn't zeros", PARKLOT_OK);
    for (int at = 1; at < SEATS; at++)
        SAY(parklot_free(&seats[at]));
    SAY(parklot_new(starts, COUNTERS, 251, 2, 1, seats, 1));
    SAY(parklot_free(&seats[0]));
}

int main(void)
{
    make_refused();
    empty_seats();
    make();
    rests();
    sleeps();
    owes();
    heading("first come, first woken");
    order(false);
    heading("with lifo: last come, first woken");
    order(true);
    many();
    limit();
    gives_up();
    end();
    return 0;
}
