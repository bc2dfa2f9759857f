/* plain.h: the pair of calls in plain C. */

#ifndef PLAIN_H
#define PLAIN_H

#include <stdint.h>

/* Counters and waiter words, each in a line of its own, as the library has them. */
struct plain_table {
    uint64_t *words;
    uint32_t counters;
};

enum { PLAIN_ROOTS = 251 };

/* A seat in the caller's memory: its table, and what it may add yet and has taken. */
struct plain_seat {
    struct plain_table *table;
    uint64_t left;
    uint64_t taken;
};

/* 0: the unit is added, and nobody waits. */
uint32_t plain_post(struct plain_seat *seat, uint32_t counter);
/* 0: a unit is taken. */
uint32_t plain_try_acquire(struct plain_seat *seat, uint32_t counter);

#endif
