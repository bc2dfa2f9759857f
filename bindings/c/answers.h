/* answers.h: what the tests say of calls. */

#ifndef ANSWERS_H
#define ANSWERS_H

#include "parklot.h"

#include <stdio.h>
#include <stdlib.h>

static inline const char *answer_name(uint32_t answer)
{
    switch (answer) {
    case PARKLOT_OK: return "OK";
    case PARKLOT_TAKEN: return "TAKEN";
    case PARKLOT_ZERO: return "ZERO";
    case PARKLOT_LOST: return "LOST";
    case PARKLOT_DONE: return "DONE";
    case PARKLOT_OWES: return "OWES";
    case PARKLOT_ASLEEP: return "ASLEEP";
    case PARKLOT_WOKEN: return "WOKEN";
    case PARKLOT_NOBODY: return "NOBODY";
    case PARKLOT_ONE: return "ONE";
    case PARKLOT_HANDED: return "HANDED";
    case PARKLOT_AT_ONCE: return "AT_ONCE";
    case PARKLOT_PARKED: return "PARKED";
    case PARKLOT_GRANTED: return "GRANTED";
    case PARKLOT_LEFT: return "LEFT";
    case PARKLOT_COMING: return "COMING";
    case PARKLOT_NO_SEAT: return "NO_SEAT";
    case PARKLOT_OTHER_CALL: return "OTHER_CALL";
    case PARKLOT_NO_COUNTER: return "NO_COUNTER";
    case PARKLOT_BUSY: return "BUSY";
    case PARKLOT_LIMIT: return "LIMIT";
    case PARKLOT_FULL: return "FULL";
    case PARKLOT_UNITS: return "UNITS";
    case PARKLOT_ROOM: return "ROOM";
    case PARKLOT_COUNTERS: return "COUNTERS";
    case PARKLOT_SEATS: return "SEATS";
    case PARKLOT_ROOTS: return "ROOTS";
    case PARKLOT_RELEASE_LIMIT: return "RELEASE_LIMIT";
    case PARKLOT_NO_MEMORY: return "NO_MEMORY";
    default: return "a number that means nothing";
    }
}

/* Ends the program where the answer isn't one that may come. */
static inline void must(bool holds, const char *call, uint32_t answer)
{
    if (holds)
        return;
    printf("%s answered %s\n", call, answer_name(answer));
    exit(1);
}

static inline void expect(uint32_t wanted, const char *call, uint32_t answer)
{
    must(answer == wanted, call, answer);
}

#endif
