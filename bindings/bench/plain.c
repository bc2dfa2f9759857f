/* What any program has to do for the pair: add, and look whether somebody waits; look, and exchange. In a file of its own, so
   that both are calls, as the library's are. */

#include "plain.h"

enum { WORDS_IN_LINE = 8 };

static uint64_t *word(const struct plain_table *table, uint32_t at)
{
    return &table->words[(uint64_t)WORDS_IN_LINE * at];
}

uint32_t plain_post(struct plain_seat *seat, uint32_t counter)
{
    struct plain_table *table = seat->table;

    if (counter >= table->counters || seat->left == 0)
        return 2;
    __atomic_fetch_add(word(table, counter), 1, __ATOMIC_SEQ_CST);
    seat->left--;
    return __atomic_load_n(word(table, table->counters + counter % PLAIN_ROOTS), __ATOMIC_SEQ_CST) != 0;
}

uint32_t plain_try_acquire(struct plain_seat *seat, uint32_t counter)
{
    struct plain_table *table = seat->table;
    uint64_t found;

    if (counter >= table->counters)
        return 2;
    found = __atomic_load_n(word(table, counter), __ATOMIC_SEQ_CST);
    if (found == 0)
        return 1;
    if (!__atomic_compare_exchange_n(word(table, counter), &found, found - 1, 0, __ATOMIC_SEQ_CST, __ATOMIC_SEQ_CST))
        return 1;
    seat->taken++;
    return 0;
}
