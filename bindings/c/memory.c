/* Memory that is refused: each request of parklot_new in turn. Nothing is left behind, and nothing was done. This program
   has an allocator of its own, so it is linked without heap.c. */

#include "answers.h"

struct memory {
    bool there;
    void *block;
};

struct memory rattle_alloc(size_t size, size_t align);
struct memory rattle_realloc(void *block, size_t kept, size_t size, size_t align);
void rattle_dealloc(void *block);

static int left;   /* how many requests are granted */
static int blocks; /* how many blocks aren't given back */

static bool is_refused(void)
{
    return left-- <= 0;
}

struct memory rattle_alloc(size_t size, size_t align)
{
    static char nowhere;
    void *block = is_refused() ? NULL : malloc(size != 0 ? size : align);

    blocks += block != NULL;
    return (struct memory){block != NULL, block != NULL ? block : &nowhere};
}

struct memory rattle_realloc(void *block, size_t kept, size_t size, size_t align)
{
    void *larger = is_refused() ? NULL : realloc(block, size != 0 ? size : align);

    (void)kept;
    return (struct memory){larger != NULL, larger != NULL ? larger : block};
}

void rattle_dealloc(void *block)
{
    blocks--;
    free(block);
}

int main(void)
{
    const uint32_t starts[2] = {1, 0};
    struct parklot_seat seats[3] = {{0}};
    uint32_t answer, woken;
    int granted = 0;

    for (;; granted++) {
        left = granted;
        answer = parklot_new(starts, 2, 2, 1, 100, seats, 3);
        if (answer == PARKLOT_OK)
            break;
        must(answer == PARKLOT_NO_MEMORY, "parklot_new", answer);
        must(blocks == 0, "a refused parklot_new kept memory, and", answer);
        for (int at = 0; at < 3; at++)
            must(!seats[at].full && seats[at].cell == NULL, "a refused parklot_new wrote a seat, and", answer);
    }
    left = 0;
    expect(PARKLOT_TAKEN, "parklot_try_acquire", parklot_try_acquire(&seats[0], 0));
    expect(PARKLOT_ASLEEP, "parklot_enter", parklot_enter(&seats[0], 0, false));
    expect(PARKLOT_OWES, "parklot_post", parklot_post(&seats[1], 0));
    expect(PARKLOT_HANDED, "parklot_wake", parklot_wake(&seats[1], true, &woken));
    expect(PARKLOT_HANDED, "parklot_poll", parklot_poll(&seats[0]));
    for (int at = 0; at < 3; at++)
        expect(PARKLOT_OK, "parklot_free", parklot_free(&seats[at]));
    printf("each request of parklot_new was refused once: NO_MEMORY\n");
    printf("calls without memory: as always\n");
    printf("blocks that weren't given back: %d\n", blocks);
    return 0;
}
