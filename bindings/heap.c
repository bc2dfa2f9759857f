/* What the library takes its memory by: malloc, realloc and free of the program. A program with an allocator of its own
   defines these three by that instead. */

#include <stdbool.h>
#include <stddef.h>
#include <stdlib.h>

/* Whether there is memory, and where. The pointer isn't null in either case. */
struct memory {
    bool there;
    void *block;
};

struct memory rattle_alloc(size_t size, size_t align);
struct memory rattle_realloc(void *block, size_t kept, size_t size, size_t align);
void rattle_dealloc(void *block);

static struct memory given(void *block)
{
    static char nowhere;

    return (struct memory){block != NULL, block != NULL ? block : &nowhere};
}

/* No alignment is above malloc's own, and no block is empty: malloc(0) may answer null. */
struct memory rattle_alloc(size_t size, size_t align)
{
    return given(malloc(size != 0 ? size : align));
}

struct memory rattle_realloc(void *block, size_t kept, size_t size, size_t align)
{
    (void)kept;
    return given(realloc(block, size != 0 ? size : align));
}

void rattle_dealloc(void *block)
{
    free(block);
}
