/* Stands before the C library in a program of the repository (LD_PRELOAD), and lets one of its calls fail:
 *   REFUSE_ALLOCATION=N  the Nth allocation gets no memory;
 *   REFUSE_READ=N        the Nth read fails, with EIO;
 *   REFUSE_WRITE=N       the Nth write fails, with EIO;
 *   REFUSE_BYTES=K       a read or a write moves at most K bytes.
 * The file REFUSE_TOLD has three numbers of 64 bits, which it keeps up to date: how many calls failed so, how many blocks of
 * memory weren't given back yet, and how many the C library took for itself, by calloc: it keeps some of them for threads to come.
 * Writes to standard error never fail, and aren't counted: what is told there is to be seen. */
#define _GNU_SOURCE
#include <dlfcn.h>
#include <errno.h>
#include <fcntl.h>
#include <stdatomic.h>
#include <stdlib.h>
#include <sys/mman.h>
#include <unistd.h>

static long refused_allocation, refused_read, refused_write, most_bytes;
static atomic_long allocations, reads, writes;
static struct { atomic_long refused, kept, own; } unseen, *told = &unseen;

void *__libc_malloc(size_t);
void *__libc_calloc(size_t, size_t);
void *__libc_realloc(void *, size_t);
void __libc_free(void *);
static ssize_t (*next_read)(int, void *, size_t);
static ssize_t (*next_write)(int, const void *, size_t);

static long number(const char *name) {
    const char *text = getenv(name);
    return text ? atol(text) : 0;
}

__attribute__((constructor)) static void begin(void) {
    next_read = dlsym(RTLD_NEXT, "read");
    next_write = dlsym(RTLD_NEXT, "write");
    most_bytes = number("REFUSE_BYTES");
    int file = open(getenv("REFUSE_TOLD"), O_RDWR);
    void *shared = mmap(NULL, sizeof *told, PROT_READ | PROT_WRITE, MAP_SHARED, file, 0);
    close(file);
    if (shared != MAP_FAILED) told = shared;
    refused_read = number("REFUSE_READ");
    refused_write = number("REFUSE_WRITE");
    refused_allocation = number("REFUSE_ALLOCATION");
}

static int is_refused(atomic_long *count, long refused, int error) {
    if (!refused || atomic_fetch_add(count, 1) + 1 != refused) return 0;
    atomic_fetch_add(&told->refused, 1);
    errno = error;
    return 1;
}

static size_t few(size_t count) {
    return most_bytes && count > (size_t)most_bytes ? (size_t)most_bytes : count;
}

static void *counted(void *block) {
    if (block) atomic_fetch_add(&told->kept, 1);
    return block;
}

void *malloc(size_t size) {
    return is_refused(&allocations, refused_allocation, ENOMEM) ? NULL : counted(__libc_malloc(size));
}

void *calloc(size_t count, size_t size) {
    atomic_fetch_add(&told->own, 1);
    return is_refused(&allocations, refused_allocation, ENOMEM) ? NULL : counted(__libc_calloc(count, size));
}

void *realloc(void *block, size_t size) {
    if (is_refused(&allocations, refused_allocation, ENOMEM)) return NULL;
    void *moved = __libc_realloc(block, size);
    return block ? moved : counted(moved);
}

void free(void *block) {
    if (block) atomic_fetch_sub(&told->kept, 1);
    __libc_free(block);
}

ssize_t read(int from, void *into, size_t count) {
    if (from != STDIN_FILENO) return next_read(from, into, count);
    return is_refused(&reads, refused_read, EIO) ? -1 : next_read(from, into, few(count));
}

ssize_t write(int into, const void *from, size_t count) {
    if (into != STDOUT_FILENO) return next_write(into, from, count);
    return is_refused(&writes, refused_write, EIO) ? -1 : next_write(into, from, few(count));
}
