/* Refuses memory: loaded before a program (LD_PRELOAD), it counts the calls that take memory, and makes some of them fail.

   REFUSE_COUNTS  a file of two numbers of 64 bits, which are the calls and the refused ones, as long as the program runs and afterwards
   REFUSE_FIRST   the number of the first call that fails, from 1; 0 where none does
   REFUSE_LAST    the number of the last one

   Calls before this is set up, which are the loader's own, aren't counted. Is built and used by scripts/refused_memory.py. */
#include <errno.h>
#include <fcntl.h>
#include <stdatomic.h>
#include <stddef.h>
#include <stdlib.h>
#include <sys/mman.h>
#include <unistd.h>

extern void *__libc_malloc(size_t size);
extern void *__libc_calloc(size_t count, size_t size);
extern void *__libc_realloc(void *block, size_t size);
extern void *__libc_memalign(size_t alignment, size_t size);

struct counts {
    atomic_long calls;
    atomic_long refused;
};

static struct counts *counts;
static long first, last;

static long number_in(const char *name) {
    const char *text = getenv(name);
    return text ? atol(text) : 0;
}

__attribute__((constructor)) static void set_up(void) {
    const char *path = getenv("REFUSE_COUNTS");
    int file = path ? open(path, O_RDWR | O_CLOEXEC) : -1;
    if (file < 0) {
        return;
    }
    void *at = mmap(NULL, sizeof(struct counts), PROT_READ | PROT_WRITE, MAP_SHARED, file, 0);
    close(file);
    first = number_in("REFUSE_FIRST");
    last = number_in("REFUSE_LAST");
    if (at != MAP_FAILED) {
        counts = at;
    }
}

/* Counts a call, and says whether it fails. */
static int fails(void) {
    if (!counts) {
        return 0;
    }
    long number = atomic_fetch_add(&counts->calls, 1) + 1;
    if (number < first || number > last) {
        return 0;
    }
    atomic_fetch_add(&counts->refused, 1);
    errno = ENOMEM;
    return 1;
}

void *malloc(size_t size) {
    return fails() ? NULL : __libc_malloc(size);
}

void *calloc(size_t count, size_t size) {
    return fails() ? NULL : __libc_calloc(count, size);
}

void *realloc(void *block, size_t size) {
    return fails() ? NULL : __libc_realloc(block, size);
}

void *memalign(size_t alignment, size_t size) {
    return fails() ? NULL : __libc_memalign(alignment, size);
}

void *aligned_alloc(size_t alignment, size_t size) {
    return memalign(alignment, size);
}

int posix_memalign(void **block, size_t alignment, size_t size) {
    void *given = memalign(alignment, size);
    if (!given) {
        return ENOMEM;
    }
    *block = given;
    return 0;
}
