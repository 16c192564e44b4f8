// A library for LD_PRELOAD. It makes one allocation of a program fail: the one whose number, from 1, is in the environment variable
// REFUSE. Then it makes the file that REFUSED names, which shows that the program got so far. With REFUSE=0, or without it, none fails.
#define _GNU_SOURCE
#include <errno.h>
#include <fcntl.h>
#include <stdatomic.h>
#include <stddef.h>
#include <stdlib.h>
#include <unistd.h>

extern void *__libc_malloc(size_t);
extern void *__libc_calloc(size_t, size_t);
extern void *__libc_realloc(void *, size_t);
extern void *__libc_memalign(size_t, size_t);

static atomic_ulong allocations;

static int refuses(void) {
    static _Atomic long wanted = -1;
    long number = atomic_load(&wanted);
    if (number < 0) {
        const char *text = getenv("REFUSE");
        number = text ? atol(text) : 0;
        atomic_store(&wanted, number);
    }
    if (number == 0 || atomic_fetch_add(&allocations, 1) + 1 != (unsigned long)number) return 0;
    int reached = open(getenv("REFUSED"), O_WRONLY | O_CREAT | O_CLOEXEC, 0600);
    if (reached >= 0) close(reached);
    errno = ENOMEM;
    return 1;
}

void *malloc(size_t size) { return refuses() ? NULL : __libc_malloc(size); }
void *calloc(size_t count, size_t size) { return refuses() ? NULL : __libc_calloc(count, size); }
void *realloc(void *old, size_t size) { return refuses() ? NULL : __libc_realloc(old, size); }
void *aligned_alloc(size_t align, size_t size) { return refuses() ? NULL : __libc_memalign(align, size); }
