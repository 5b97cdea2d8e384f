/* Loaded before the C library, it refuses the allocation of the number in REFUSE, counted from 1 over all threads, or all from
   the number in REFUSE_FROM on, and at the end writes to descriptor 3, if that is open, how many were asked for. */
#include <errno.h>
#include <stdatomic.h>
#include <stddef.h>
#include <stdio.h>
#include <stdlib.h>
#include <sys/syscall.h>
#include <unistd.h>

extern void *__libc_malloc(size_t size);
extern void *__libc_calloc(size_t count, size_t size);
extern void *__libc_realloc(void *block, size_t size);
extern void *__libc_memalign(size_t alignment, size_t size);

static atomic_long asked;

static int is_refused(void) {
    const char *one = getenv("REFUSE"), *from = getenv("REFUSE_FROM");
    long own = atomic_fetch_add(&asked, 1) + 1;
    if ((one == NULL || atol(one) != own) && (from == NULL || own < atol(from)))
        return 0;
    errno = ENOMEM;
    return 1;
}

void *malloc(size_t size) { return is_refused() ? NULL : __libc_malloc(size); }

void *calloc(size_t count, size_t size) { return is_refused() ? NULL : __libc_calloc(count, size); }

void *realloc(void *block, size_t size) { return is_refused() ? NULL : __libc_realloc(block, size); }

void *aligned_alloc(size_t alignment, size_t size) { return is_refused() ? NULL : __libc_memalign(alignment, size); }

int posix_memalign(void **block, size_t alignment, size_t size) {
    *block = aligned_alloc(alignment, size);
    return *block == NULL ? ENOMEM : 0;
}

__attribute__((destructor)) static void tell(void) { dprintf(3, "%ld\n", atomic_load(&asked)); }

/* A program that may start threads ends by this, which calls no destructor. */
void _exit(int status) {
    tell();
    for (;;)
        syscall(SYS_exit_group, status);
}
