/* Refuses memory. Built as a shared object and loaded before the C library, it counts what the program wants from malloc, calloc, realloc and
   aligned_alloc, and refuses the want of number REFUSE, counted from 1, or with REFUSE_REST that and each behind it. The file that COUNT
   names holds how many there were, as a number of eight bytes.

       cc -O2 -shared -fPIC -o refuse_memory.so refuse_memory.c */
#include <errno.h>
#include <fcntl.h>
#include <stdatomic.h>
#include <stddef.h>
#include <stdlib.h>
#include <sys/mman.h>
#include <unistd.h>

extern void *__libc_malloc(size_t);
extern void *__libc_calloc(size_t, size_t);
extern void *__libc_realloc(void *, size_t);
extern void *__libc_memalign(size_t, size_t);

static atomic_ulong own;
static atomic_ulong *wants = &own;
static unsigned long refused;
static int rest;

__attribute__((constructor)) static void begin(void) {
    const char *number = getenv("REFUSE"), *name = getenv("COUNT");
    refused = number ? strtoul(number, NULL, 10) : 0;
    rest = getenv("REFUSE_REST") != NULL;
    int file = name ? open(name, O_RDWR | O_CREAT | O_TRUNC, 0666) : -1;
    if (file >= 0 && ftruncate(file, sizeof own) == 0) {
        void *place = mmap(NULL, sizeof own, PROT_READ | PROT_WRITE, MAP_SHARED, file, 0);
        wants = place == MAP_FAILED ? &own : place;
    }
    atomic_store(wants, 0);
}

static int is_refused(void) {
    unsigned long number = atomic_fetch_add(wants, 1) + 1;
    if (refused && (number == refused || (rest && number > refused))) {
        errno = ENOMEM;
        return 1;
    }
    return 0;
}

void *malloc(size_t size) { return is_refused() ? NULL : __libc_malloc(size); }

void *calloc(size_t count, size_t size) { return is_refused() ? NULL : __libc_calloc(count, size); }

void *realloc(void *old, size_t size) { return is_refused() ? NULL : __libc_realloc(old, size); }

void *aligned_alloc(size_t alignment, size_t size) { return is_refused() ? NULL : __libc_memalign(alignment, size); }

int posix_memalign(void **place, size_t alignment, size_t size) {
    void *found = is_refused() ? NULL : __libc_memalign(alignment, size);
    if (!found) {
        return ENOMEM;
    }
    *place = found;
    return 0;
}
