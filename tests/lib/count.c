/* Counts allocations. Preloaded into a finished program, it counts the calls of malloc, realloc, calloc, posix_memalign
   and aligned_alloc, and at the end writes a line "allocations N" on the file descriptor TELL. No program is linked with it. */
#define _GNU_SOURCE
#include <errno.h>
#include <stddef.h>

#include "told.h"

extern void *__libc_malloc(size_t);
extern void *__libc_realloc(void *, size_t);
extern void *__libc_calloc(size_t, size_t);
extern void *__libc_memalign(size_t, size_t);

static long counted;

static void end(void) {
    char text[64];
    tell(text, snprintf(text, sizeof text, "allocations %ld\n", counted));
}

void *malloc(size_t size) { counted++; return __libc_malloc(size); }
void *realloc(void *block, size_t size) { counted++; return __libc_realloc(block, size); }
void *calloc(size_t count, size_t size) { counted++; return __libc_calloc(count, size); }
int posix_memalign(void **block, size_t alignment, size_t size) {
    counted++;
    void *made = __libc_memalign(alignment, size);
    if (!made) return ENOMEM;
    *block = made;
    return 0;
}
void *aligned_alloc(size_t alignment, size_t size) { counted++; return __libc_memalign(alignment, size); }
