/* Refuses allocations. Preloaded into a finished program, it counts the calls of malloc, realloc, calloc, posix_memalign
   and aligned_alloc that ask for more. The environment says which of them fail:

   REFUSE_NTH=N     the Nth of the run
   REFUSE_EACH=N    the Nth after each write to standard output, and none before the first write
   REFUSE_EVERY=N   after the first write, every Nth
   REFUSE_SIZES=N   after the first write, the first of each size, from N octets on
   REFUSE_AFTER=N   all after the Nth write
   REFUSE_FIRST=N   the Nth of the first thread between the first write and the second
   REFUSE_OTHER=N   the Nth of the other threads
   REFUSE_SHARED=F  those that the file F says, which a test maps and changes while the program runs: struct shared below

   On the file descriptor TELL it writes a line "refused" for each of the first two kinds and of the last two before F. At the end it
   writes "refusals N" and "made N", the numbers of failed and of all allocations, and "largest N", the largest allocation after the
   first write. No program is linked with it. */
#define _GNU_SOURCE
#include <errno.h>
#include <fcntl.h>
#include <stddef.h>
#include <sys/mman.h>

#include "told.h"

extern void *__libc_malloc(size_t);
extern void *__libc_realloc(void *, size_t);
extern void *__libc_calloc(size_t, size_t);
extern void *__libc_memalign(size_t, size_t);

/* tests/lib/refusing.py has the same numbers. */
struct shared {
    long left;    /* counts down; the allocation that makes it 0 fails */
    long every;   /* one allocation in so many fails, or none if it is 0 */
    long made;    /* the number of allocations */
    long refused; /* the number of those that failed */
};

enum { MOST_SIZES = 4096 };

static long left, each, every, least_size, after, writes;
static long first, other;
static long made, refusals, largest;
static size_t sizes[MOST_SIZES];
static int seen_sizes;
static struct shared *shared;

__attribute__((constructor)) static void start(void) {
    const char *path = getenv("REFUSE_SHARED");
    int file = path ? open(path, O_RDWR) : -1;
    if (file >= 0) {
        void *mapped = mmap(NULL, sizeof *shared, PROT_READ | PROT_WRITE, MAP_SHARED, file, 0);
        if (mapped != MAP_FAILED) shared = mapped;
        close(file);
    }
    each = number("REFUSE_EACH");
    every = number("REFUSE_EVERY");
    least_size = number("REFUSE_SIZES");
    after = number("REFUSE_AFTER");
    first = number("REFUSE_FIRST");
    other = number("REFUSE_OTHER");
    left = number("REFUSE_NTH");
}

static void end(void) {
    char text[96];
    tell(text, snprintf(text, sizeof text, "refusals %ld\nmade %ld\nlargest %ld\n", refusals, made, largest));
}

/* Whether this allocation makes a count 0. */
static int is_last(long *count) {
    return __atomic_load_n(count, __ATOMIC_RELAXED) > 0 && __atomic_sub_fetch(count, 1, __ATOMIC_RELAXED) == 0;
}

static int is_new_size(size_t size) {
    for (int at = 0; at < seen_sizes; at++)
        if (sizes[at] == size) return 0;
    if (seen_sizes == MOST_SIZES) return 0;
    sizes[seen_sizes++] = size;
    return 1;
}

static int shared_refuses(void) {
    if (!shared) return 0;
    long place = __atomic_add_fetch(&shared->made, 1, __ATOMIC_RELAXED);
    long one_in = __atomic_load_n(&shared->every, __ATOMIC_RELAXED);
    int fails = is_last(&shared->left) || (one_in && place % one_in == 0);
    if (fails) __atomic_add_fetch(&shared->refused, 1, __ATOMIC_RELAXED);
    return fails;
}

static int thread_refuses(void) {
    if (!first && !other) return 0;
    if (syscall(SYS_gettid) != getpid()) return is_last(&other);
    return writes == 1 && is_last(&first);
}

static int refused(size_t size) {
    long place = __atomic_add_fetch(&made, 1, __ATOMIC_RELAXED);
    if (writes && (long)size > largest) largest = (long)size;
    int told = is_last(&left) || thread_refuses();
    int fails = told || shared_refuses() || (every && writes && place % every == 0) || (after && writes >= after) ||
                (least_size && writes && (long)size >= least_size && is_new_size(size));
    if (!fails) return 0;
    __atomic_add_fetch(&refusals, 1, __ATOMIC_RELAXED);
    if (told) tell("refused\n", 8);
    errno = ENOMEM;
    return 1;
}

void *malloc(size_t size) { return refused(size) ? NULL : __libc_malloc(size); }
void *realloc(void *block, size_t size) { return refused(size) ? NULL : __libc_realloc(block, size); }
void *calloc(size_t count, size_t size) { return refused(count * size) ? NULL : __libc_calloc(count, size); }
int posix_memalign(void **block, size_t alignment, size_t size) {
    if (refused(size)) return ENOMEM;
    void *made_block = __libc_memalign(alignment, size);
    if (!made_block) return ENOMEM;
    *block = made_block;
    return 0;
}
void *aligned_alloc(size_t alignment, size_t size) { return refused(size) ? NULL : __libc_memalign(alignment, size); }

ssize_t write(int file, const void *text, size_t len) {
    if (file == STDOUT_FILENO) {
        writes++;
        if (each) left = each;
    }
    return syscall(SYS_write, file, text, len);
}
ssize_t __write(int file, const void *text, size_t len) { return write(file, text, len); }
