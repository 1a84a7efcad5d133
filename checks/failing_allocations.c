/* Laid under a program by LD_PRELOAD: makes allocations fail, and threads. Calls of malloc, calloc, realloc, aligned_alloc,
   memalign, posix_memalign and pthread_create count together, from 1. What a thread that is made takes for itself counts too.

   FAIL_FIRST, FAIL_LAST: the numbers of the first and of the last call that fails. FAIL_THREADS: the number, from 1, of the
   first thread that can't be started, as no later one can. If one fails, a byte is written to the file descriptor that
   FAIL_SEEN names. */
#define _GNU_SOURCE
#include <dlfcn.h>
#include <errno.h>
#include <pthread.h>
#include <stdatomic.h>
#include <stddef.h>
#include <stdlib.h>
#include <unistd.h>

void *__libc_malloc(size_t);
void *__libc_calloc(size_t, size_t);
void *__libc_realloc(void *, size_t);
void *__libc_memalign(size_t, size_t);

static atomic_ulong made, started;
static unsigned long first, last, threads;
static int seen;
static int (*create)(pthread_t *, const pthread_attr_t *, void *(*)(void *), void *);

__attribute__((constructor)) static void begin(void) {
    const char *from = getenv("FAIL_FIRST"), *to = getenv("FAIL_LAST"), *file = getenv("FAIL_SEEN");
    const char *thread = getenv("FAIL_THREADS");
    create = dlsym(RTLD_NEXT, "pthread_create");
    first = from ? strtoul(from, 0, 10) : 0;
    last = to ? strtoul(to, 0, 10) : 0;
    threads = thread ? strtoul(thread, 0, 10) : 0;
    seen = file ? atoi(file) : -1;
    made = 0;
}

static void tell(void) {
    if (seen >= 0 && write(seen, "x", 1) != 1) seen = -1;
}

/* Whether this call is one that fails. */
static int fails(void) {
    unsigned long number = ++made;
    if (number < first || number > last) return 0;
    tell();
    errno = ENOMEM;
    return 1;
}

/* Whether this thread is one that can't be started. */
static int is_refused(void) {
    if (++started < threads || !threads) return 0;
    tell();
    return 1;
}

void *malloc(size_t size) { return fails() ? NULL : __libc_malloc(size); }
void *calloc(size_t count, size_t size) { return fails() ? NULL : __libc_calloc(count, size); }
void *realloc(void *at, size_t size) { return fails() ? NULL : __libc_realloc(at, size); }
void *memalign(size_t align, size_t size) { return fails() ? NULL : __libc_memalign(align, size); }
void *aligned_alloc(size_t align, size_t size) { return fails() ? NULL : __libc_memalign(align, size); }
int posix_memalign(void **at, size_t align, size_t size) {
    if (fails()) return ENOMEM;
    *at = __libc_memalign(align, size);
    return *at ? 0 : ENOMEM;
}
int pthread_create(pthread_t *id, const pthread_attr_t *how, void *(*work)(void *), void *given) {
    return fails() || is_refused() ? EAGAIN : create(id, how, work, given);
}
