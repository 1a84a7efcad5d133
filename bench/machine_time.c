/* Laid under the program by LD_PRELOAD, for bench/cores: how long its machine ran, apart from reading, checking and printing.

   A machine takes all its memory before it runs, last the table of its shared words, and copies the first words into it. So
   the run begins when, after a block of MACHINE_BYTES bytes was taken, the first block is given back. With one core it ends
   when the next block is given back; with more, when the first thread has joined its last one. The seconds are written to the
   file descriptor MACHINE_TIME, at each join: the last line counts. */
#define _GNU_SOURCE
#include <dlfcn.h>
#include <pthread.h>
#include <stdio.h>
#include <stdlib.h>
#include <time.h>
#include <unistd.h>

void *__libc_malloc(size_t);
void __libc_free(void *);

enum { BEFORE, OPENING, RUNNING, OVER };

static size_t table_bytes;
static int phase, has_threads, file;
static pthread_t first;
static double from;

static double now(void) {
    struct timespec it;
    clock_gettime(CLOCK_MONOTONIC, &it);
    return it.tv_sec + it.tv_nsec * 1e-9;
}

__attribute__((constructor)) static void begin(void) {
    const char *bytes = getenv("MACHINE_BYTES"), *number = getenv("MACHINE_TIME");
    table_bytes = bytes ? strtoul(bytes, NULL, 10) : 0;
    file = number ? atoi(number) : 2;
    first = pthread_self();
}

/* Tells the seconds since the run began; of several lines the last counts. */
static void tell(void) {
    char line[32];
    int length = snprintf(line, sizeof line, "%.9f\n", now() - from);
    if (write(file, line, length) != length) _exit(99);
}

void *malloc(size_t size) {
    if (phase == BEFORE && size == table_bytes) phase = OPENING;
    return __libc_malloc(size);
}

void free(void *block) {
    __libc_free(block);
    if (phase == RUNNING && !has_threads) {
        phase = OVER;
        tell();
    } else if (phase == OPENING) {
        phase = RUNNING;
        from = now();
    }
}

int pthread_create(pthread_t *id, const pthread_attr_t *how, void *(*work)(void *), void *given) {
    int (*call)(pthread_t *, const pthread_attr_t *, void *(*)(void *), void *) = dlsym(RTLD_NEXT, "pthread_create");
    has_threads = 1;
    return call(id, how, work, given);
}

int pthread_join(pthread_t id, void **result) {
    int (*call)(pthread_t, void **) = dlsym(RTLD_NEXT, "pthread_join");
    int status = call(id, result);
    if (phase == RUNNING && pthread_equal(pthread_self(), first)) tell();
    return status;
}
