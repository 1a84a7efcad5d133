/* What it costs C to claim, record and settle empty instances with the machine's shared words, for bench/cores.

   claims THREADS TASKS QUOTA    claims all instances of so many tasks, 20 times, and prints how many it does a second
   claims spin THREADS           prints the seconds of a fixed work that each thread does by itself

   An instance takes a load and a compare-and-exchange on `alloc` of its task, two draws from the clock, the eight words of
   its record, a bit in `flags` and one from `left`, all sequentially consistent. A thread tries the tasks in turn and begins
   at the first again after each instance, as a core does; it leaves once it found all of them handed out. The records are
   cache lines of their own, as are the clock and each task's counters. */
#include <pthread.h>
#include <stdatomic.h>
#include <stdint.h>
#include <stdio.h>
#include <stdlib.h>
#include <string.h>
#include <time.h>

enum { THREADS = 64, TASKS = 256, ROUNDS = 20, FIELDS = 8, SPINS = 200000000 };

typedef struct {
    _Alignas(64) _Atomic uint64_t alloc;
    _Atomic uint64_t flags, left;
} Task;
typedef struct {
    _Alignas(64) _Atomic uint64_t fields[FIELDS];
} Record;

static struct {
    _Alignas(64) _Atomic uint64_t now;
} tickets;
static Task task[TASKS];
static Record *records;
static uint64_t threads, tasks, quota;

static void instance(uint64_t t, uint64_t k, uint64_t core) {
    uint64_t start = atomic_fetch_add(&tickets.now, 1);
    uint64_t end = atomic_fetch_add(&tickets.now, 1);
    const uint64_t noted[FIELDS] = {0, 2, 0, 0, 0, core, start, end + 1};
    for (int i = 0; i < FIELDS; i++) atomic_store(&records[t * quota + k].fields[i], noted[i]);
    atomic_fetch_or(&task[t].flags, 1);
    atomic_fetch_sub(&task[t].left, 1);
}

/* Whether the thread got an instance of some task. */
static int claim(uint64_t core) {
    for (uint64_t t = 0; t < tasks; t++) {
        uint64_t k = atomic_load(&task[t].alloc);
        if (k < quota && atomic_compare_exchange_strong(&task[t].alloc, &k, k + 1)) {
            instance(t, k, core);
            return 1;
        }
        if (k < quota) t--; /* another thread was faster: the same task again */
    }
    return 0;
}

static void *core(void *number) {
    while (claim((uintptr_t)number)) {}
    return NULL;
}

static void *spin(void *unused) {
    volatile uint64_t last;
    uint64_t x = 1;
    for (long i = 0; i < SPINS; i++) x = x * 6364136223846793005u + 1442695040888963407u;
    last = x;
    (void)last, (void)unused;
    return NULL;
}

static double seconds(void) {
    struct timespec it;
    clock_gettime(CLOCK_MONOTONIC, &it);
    return it.tv_sec + it.tv_nsec * 1e-9;
}

static void open_all(void) {
    for (uint64_t t = 0; t < tasks; t++) {
        atomic_store(&task[t].alloc, 0);
        atomic_store(&task[t].flags, 0);
        atomic_store(&task[t].left, quota);
    }
    atomic_store(&tickets.now, 0);
}

static double side_by_side(void *(*work)(void *)) {
    pthread_t ids[THREADS];
    double from = seconds();
    for (uintptr_t i = 0; i < threads; i++)
        if (pthread_create(&ids[i], NULL, work, (void *)i)) exit(1);
    for (uint64_t i = 0; i < threads; i++) pthread_join(ids[i], NULL);
    return seconds() - from;
}

int main(int count, char **words) {
    int spins = count == 3 && !strcmp(words[1], "spin");
    if (!spins && count != 4) return 2;
    threads = strtoul(words[1 + spins], NULL, 10);
    if (threads < 1 || threads > THREADS) return 2;
    if (spins) {
        printf("%.6f\n", side_by_side(spin));
        return 0;
    }
    tasks = strtoul(words[2], NULL, 10), quota = strtoul(words[3], NULL, 10);
    if (tasks < 1 || tasks > TASKS || quota < 1 || quota > 65536) return 2;
    records = aligned_alloc(64, tasks * quota * sizeof(Record));
    if (!records) return 1;
    memset(records, 0, tasks * quota * sizeof(Record));
    double all = 0;
    for (int round = 0; round < ROUNDS; round++) {
        open_all();
        all += side_by_side(core);
        for (uint64_t t = 0; t < tasks; t++)
            if (task[t].left) return 1;
    }
    printf("%.0f\n", ROUNDS * tasks * quota / all);
    return 0;
}
