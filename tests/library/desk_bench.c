/* Four readers beside a writer, three ways in one run: a desk; plans under a pthread_rwlock; and plans
 * by an RCU made by hand (a reader tells between two questions that it has none, and the writer waits
 * until each has told so before it frees the older plan). Each reader asks for the list of one page
 * after the other, by the newest plan; the writer binds a range of pages, makes that the newest plan,
 * and sleeps for so many microseconds. Prints for each way millions of questions and thousands of
 * changes a second, and the longest change in microseconds. Not proved.
 *
 *     desk_bench [SECONDS [MICROSECONDS]]
 */
#include <numaplan.h>

#include <pthread.h>
#include <sched.h>
#include <stdatomic.h>
#include <stdio.h>
#include <stdlib.h>
#include <string.h>
#include <time.h>
#include <unistd.h>

enum { READERS = 4, FIRST = 16, RANGES = 1000, PAGES = 4 * RANGES, TASK = 1 };

static const uint32_t frames[2] = {0, 0};
static const uint8_t distances[4] = {10, 20, 20, 10};
static const np_limits limits = {65536, 1024, UINT32_MAX};
static const np_options documents;
static double seconds = 1;
static unsigned pause_length = 100;
static atomic_int over;

struct worker {
    pthread_t thread;
    np_reader reader;
    _Alignas(128) atomic_ulong quiet; /* the RCU: how often it told that it has no plan */
    unsigned long questions;
    uint64_t sum;
};

static struct worker workers[READERS];

/* The three ways. */
static np_desk desk;
static np_core core;
static pthread_rwlock_t lock = PTHREAD_RWLOCK_INITIALIZER;
static np_plan locked;
static _Atomic(np_plan *) newest;

static const char *policy_of(unsigned turn) { return turn % 2 ? "bind:1" : "bind:0"; }

static void must(uint32_t code) {
    if (code) {
        printf("an answer of %u\n", code);
        exit(1);
    }
}

static double now(void) {
    struct timespec at;
    clock_gettime(CLOCK_MONOTONIC, &at);
    return at.tv_sec + at.tv_nsec * 1e-9;
}

/* ---- a question of each way */

static void ask_desk(struct worker *worker, uint64_t page, uint8_t *nodes, size_t *count) {
    uint64_t version;
    must(np_reader_enter(&worker->reader, 0, &version));
    must(np_reader_choice(&worker->reader, TASK, page, 0, nodes, 2, count));
}

static void ask_locked(struct worker *worker, uint64_t page, uint8_t *nodes, size_t *count) {
    (void)worker;
    pthread_rwlock_rdlock(&lock);
    must(np_plan_choice(&locked, TASK, page, 0, nodes, 2, count));
    pthread_rwlock_unlock(&lock);
}

static void ask_rcu(struct worker *worker, uint64_t page, uint8_t *nodes, size_t *count) {
    must(np_plan_choice(atomic_load(&newest), TASK, page, 0, nodes, 2, count));
    atomic_store_explicit(&worker->quiet,
                          atomic_load_explicit(&worker->quiet, memory_order_relaxed) + 1,
                          memory_order_release);
}

/* ---- a change of each way */

static uint32_t bind(unsigned turn, uint64_t *start, const char **word) {
    *start = (FIRST + 4 * (turn % RANGES)) * 4096ull;
    *word = policy_of(turn / RANGES + turn);
    return 4 * 4096;
}

static void change_desk(unsigned turn) {
    uint64_t start, version;
    const char *word;
    uint32_t length = bind(turn, &start, &word);
    must(np_desk_mbind(&desk, start, length, (const uint8_t *)word, strlen(word)));
    must(np_desk_publish(&desk, &version));
}

static void bind_core(unsigned turn, np_plan *made) {
    uint64_t start;
    const char *word;
    uint32_t length = bind(turn, &start, &word);
    must(np_core_mbind(&core, start, length, (const uint8_t *)word, strlen(word)));
    must(np_core_compile(&core, made));
}

static void change_locked(unsigned turn) {
    np_plan made = {0}, old;
    bind_core(turn, &made);
    pthread_rwlock_wrlock(&lock);
    old = locked;
    locked = made;
    pthread_rwlock_unlock(&lock);
    np_plan_close(&old);
}

static void change_rcu(unsigned turn) {
    np_plan *made = calloc(1, sizeof *made), *old;
    unsigned long quiet[READERS];
    if (!made)
        exit(1);
    bind_core(turn, made);
    old = atomic_exchange(&newest, made);
    for (int k = 0; k < READERS; k++)
        quiet[k] = atomic_load(&workers[k].quiet);
    for (int k = 0; k < READERS; k++)
        while (!atomic_load(&over) && atomic_load(&workers[k].quiet) == quiet[k])
            sched_yield();
    np_plan_close(old);
    free(old);
}

static const struct way {
    const char *name;
    void (*ask)(struct worker *, uint64_t, uint8_t *, size_t *);
    void (*change)(unsigned);
} ways[] = {{"desk", ask_desk, change_desk},
            {"pthread_rwlock", ask_locked, change_locked},
            {"RCU by hand", ask_rcu, change_rcu}};
static const struct way *way;

static void *serve(void *argument) {
    struct worker *worker = argument;
    uint64_t random = 88172645463325252u + (uint64_t)(worker - workers);
    uint8_t nodes[2];
    size_t count;
    while (!atomic_load_explicit(&over, memory_order_relaxed)) {
        random ^= random << 13, random ^= random >> 7, random ^= random << 17;
        way->ask(worker, FIRST + random % PAGES, nodes, &count);
        worker->sum += nodes[0];
        worker->questions++;
    }
    return NULL;
}

static void measure(void) {
    unsigned turn = 0;
    unsigned long questions = 0;
    double longest = 0, begun = now(), left;
    atomic_store(&over, 0);
    for (int k = 0; k < READERS; k++) {
        workers[k].questions = 0;
        if (pthread_create(&workers[k].thread, NULL, serve, &workers[k]))
            exit(1);
    }
    while ((left = now()) < begun + seconds) {
        way->change(turn++);
        left = now() - left;
        longest = left > longest ? left : longest;
        if (pause_length)
            usleep(pause_length);
    }
    atomic_store(&over, 1);
    for (int k = 0; k < READERS; k++) {
        pthread_join(workers[k].thread, NULL);
        questions += workers[k].questions;
    }
    double took = now() - begun;
    printf("%-14s %8.2f million questions a second, %8.2f thousand changes, longest %8.0f us\n",
           way->name, questions / took / 1e6, turn / took / 1e3, longest * 1e6);
}

int main(int count, char **words) {
    uint64_t version;
    seconds = count > 1 ? atof(words[1]) : 1;
    pause_length = count > 2 ? (unsigned)atoi(words[2]) : 100;
    must(np_desk_open(&desk, (const uint8_t *)"0-1", 3, frames, 2, distances, 4, &limits, READERS,
                      &documents));
    must(np_core_open(&core, (const uint8_t *)"0-1", 3, frames, 2, distances, 4, &limits, 1));
    must(np_desk_map(&desk, FIRST * 4096, PAGES * 4096, FIRST));
    must(np_core_map(&core, FIRST * 4096, PAGES * 4096, FIRST));
    for (unsigned turn = 0; turn < RANGES; turn++) {
        uint64_t start;
        const char *word;
        uint32_t length = bind(turn, &start, &word);
        must(np_desk_mbind(&desk, start, length, (const uint8_t *)word, strlen(word)));
        must(np_core_mbind(&core, start, length, (const uint8_t *)word, strlen(word)));
    }
    must(np_desk_publish(&desk, &version));
    must(np_core_compile(&core, &locked));
    np_plan *first = calloc(1, sizeof *first);
    if (!first)
        return 1;
    must(np_core_compile(&core, first));
    atomic_store(&newest, first);
    for (int k = 0; k < READERS; k++)
        must(np_desk_reader(&desk, &workers[k].reader));
    for (size_t k = 0; k < sizeof ways / sizeof *ways; k++) {
        way = &ways[k];
        measure();
    }
    return 0;
}
