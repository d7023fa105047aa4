/* Four threads ask one plan at once, by one `const np_plan *`, and keep shares of it that outlive
 * it: each answer is the one that a thread alone gets. Prints what is wrong; not proved. */
#include <numaplan.h>

#include <pthread.h>
#include <stdio.h>
#include <string.h>

enum { THREADS = 4, ROUNDS = 5000, FIRST = 16, PAGES = 64 };

/* What one thread found, before the others began. */
static uint8_t lists[PAGES][2], firsts[PAGES], marked[PAGES + 2];
static uint64_t backwards[PAGES + 2]; /* the pages of `marked`, from the last to the first */
static np_counts counted;
static uint64_t commands;

struct worker {
    pthread_t thread;
    const np_plan *plan;
    np_plan own; /* a share of the plan, which stays when that is closed */
    int wrong;
};

/* Whether the plan answers each question as it did at first. */
static int is_same(const np_plan *plan, unsigned round) {
    uint8_t nodes[PAGES + 2];
    size_t count = 0;
    uint64_t version = 0;
    np_counts counts;
    np_plan_run runs[3];
    unsigned page = round % PAGES;
    if (np_plan_choice(plan, 1, FIRST + page, 0, nodes, 2, &count) || count != 2 ||
        memcmp(nodes, lists[page], 2) != 0)
        return 0;
    if (np_plan_fill(plan, 1, 0, FIRST, nodes, PAGES) || memcmp(nodes, firsts, PAGES) != 0)
        return 0;
    if (np_plan_fill_marked(plan, 1, 0, FIRST - 1, nodes, PAGES + 2, 255) ||
        memcmp(nodes, marked, PAGES + 2) != 0)
        return 0;
    if (np_plan_nodes(plan, 1, 0, backwards, PAGES + 2, nodes, PAGES + 2, 255))
        return 0;
    for (int k = 0; k < PAGES + 2; k++)
        if (nodes[PAGES + 1 - k] != marked[k])
            return 0;
    if (np_plan_counts(plan, 1, 0, FIRST, PAGES, &counts) ||
        memcmp(&counts, &counted, sizeof counts) != 0)
        return 0;
    if (np_plan_runs(plan, 1, runs, 3, &count) || count != 2 ||
        memcmp(runs, (np_plan_run[]){{FIRST, PAGES / 2, 2}, {FIRST + PAGES / 2, PAGES / 2, 1}},
               2 * sizeof *runs) != 0)
        return 0;
    return np_plan_choice(plan, 1, FIRST + PAGES, 0, nodes, 2, &count) == NP_UNMAPPED &&
           np_plan_version(plan, &version) == NP_OK && version == commands;
}

static void *ask(void *argument) {
    struct worker *worker = argument;
    for (unsigned round = 0; round < ROUNDS && !worker->wrong; round++) {
        np_plan share = {0};
        worker->wrong = !is_same(worker->plan, round) || np_plan_share(worker->plan, &share) ||
                        !is_same(&share, round + 1);
        np_plan_close(&share);
    }
    worker->wrong = worker->wrong || np_plan_share(worker->plan, &worker->own) != NP_OK;
    return NULL;
}

static int make(np_plan *plan) {
    static const uint32_t frames[2] = {64, 64};
    static const uint8_t far[4] = {10, 20, 20, 10};
    static const np_limits limits = {64, 8, 1000};
    np_core core = {0};
    size_t count;
    int wrong = np_core_open(&core, (const uint8_t *)"0-1", 3, frames, 2, far, 4, &limits, 1) ||
                np_core_map(&core, FIRST * 4096, PAGES * 4096, FIRST) ||
                np_core_mbind(&core, FIRST * 4096, PAGES / 2 * 4096,
                              (const uint8_t *)"interleave:0-1", 14) ||
                np_core_compile(&core, plan) || np_plan_version(plan, &commands) ||
                np_plan_fill(plan, 1, 0, FIRST, firsts, PAGES) ||
                np_plan_counts(plan, 1, 0, FIRST, PAGES, &counted);
    for (int page = 0; page < PAGES && !wrong; page++)
        wrong = np_plan_choice(plan, 1, FIRST + page, 0, lists[page], 2, &count) != NP_OK;
    memset(marked, 255, sizeof marked);
    memcpy(marked + 1, firsts, PAGES);
    for (int k = 0; k < PAGES + 2; k++)
        backwards[k] = (uint64_t)(FIRST + PAGES - k);
    np_core_close(&core);
    return wrong;
}

int main(void) {
    static struct worker workers[THREADS];
    np_plan plan = {0};
    int wrong = make(&plan);
    for (int k = 0; k < THREADS && !wrong; k++) {
        workers[k].plan = &plan;
        wrong = pthread_create(&workers[k].thread, NULL, ask, &workers[k]);
    }
    for (int k = 0; k < THREADS && !wrong; k++)
        wrong = pthread_join(workers[k].thread, NULL) || workers[k].wrong;
    np_plan_close(&plan);
    for (int k = 0; k < THREADS && !wrong; k++) {
        wrong = !is_same(&workers[k].own, (unsigned)k) || is_same(&plan, 0);
        np_plan_close(&workers[k].own);
    }
    if (wrong)
        puts("a plan that threads share answered otherwise");
    return wrong;
}
