/* The page-fault path of a memory manager: four threads place pages by a plan, while the manager changes
 * the policy and hands them a new plan. A thread has handles of its own: of the plan, and of a seat at
 * the frames, which all share. So a fault takes no lock; it looks at the newest version, and takes a new
 * share of the plan under the lock only where that has changed.
 *
 *     cc fault_path.c $(pkg-config --cflags --libs numaplan) -lpthread
 */
#include <numaplan.h>

#include <pthread.h>
#include <stdatomic.h>
#include <stdio.h>

enum { THREADS = 4, FAULTS = 10000, PAGES = 1000, FIRST = 16, NODES = 2 };

static const uint32_t frames[NODES] = {4096, 4096};
static const uint8_t distances[NODES * NODES] = {10, 20, 20, 10};

/* What the threads share: the newest plan under its lock, and its version. */
static pthread_mutex_t lock = PTHREAD_MUTEX_INITIALIZER;
static np_plan newest;
static atomic_ullong newest_version;

/* A thread, with its own handles, and the frame of each page of its task that has one. */
struct worker {
    pthread_t thread;
    uint32_t task, node;
    np_plan plan;
    uint64_t version;
    np_seat seat;
    np_frame placed[PAGES];
    bool is_placed[PAGES];
    long faults;
    int failed;
};

/* Takes a share of the newest plan, where it is newer than the thread's. */
static int refresh(struct worker *worker) {
    uint32_t code;
    if (worker->version == atomic_load(&newest_version))
        return 0;
    np_plan_close(&worker->plan);
    pthread_mutex_lock(&lock);
    code = np_plan_share(&newest, &worker->plan);
    pthread_mutex_unlock(&lock);
    return code != NP_OK || np_plan_version(&worker->plan, &worker->version) != NP_OK;
}

/* Gives back the frame of a page that has one. */
static int unmap(struct worker *worker, int page) {
    np_frame frame = worker->placed[page];
    if (!worker->is_placed[page])
        return 0;
    worker->is_placed[page] = false;
    return np_seat_give(&worker->seat, frame.node, frame.number) != NP_OK;
}

/* Places a page on the first node of its list that has a free frame. */
static int fault(struct worker *worker, int page) {
    uint8_t nodes[NODES];
    size_t count, rank;
    if (refresh(worker) || np_plan_choice(&worker->plan, worker->task, FIRST + page, worker->node,
                                          nodes, NODES, &count))
        return 1;
    if (np_seat_take(&worker->seat, nodes, count, &worker->placed[page], &rank) != NP_OK)
        return 1;
    worker->is_placed[page] = true;
    worker->faults++;
    return 0;
}

static void *run(void *argument) {
    struct worker *worker = argument;
    for (int k = 0; k < FAULTS && !worker->failed; k++)
        worker->failed = unmap(worker, k % PAGES) || fault(worker, k % PAGES);
    np_plan_close(&worker->plan);
    return NULL;
}

/* Compiles the core's commands, and makes that the newest plan. */
static int hand_out(np_core *core) {
    np_plan made = {0};
    uint64_t version;
    if (np_core_compile(core, &made) || np_plan_version(&made, &version))
        return 1;
    pthread_mutex_lock(&lock);
    np_plan old = newest;
    newest = made;
    pthread_mutex_unlock(&lock);
    atomic_store(&newest_version, version);
    np_plan_close(&old);
    return 0;
}

static int open_core(np_core *core) {
    static const np_limits limits = {65536, 1024, UINT32_MAX};
    return np_core_open(core, NP_TEXT("0-1"), frames, NODES, distances, NODES * NODES, &limits,
                        1) ||
           np_core_map(core, FIRST * 4096, PAGES * 4096, FIRST);
}

/* Opens the pools, with a seat for each thread. */
static int open_seats(struct worker *workers) {
    int failed = np_seat_open(&workers[0].seat, NP_TEXT("0-1"), frames, NODES, distances,
                              NODES * NODES) != NP_OK;
    for (int k = 1; k < THREADS && !failed; k++)
        failed = np_seat_split(&workers[0].seat, &workers[k].seat) != NP_OK;
    return failed;
}

static int start(struct worker *workers) {
    int failed = 0;
    for (uint32_t k = 0; k < THREADS && !failed; k++) {
        workers[k].task = k;
        workers[k].node = k % NODES;
        failed = pthread_create(&workers[k].thread, NULL, run, &workers[k]);
    }
    return failed;
}

/* Changes the policy 300 times, and hands out a plan each time. */
static int change(np_core *core) {
    static const char *policies[] = {"bind:1", "interleave:0-1", "local"};
    int failed = 0;
    for (int turn = 0; turn < 300 && !failed; turn++) {
        const char *policy = policies[turn % 3];
        failed = np_core_mbind(core, FIRST * 4096, PAGES * 4096, NP_TEXT(policy)) || hand_out(core);
    }
    return failed;
}

/* Waits for the threads, whose frames the first one's seat then holds: it gives all back. */
static int finish(struct worker *workers, long *faults, long *given) {
    int failed = 0;
    for (int k = 0; k < THREADS && !failed; k++) {
        failed = pthread_join(workers[k].thread, NULL) || workers[k].failed;
        if (k > 0)
            failed = failed || np_seat_join(&workers[0].seat, &workers[k].seat) != NP_OK;
        *faults += workers[k].faults;
    }
    for (int k = 0; k < THREADS * PAGES && !failed; k++) {
        np_frame frame = workers[k / PAGES].placed[k % PAGES];
        failed = np_seat_give(&workers[0].seat, frame.node, frame.number) != NP_OK;
        ++*given;
    }
    np_seat_close(&workers[0].seat);
    return failed;
}

int main(void) {
    static struct worker workers[THREADS];
    np_core core = {0};
    long faults = 0, given = 0;
    int failed = open_core(&core) || hand_out(&core) || open_seats(workers) || start(workers) ||
                 change(&core) || finish(workers, &faults, &given);
    np_plan_close(&newest);
    np_core_close(&core);
    printf("%ld faults placed, %ld frames given back at the end\n", faults, given);
    return failed || faults != (long)THREADS * FAULTS || given != (long)THREADS * PAGES;
}
