/* The core and its plans from C: answers with values from the man pages and the header, closed and
 * opened handles, refused calls, and two threads on one plan. Prints what is wrong; not proved. */
#include "numaplan.h"
#include "want.h"

#include <pthread.h>
#include <string.h>

#define TEXT NP_TEXT

static const uint32_t frames[2] = {2, 1};
static const uint8_t distances[4] = {10, 20, 20, 10};
static const np_limits limits = {65536, 1024, UINT32_MAX};

static uint32_t open_core(np_core *core) {
    return np_core_open(core, TEXT("0-1"), frames, 2, distances, 4, &limits, 2);
}

/* A handle that keeps nothing answers so, and stays as it was. */
static void closed(void) {
    np_core core = {0}, zero = {0};
    np_plan plan = {0};
    uint64_t a = 7, b = 8;
    uint8_t nodes[2] = {9, 9};
    const uint64_t pages[2] = {16, 17};
    np_plan_run run = {7, 7, 7};
    size_t count = 5;
    np_core_close(&core);
    np_plan_close(&plan);
    WANT(np_core_map(&core, 0x10000, 4096, 0), NP_CLOSED);
    WANT(np_core_publish(&core), NP_CLOSED);
    WANT(np_core_versions(&core, &a, &b), NP_CLOSED);
    WANT(a, 7);
    WANT(b, 8);
    WANT(np_core_compile(&core, &plan), NP_CLOSED);
    WANT(np_core_plan(&core, &plan), NP_CLOSED);
    WANT(np_plan_fill(&plan, 1, 0, 16, nodes, 2), NP_CLOSED);
    WANT(np_plan_fill_marked(&plan, 1, 0, 16, nodes, 2, 255), NP_CLOSED);
    WANT(np_plan_nodes(&plan, 1, 0, pages, 2, nodes, 2, 255), NP_CLOSED);
    WANT(np_plan_runs(&plan, 1, &run, 1, &count), NP_CLOSED);
    WANT(run.first, 7);
    WANT(count, 5);
    WANT(nodes[0], 9);
    WANT(nodes[1], 9);
    WANT(memcmp(&core, &zero, sizeof core) == 0, 1);
}

/* Descriptions that are refused. */
static void machines(void) {
    np_core core = {0};
    np_limits large = {65537, 1024, 1};
    const uint8_t bent[4] = {11, 20, 20, 10};
    WANT(np_core_open(&core, TEXT("0-x"), frames, 2, distances, 4, &limits, 1), NP_LIST_BAD_DIGIT);
    WANT(np_core_open(&core, TEXT("0-1"), frames, 2, distances, 3, &limits, 1), NP_BAD_NODE_COUNT);
    WANT(np_core_open(&core, TEXT("0-2"), frames, 2, distances, 4, &limits, 1), NP_NO_MEMORY_NODE);
    WANT(np_core_open(&core, TEXT("0-1"), frames, 2, bent, 4, &limits, 1), NP_BAD_DISTANCE);
    WANT(np_core_open(&core, TEXT("0-1"), frames, 2, distances, 4, &large, 1), NP_BAD_LIMITS);
    WANT(np_core_open(&core, TEXT("0-1"), frames, 2, distances, 4, &limits, 17), NP_BAD_WORKERS);
    WANT(np_core_open(&core, TEXT("0-1"), frames, 2, distances, 4, &limits, 0), NP_BAD_WORKERS);
    WANT(np_core_map(&core, 0, 4096, 0), NP_CLOSED);
}

/* Commands and their refusals: mmap(2), mbind(2), set_mempolicy(2). */
static void commands(void) {
    np_core core = {0};
    uint64_t accepted, published;
    WANT(open_core(&core), NP_OK);
    WANT(open_core(&core), NP_OPEN);
    WANT(np_core_map(&core, 0x10000, 0x8000, 16), NP_OK);
    WANT(np_core_map(&core, 0x17000, 0x1000, 23), NP_OVERLAP);
    WANT(np_core_map(&core, 0x10001, 0x1000, 0), NP_UNALIGNED);
    WANT(np_core_map(&core, 0, 0, 0), NP_EMPTY_LENGTH);
    WANT(np_core_map(&core, (uint64_t)1 << 47, 4096, 0), NP_OUT_OF_SPACE);
    WANT(np_core_mbind(&core, 0x10000, 0x4000, TEXT("interleave:0-1")), NP_OK);
    WANT(np_core_mbind(&core, 0x14000, 0x1000, TEXT("bind:1")), NP_OK);
    WANT(np_core_mbind(&core, 0x14000, 0x8000, TEXT("bind:1")), NP_HOLE);
    WANT(np_core_mbind(&core, 0x14000, 0x1000, TEXT("bind:7")), NP_NODES_NOT_ALLOWED);
    WANT(np_core_mbind(&core, 0x14000, 0x1000, TEXT("bind")), NP_NODES_MISSING);
    WANT(np_core_mbind(&core, 0x14000, 0x1000, TEXT("bend:1")), NP_UNKNOWN_MODE);
    WANT(np_core_set_home(&core, 0x10000, 0x1000, 0), NP_NOT_SUPPORTED);
    WANT(np_core_set_home(&core, 0x14000, 0x1000, 0), NP_OK);
    WANT(np_core_set_weight(&core, 0, 256), NP_BAD_WEIGHT);
    WANT(np_core_set_weight(&core, 2, 1), NP_NO_SUCH_NODE);
    WANT(np_core_set_weight(&core, 0, 3), NP_OK);
    WANT(np_core_set_mems(&core, TEXT("1-0")), NP_LIST_BACKWARDS);
    WANT(np_core_set_task(&core, 5, TEXT("prefer:1")), NP_OK);
    WANT(np_core_unmap(&core, 0x17000, 0x1000), NP_OK);
    WANT(np_core_versions(&core, &accepted, &published), NP_OK);
    WANT(accepted, 7);
    WANT(published, 0);
    WANT(np_core_publish(&core), NP_OK);
    WANT(np_core_versions(&core, &accepted, &published), NP_OK);
    WANT(published, 7);
    np_core_close(&core);
    np_core_close(&core);
    WANT(np_core_publish(&core), NP_CLOSED);
}

/* Policies by the system calls' own words: mode, flag and mask. */
static void raw_words(void) {
    static const np_nodes none = {{0, 0, 0, 0}}, second = {{2, 0, 0, 0}}, high = {{0, 0, 0, 1}};
    const uint32_t prefer = 1, bind = 2, local = 4, fixed = 0x8000, relative = 0x4000;
    np_core core = {0};
    np_policy policy;
    size_t count;
    WANT(np_core_mbind_by(&core, 0x10000, 0x1000, bind, &second), NP_CLOSED);
    WANT(np_core_mbind_by(&core, 0x10000, 0x1000, 7, &second), NP_UNKNOWN_MODE);
    WANT(open_core(&core), NP_OK);
    WANT(np_core_map(&core, 0x10000, 0x8000, 16), NP_OK);
    WANT(np_core_mbind_by(&core, 0x10000, 0x1000, bind | fixed, &second), NP_OK);
    WANT(np_core_range_policy(&core, 0, &policy), NP_OK);
    WANT(policy.mode, bind | fixed);
    WANT(policy.asked.words[0], 2);
    /* by what is told of a policy the next page has the same, and both are one range */
    WANT(np_core_mbind_by(&core, 0x11000, 0x1000, policy.mode, &policy.asked), NP_OK);
    WANT(np_core_ranges(&core, &count), NP_OK);
    WANT(count, 2);
    WANT(np_core_mbind_by(&core, 0x10000, 0x1000, bind | fixed | relative, &second), NP_BOTH_FLAGS);
    WANT(np_core_mbind_by(&core, 0x10000, 0x1000, bind, &none), NP_NODES_MISSING);
    WANT(np_core_mbind_by(&core, 0x10000, 0x1000, local, &second), NP_NODES_FORBIDDEN);
    WANT(np_core_mbind_by(&core, 0x10000, 0x1000, prefer | fixed, &none), NP_FLAGS_FORBIDDEN);
    WANT(np_core_mbind_by(&core, 0x10000, 0x1000, bind, &high), NP_NODES_NOT_ALLOWED);
    WANT(np_core_mbind_by(&core, 0x10000, 0x2000, 0, &none), NP_OK);
    WANT(np_core_ranges(&core, &count), NP_OK);
    WANT(count, 1);
    WANT(np_core_set_task_by(&core, 5, 0x10000, &second), NP_UNKNOWN_MODE);
    WANT(np_core_set_task_by(&core, 5, prefer | relative, &second), NP_OK);
    WANT(np_core_task_policy(&core, 5, &policy), NP_OK);
    WANT(policy.mode, prefer | relative);
    WANT(np_core_set_task_by(&core, 5, prefer, &none), NP_OK);
    WANT(np_core_task_policy(&core, 5, &policy), NP_OK);
    WANT(policy.mode, local);
    WANT(np_core_set_task_by(&core, 5, 0, &none), NP_OK);
    WANT(np_core_task_policy(&core, 5, &policy), NP_OK);
    WANT(policy.mode, 0);
    np_core_close(&core);
}

/* Masks by pointer and maxnode, as mbind(2)'s and set_mempolicy(2)'s get_nodes (mm/mempolicy.c) reads
 * them: one bit less than maxnode says. */
static void masks(void) {
    static const unsigned long first[] = {2, 0}, full[] = {~0ul, ~0ul, ~0ul, ~0ul, 0, 0, 0, 0, 1};
    const uint32_t bind = 2, fixed = 0x8000;
    np_nodes nodes = {{9, 9, 9, 9}};
    np_core core = {0};
    np_policy policy;
    WANT(np_nodes_of(first, 0, &nodes), NP_LIST_TOO_HIGH);
    WANT(np_nodes_of(first, 32770, &nodes), NP_LIST_TOO_HIGH);
    WANT(np_nodes_of(full, 514, &nodes), NP_LIST_TOO_HIGH);
    WANT(nodes.words[0], 9);
    WANT(np_nodes_of(full, 513, &nodes), NP_OK);
    WANT(nodes.words[0] & nodes.words[1] & nodes.words[2] & nodes.words[3], UINT64_MAX);
    WANT(np_nodes_of(full, 71, &nodes), NP_OK);
    WANT(nodes.words[0], UINT64_MAX);
    WANT(nodes.words[1], 63);
    WANT(nodes.words[2] | nodes.words[3], 0);
    WANT(np_nodes_of(first, 2, &nodes), NP_OK);
    WANT(nodes.words[0], 0);
    WANT(np_nodes_of(first, 3, &nodes), NP_OK);
    WANT(nodes.words[0], 2);
    WANT(np_nodes_of(first, 1, &nodes), NP_OK);
    WANT(nodes.words[0] | nodes.words[1], 0);
    WANT(np_nodes_of(NULL, 0, &nodes), NP_OK);
    WANT(np_nodes_of(NULL, 70000, &nodes), NP_OK);
    WANT(open_core(&core), NP_OK);
    WANT(np_core_map(&core, 0x10000, 0x8000, 16), NP_OK);
    WANT(np_core_mbind_mask(&core, 0x10000, 0x1000, bind | fixed, first, 65), NP_OK);
    WANT(np_core_range_policy(&core, 0, &policy), NP_OK);
    WANT(policy.mode, bind | fixed);
    WANT(policy.asked.words[0], 2);
    WANT(np_core_mbind_mask(&core, 0x10000, 0x1000, bind, first, 2), NP_NODES_MISSING);
    WANT(np_core_mbind_mask(&core, 0x10000, 0x1000, bind, full, 514), NP_LIST_TOO_HIGH);
    WANT(np_core_mbind_mask(&core, 0x10000, 0x1000, 0, NULL, 0), NP_OK);
    WANT(np_core_set_task_mask(&core, 5, bind, first, 65), NP_OK);
    WANT(np_core_task_policy(&core, 5, &policy), NP_OK);
    WANT(policy.asked.words[0], 2);
    WANT(np_core_set_task_mask(&core, 5, bind, first, 0), NP_LIST_TOO_HIGH);
    np_core_close(&core);
}

/* Homes by the words of set_mempolicy_home_node(2), which takes no flags. */
static void homes(void) {
    const uint64_t high = (uint64_t)1 << 32;
    np_core core = {0};
    np_policy policy;
    WANT(np_core_home_by(&core, 0x10000, 0x1000, 0, 1), NP_FLAGS_FORBIDDEN);
    WANT(np_core_home_by(&core, 0x10000, 0x1000, 0, 0), NP_CLOSED);
    WANT(open_core(&core), NP_OK);
    WANT(np_core_map(&core, 0x10000, 0x8000, 16), NP_OK);
    WANT(np_core_mbind(&core, 0x10000, 0x8000, TEXT("bind:0-1")), NP_OK);
    WANT(np_core_home_by(&core, 0x10000, 0x1000, 1, high), NP_FLAGS_FORBIDDEN);
    WANT(np_core_home_by(&core, 0x10000, 0x1000, 2, 0), NP_NO_SUCH_NODE);
    WANT(np_core_home_by(&core, 0x10000, 0x1000, high, 0), NP_NO_SUCH_NODE);
    WANT(np_core_home_by(&core, 0x10000, 0x1000, high + 1, 0), NP_NO_SUCH_NODE);
    WANT(np_core_home_by(&core, 0x10000, 0x1000, 1, 0), NP_OK);
    WANT(np_core_range_policy(&core, 0, &policy), NP_OK);
    WANT(policy.home, 1);
    np_core_close(&core);
}

/* Workers: two frames of node 0 and one of node 1; BIND falls back to no other node. */
static void workers(void) {
    np_core core = {0};
    np_placement placed = {0, 0, 0, 0, 0, 0};
    WANT(open_core(&core), NP_OK);
    WANT(np_core_map(&core, 0x10000, 0x4000, 16), NP_OK);
    WANT(np_core_mbind(&core, 0x10000, 0x1000, TEXT("bind:1")), NP_OK);
    WANT(np_core_touch(&core, 0, 1, 16, 0, &placed), NP_UNMAPPED);
    WANT(np_core_publish(&core), NP_OK);
    WANT(np_core_touch(&core, 2, 1, 16, 0, &placed), NP_NO_SUCH_WORKER);
    WANT(np_core_touch(&core, 0, 1, 16, 9, &placed), NP_BAD_CPU);
    WANT(placed.page, 0);
    WANT(np_core_touch(&core, 0, 1, 16, 0, &placed), NP_OK);
    WANT(placed.version, 2);
    WANT(placed.page, 16);
    WANT(placed.node, 1);
    WANT(placed.frame, 0);
    WANT(placed.rank, 0);
    WANT(np_core_touch(&core, 0, 1, 16, 0, &placed), NP_EXHAUSTED);
    WANT(np_core_give(&core, 1, 1, 0), NP_NOT_OWNED);
    WANT(np_core_give(&core, 0, 1, 0), NP_OK);
    WANT(np_core_try(&core, 0, 1, 0, &placed), NP_IDLE);
    WANT(np_core_begin(&core, 0, 1, 16, 0), NP_STILL);
    WANT(np_core_begin(&core, 0, 1, 16, 0), NP_BUSY);
    WANT(np_core_look(&core, 0, 1), NP_BAD_TRY);
    WANT(np_core_try(&core, 0, 0, 0, &placed), NP_BAD_TRY);
    WANT(np_core_try(&core, 0, 1, 0, &placed), NP_OK);
    WANT(placed.node, 1);
    np_core_close(&core);
}

static void *fill_many(void *handle) {
    uint8_t nodes[4];
    for (int turn = 0; turn < 20000; turn++) {
        memset(nodes, 9, 4);
        if (np_plan_fill((np_plan *)handle, 1, 0, 16, nodes, 4) || nodes[0] != 0 ||
            nodes[1] != 1 || nodes[2] != 0 || nodes[3] != 1)
            return handle;
    }
    return NULL;
}

/* Pages 16 to 19 in turns, 20 on node 1, 21 on the CPU's node, the others marked: of a span that
 * begins and ends among others, one that reaches past the highest number, and in no order. */
static void marks(const np_plan *plan) {
    static const uint64_t pages[9] = {21, 16, 17, 18, 30, 20, 16, UINT64_MAX, (uint64_t)1 << 35};
    static const uint8_t span[8] = {200, 0, 1, 0, 1, 1, 1, 200};
    static const uint8_t each[9] = {1, 0, 1, 0, 200, 1, 0, 200, 200};
    static const uint8_t kept[9] = {9, 9, 9, 9, 9, 9, 9, 9, 9}, none[4] = {7, 7, 7, 7};
    uint8_t nodes[9];
    memcpy(nodes, kept, 9);
    WANT(np_plan_fill_marked(plan, 1, 2, 15, nodes, 8, 200), NP_BAD_CPU);
    WANT(np_plan_fill_marked(plan, 1, 2, 15, nodes, 0, 200), NP_BAD_CPU);
    WANT(np_plan_nodes(plan, 1, 1, pages, 9, nodes, 8, 200), NP_NO_ROOM);
    WANT(np_plan_nodes(plan, 1, 1, pages, 8, nodes, 9, 200), NP_NO_ROOM);
    WANT(np_plan_nodes(plan, 1, 2, pages, 9, nodes, 8, 200), NP_NO_ROOM);
    WANT(np_plan_nodes(plan, 1, 2, pages, 9, nodes, 9, 200), NP_BAD_CPU);
    WANT(np_plan_nodes(plan, 1, 2, pages, 0, nodes, 0, 200), NP_BAD_CPU);
    WANT(np_plan_nodes(plan, 1, 1, pages, 0, nodes, 0, 200), NP_OK);
    WANT(memcmp(nodes, kept, 9), 0);
    WANT(np_plan_fill_marked(plan, 1, 1, 15, nodes, 8, 200), NP_OK);
    WANT(memcmp(nodes, span, 8), 0);
    WANT(nodes[8], 9);
    WANT(np_plan_fill_marked(plan, 1, 1, UINT64_MAX - 1, nodes, 4, 7), NP_OK);
    WANT(memcmp(nodes, none, 4), 0);
    WANT(np_plan_nodes(plan, 1, 1, pages, 9, nodes, 9, 200), NP_OK);
    WANT(memcmp(nodes, each, 9), 0);
}

/* Its runs: pages 16 to 19 in turns of two, page 20, and page 21. */
static void turns(const np_plan *plan) {
    static const np_plan_run wanted[4] = {{16, 4, 2}, {20, 1, 1}, {21, 1, 1}, {9, 9, 9}};
    np_plan_run runs[4] = {{9, 9, 9}, {9, 9, 9}, {9, 9, 9}, {9, 9, 9}};
    size_t count = 0;
    WANT(np_plan_runs(plan, 1, runs, 2, &count), NP_NO_ROOM);
    WANT(count, 3);
    WANT(runs[0].first, 9);
    count = 0;
    WANT(np_plan_runs(plan, 1, runs, 4, &count), NP_OK);
    WANT(count, 3);
    WANT(memcmp(runs, wanted, sizeof runs), 0);
}

/* A plan, which outlives its core, and in two threads. */
static void plans(void) {
    np_core core = {0};
    np_plan plan = {0}, other = {0};
    uint8_t nodes[4] = {9, 9, 9, 9};
    size_t count = 0;
    np_counts counts;
    uint64_t version;
    pthread_t thread;
    void *failed;
    WANT(open_core(&core), NP_OK);
    WANT(np_core_map(&core, 0x10000, 0x6000, 16), NP_OK);
    WANT(np_core_mbind(&core, 0x10000, 0x4000, TEXT("interleave:0-1")), NP_OK);
    WANT(np_core_mbind(&core, 0x14000, 0x1000, TEXT("bind:1")), NP_OK);
    WANT(np_core_compile(&core, &plan), NP_OK);
    WANT(np_core_compile(&core, &plan), NP_OPEN);
    np_core_close(&core);
    WANT(np_plan_version(&plan, &version), NP_OK);
    WANT(version, 3);
    WANT(np_plan_choice(&plan, 1, 20, 0, nodes, 4, &count), NP_OK);
    WANT(count, 1);
    WANT(nodes[0], 1);
    WANT(nodes[1], 9);
    WANT(np_plan_choice(&plan, 1, 21, 1, nodes, 1, &count), NP_NO_ROOM);
    WANT(count, 2);
    WANT(np_plan_choice(&plan, 1, 21, 1, nodes, 4, &count), NP_OK);
    WANT(nodes[0], 1);
    WANT(nodes[1], 0);
    WANT(np_plan_choice(&plan, 1, 22, 1, nodes, 4, &count), NP_UNMAPPED);
    WANT(np_plan_choice(&plan, 1, 21, 2, nodes, 4, &count), NP_BAD_CPU);
    WANT(np_plan_counts(&plan, 1, 1, 16, 6, &counts), NP_OK);
    WANT(counts.pages[0], 2);
    WANT(counts.pages[1], 4);
    WANT(counts.pages[2], 0);
    WANT(np_plan_counts(&plan, 1, 1, 16, 7, &counts), NP_UNMAPPED);
    marks(&plan);
    turns(&plan);
    WANT(np_plan_share(&plan, &other), NP_OK);
    WANT(np_plan_share(&plan, &other), NP_OPEN);
    WANT(pthread_create(&thread, NULL, fill_many, &other), 0);
    WANT(fill_many(&plan) == NULL, 1);
    np_plan_close(&plan);
    WANT(pthread_join(thread, &failed), 0);
    WANT(failed == NULL, 1);
    WANT(np_plan_version(&plan, &version), NP_CLOSED);
    WANT(np_plan_version(&other, &version), NP_OK);
    np_plan_close(&other);
}

/* The published plan stands while commands are accepted, and is another once they are published. */
static void published(void) {
    np_core core = {0};
    np_plan plan = {0}, next = {0};
    uint8_t nodes[2] = {9, 9};
    size_t count = 0;
    uint64_t version = 9;
    WANT(open_core(&core), NP_OK);
    WANT(np_core_map(&core, 0x10000, 0x1000, 16), NP_OK);
    WANT(np_core_publish(&core), NP_OK);
    WANT(np_core_mbind(&core, 0x10000, 0x1000, TEXT("bind:1")), NP_OK);
    WANT(np_core_plan(&core, &plan), NP_OK);
    WANT(np_core_plan(&core, &plan), NP_OPEN);
    WANT(np_core_publish(&core), NP_OK);
    WANT(np_core_plan(&core, &next), NP_OK);
    np_core_close(&core);
    WANT(np_plan_version(&plan, &version), NP_OK);
    WANT(version, 1);
    WANT(np_plan_choice(&plan, 1, 16, 0, nodes, 2, &count), NP_OK);
    WANT(count, 2);
    WANT(nodes[0], 0);
    WANT(np_plan_version(&next, &version), NP_OK);
    WANT(version, 2);
    WANT(np_plan_choice(&next, 1, 16, 0, nodes, 2, &count), NP_OK);
    WANT(count, 1);
    WANT(nodes[0], 1);
    np_plan_close(&plan);
    np_plan_close(&next);
}

int main(void) {
    closed();
    machines();
    commands();
    raw_words();
    masks();
    homes();
    workers();
    plans();
    published();
    return wrong;
}
