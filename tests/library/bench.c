/* How long calls of the C library take, each beside the least that plain C needs for it in the same
 * run: the loops of crates/benches, through handles. A measure and no test; by hand:
 *
 *     ./numaplan library PREFIX
 *     cc -O2 -I PREFIX/include tests/library/bench.c PREFIX/lib/libnumaplan.a -o bench && ./bench
 *
 * Each time is the best of several rounds. Not proved. */
#define _POSIX_C_SOURCE 199309L
#include "numaplan.h"
#include "numaplan_placed.h"

#include <stdio.h>
#include <stdlib.h>
#include <string.h>
#include <time.h>

#define RANGES 65536 /* of 3 pages, each with a hole of one page behind it */
#define ROUND 100000 /* look-ups in a round, which jump over all ranges */
#define FILLED 1048576
#define PAGE 4096
#define TEXT NP_TEXT

static np_plan spread, whole;
static np_pages pages;
static uint8_t nodes[FILLED], other[FILLED];
static struct row {
    uint64_t first, pages, index, rule;
} rows[RANGES];
static volatile uint64_t kept; /* what every round found, so that none is left out */

/* Ends the program where a call is refused. */
static void must(uint32_t code) {
    if (code != NP_OK) {
        printf("refused: %u\n", code);
        exit(1);
    }
}

static uint64_t page_of(uint64_t k) { return k * 40503 % (4 * (uint64_t)RANGES); }

/* A core of four nodes with weights 3, 2, 1 and 2, by which task 1 interleaves. */
static void open_core(np_core *core) {
    static const uint32_t frames[4] = {0};
    static const uint8_t far[16] = {10, 20, 20, 20, 20, 10, 20, 20, 20, 20, 10, 20, 20, 20, 20, 10};
    static const np_limits limits = {65536, 1024, UINT32_MAX};
    must(np_core_open(core, TEXT("0-3"), frames, 4, far, 16, &limits, 1));
    must(np_core_set_weight(core, 0, 3));
    must(np_core_set_weight(core, 1, 2));
    must(np_core_set_weight(core, 3, 2));
    must(np_core_set_task(core, 1, TEXT("weighted:0-3")));
}

/* One plan of all ranges, and one of a single range of all 2^35 pages. */
static void make_plans(void) {
    np_core core = {0};
    open_core(&core);
    for (uint64_t k = 0; k < RANGES; k++) {
        rows[k] = (struct row){4 * k, 3, 4 * k, 0};
        must(np_core_map(&core, 4 * k * 4096, 3 * 4096, 4 * k));
    }
    must(np_core_compile(&core, &spread));
    np_core_close(&core);
    open_core(&core);
    must(np_core_map(&core, 0, (uint64_t)1 << 47, 0));
    must(np_core_compile(&core, &whole));
    np_core_close(&core);
}

/* RANGES runs of two pages, in turn on nodes 0 to 2, which are allowed. */
static void place_pages(void) {
    np_core core = {0};
    open_core(&core);
    must(np_core_map(&core, 0, 2 * (uint64_t)RANGES * PAGE, 0));
    must(np_core_set_mems(&core, TEXT("0-2")));
    must(np_pages_open(&pages, &core));
    for (uint64_t k = 0; k < RANGES; k++)
        must(np_pages_place(&pages, 2 * k * PAGE, 2 * PAGE, (uint32_t)(k % 3)));
}

/* ---- what is measured: a round of each */

/* A round of look-ups in the plan. */
static void choices(void) {
    uint8_t list[256];
    size_t count;
    uint64_t sum = 0;
    for (uint64_t k = 0; k < ROUND; k++)
        if (np_plan_choice(&spread, 1, page_of(k), 2, list, 256, &count) == NP_OK)
            sum += count + list[0];
    kept += sum;
}

/* A round of binary searches over rows as large as those of the plan. */
static void searches(void) {
    uint64_t sum = 0;
    for (uint64_t k = 0; k < ROUND; k++) {
        uint64_t page = page_of(k);
        size_t low = 0, high = RANGES;
        while (low < high) {
            size_t middle = low + (high - low) / 2;
            if (rows[middle].first <= page)
                low = middle + 1;
            else
                high = middle;
        }
        sum += low;
    }
    kept += sum;
}

/* A round of calls that do next to nothing: what the way through a handle costs. */
static void versions(void) {
    uint64_t version = 0;
    for (int k = 0; k < ROUND; k++) {
        np_plan_version(&spread, &version);
        kept += version;
    }
}

static void fill_in_turn(void) { must(np_plan_fill(&whole, 1, 2, 4099, nodes, FILLED)); }

static void fill_local(void) { must(np_plan_fill(&whole, 2, 2, 4099, nodes, FILLED)); }

/* Moves all pages of nodes 0 to 2 to nodes 1 to 3, and back. */
static void move_pages(void) {
    static np_moves moves;
    must(np_pages_move_mems(&pages, TEXT("1-3"), &moves));
    kept += moves.moved;
    must(np_pages_move_mems(&pages, TEXT("0-2"), &moves));
    kept += moves.moved;
}

static void copy(void) {
    memcpy(nodes, other, FILLED);
    kept += nodes[kept % FILLED];
}

static void set(void) {
    memset(nodes, (int)(kept & 3), FILLED);
    kept += nodes[kept % FILLED];
}

/* How long a round takes, in ns. */
static double time_of(void (*round)(void)) {
    struct timespec start, end;
    clock_gettime(CLOCK_MONOTONIC, &start);
    round();
    clock_gettime(CLOCK_MONOTONIC, &end);
    return 1e9 * (double)(end.tv_sec - start.tv_sec) + (double)(end.tv_nsec - start.tv_nsec);
}

/* A line: a call and its baseline, round by round in turn; the best time of each by `calls`, how many
 * a round makes, and the ratio. */
static void compare(const char *call, void (*round)(void), const char *over, void (*base)(void),
                    int rounds, double calls) {
    double best = 1e18, least = 1e18;
    for (int k = 0; k < rounds; k++) {
        double took = time_of(round), needed = time_of(base);
        best = took < best ? took : best;
        least = needed < least ? needed : least;
    }
    printf("%-32s %10.1f ns   %-16s %10.1f ns   %.3f\n", call, best / calls, over, least / calls,
           best / least);
}

int main(void) {
    make_plans();
    compare("np_plan_choice, 65,536 ranges", choices, "binary search", searches, 60, ROUND);
    compare("np_plan_version", versions, "np_plan_choice", choices, 20, ROUND);
    compare("np_plan_fill, 1 MiB, in turn", fill_in_turn, "memcpy", copy, 400, 1);
    compare("np_plan_fill, 1 MiB, one node", fill_local, "memset", set, 400, 1);
    place_pages();
    compare("np_pages_move_mems, 65,536 runs", move_pages, "memcpy, 1 MiB", copy, 40, 2);
    np_plan_close(&spread);
    np_plan_close(&whole);
    np_pages_close(&pages);
    return 0;
}
