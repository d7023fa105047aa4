/* Each growth of the calls of a core with its pages refused in turn, through the library's three
 * functions of memory: the call answers NP_NO_MEMORY and all handles are as they were, or what it
 * answers with memory; calls of which the header says that they need none are never refused so;
 * and no block is held at the end. Not proved. */
#include "growths.h"
#include "numaplan_placed.h"

#include <stdio.h>
#include <string.h>

#define TEXT NP_TEXT

/* What all handles keep. */
static np_core core, taken;
static np_pages pages, copy;
static np_moves moves;
static np_bound bound;
static np_arrived arrived;
static np_page_run told[8];
static size_t count;
static uint32_t node;

/* What is seen of a core with its pages. */
struct seen {
    uint64_t version, rooms[4];
    np_counts counts;
    np_page_run runs[8];
    size_t run_count, ranges;
    np_range range[8];
    uint8_t word[8][32];
    np_policy policy;
    np_huge_pools pools;
};

static void see(np_pages *one, struct seen *seen) {
    long before = left;
    np_core within = {0};
    size_t length;
    left = -1;
    memset(seen, 0, sizeof *seen);
    np_pages_version(one, &seen->version);
    np_pages_counts(one, &seen->counts);
    np_pages_runs(one, seen->runs, 8, &seen->run_count);
    np_pages_pools(one, &seen->pools);
    for (uint32_t k = 0; k < 4; k++)
        np_pages_room(one, k, &seen->rooms[k]);
    if (np_pages_core(one, &within) == NP_OK) {
        np_core_ranges(&within, &seen->ranges);
        np_core_task_policy(&within, 7, &seen->policy);
        for (size_t k = 0; k < seen->ranges && k < 8; k++)
            np_core_range(&within, k, &seen->range[k], seen->word[k], 32, &length);
    }
    np_core_close(&within);
    left = before;
}

/* The calls of a round, one after the other. */
static uint32_t call(int which) {
    static const uint32_t frames[4] = {2, 0, 0, 2};
    static const uint8_t far[16] = {10, 20, 20, 20, 20, 10, 20, 20, 20, 20, 10, 20, 20, 20, 20, 10};
    static const np_limits limits = {64, 8, 1000};
    static const uint64_t numbers[2] = {0x20, 0x10};
    static uint8_t nodes[2];
    switch (which) {
    case 0: return np_core_open(&core, TEXT("0-3"), frames, 4, far, 16, &limits, 1);
    case 1: return np_core_map(&core, 0x10000, 0x8000, 0x10);
    case 2: return np_pages_open(&pages, &core);
    case 3: return np_pages_place(&pages, 0x10000, 0x8000, 1);
    case 4: return np_pages_place(&pages, 0x11000, 0x2000, 2);
    case 5: return np_pages_place(&pages, 0x15000, 0x1000, 0);
    case 6: return np_pages_move_mems(&pages, TEXT("0-2"), &moves);
    case 7: return np_pages_migrate(&pages, TEXT("0-1"), TEXT("0-1"), &moves);
    case 8: return np_pages_set_mems(&pages, TEXT("0-3"));
    case 9: return np_pages_set_room(&pages, 3, 2);
    case 10: return np_pages_mbind(&pages, 0x10000, 0x1000, TEXT("bind:1-2"));
    case 11: return np_pages_mbind_strictly(&pages, 0x11000, 0x2000, TEXT("interleave:1-2"));
    case 12: return np_pages_set_task(&pages, 7, TEXT("weighted:1-2"));
    case 13: return np_pages_inherit(&pages, 8, 7);
    case 14: return np_pages_set_home(&pages, 0x10000, 0x1000, 3);
    case 15: return np_pages_set_weight(&pages, 1, 3);
    case 16: return np_pages_copy(&pages, &copy);
    case 17: return np_pages_migrate(&pages, TEXT("1"), TEXT("3"), &moves);
    case 18: return np_pages_move(&pages, 0x17000, 0);
    case 19: return np_pages_map(&pages, 0x20000, 0x2000, 0x20);
    case 20: return np_pages_unmap(&pages, 0x12000, 0x1000);
    case 21: return np_pages_move_mems(&pages, TEXT("1-3"), &moves);
    case 22: return np_pages_set_mems(&pages, TEXT("0-2"));
    case 23: return np_pages_core(&pages, &taken);
    case 24: return np_pages_runs(&pages, told, 8, &count);
    case 25:
        return np_pages_mbind_moving(&pages, 0x10000, 0x2000, TEXT("bind:0"), true, 7, 0, &bound);
    case 26: return np_pages_set_room(&pages, 2, 2);
    case 27: return np_pages_place(&pages, 0x16000, 0x1000, 2);
    case 28: return np_pages_populate(&pages, 0x20000, 0x2000, 7, 0, &arrived);
    case 29: return np_pages_unmap(&pages, 0x21000, 0x1000);
    case 30: return np_pages_unmap(&pages, 0x10000, 0);
    case 31: return np_pages_mbind(&pages, 0x10000, 0, TEXT("bind:2"));
    case 32: return np_pages_mbind_strictly(&pages, 0x10000, 0, TEXT("bind:2"));
    case 33: return np_pages_set_home(&pages, 0x10000, 0, 3);
    case 34: return np_pages_set_task(&pages, 8, TEXT("default"));
    case 35: return np_pages_nodes(&pages, numbers, 2, nodes, 2, 255);
    case 36: return np_pages_pool_node(&pages, 2, 3);
    case 37: return np_pages_pool_node(&pages, 1, 1);
    case 38: return np_pages_map_huge(&pages, 0x400000, 0x600000, 0, 7, true);
    case 39: return np_pages_map_huge(&pages, 0xa00000, 0x200000, 512, 7, false);
    case 40: return np_pages_fault(&pages, 7, 0x400000, 0, &node);
    case 41: return np_pages_map(&pages, 0x30000, 0x2000, 0x30);
    case 42: return np_pages_fault(&pages, 7, 0x31000, 0, &node);
    case 43: return np_pages_populate(&pages, 0x600000, 0x200000, 7, 0, &arrived);
    case 44:
        return np_pages_mbind_moving(&pages, 0x400000, 0x400000, TEXT("bind:0"), true, 7, 0,
                                     &bound);
    case 45: return np_pages_unmap(&pages, 0x600000, 0x200000);
    case 46: return np_pages_pool(&pages, 6);
    case 47: return np_pages_pool_for(&pages, 4, 7, 0);
    default: return NP_UNKNOWN;
    }
}
enum { CALLS = 48 };

/* Whether the header says that a call needs no memory. */
static bool is_free(int which) {
    return (6 <= which && which <= 9) || which == 15 || which == 22 || which == 26 ||
           (30 <= which && which <= 37) || 46 <= which;
}

/* Whether two sights are the same. */
static bool is_same(const struct seen *one, const struct seen *other) {
    return memcmp(one, other, sizeof *one) == 0;
}

/* Makes the calls of a round; each is first refused each of its growths. How many were refused, -1
 * where something is wrong. */
static long play(void) {
    static struct seen before, after, of_copy, then;
    long growths = 0;
    for (int which = 0; which < CALLS; which++) {
        uint32_t code = NP_NO_MEMORY;
        for (long growth = 0; code == NP_NO_MEMORY; growth++) {
            see(&pages, &before);
            see(&copy, &of_copy);
            memset(&moves, 9, sizeof moves);
            memset(&bound, 9, sizeof bound);
            memset(&arrived, 9, sizeof arrived);
            memset(&node, 9, sizeof node);
            left = growth;
            code = call(which);
            left = -1;
            see(&pages, &after);
            see(&copy, &then);
            bool same = is_same(&before, &after) && is_same(&of_copy, &then);
            bool untold = moves.moved == UINT64_C(0x0909090909090909) &&
                          bound.moved == moves.moved && arrived.placed == moves.moved &&
                          node == UINT32_C(0x09090909);
            bool well = code == NP_NO_MEMORY ? same && untold && !is_free(which) : code == NP_OK;
            if (!well) {
                printf("call %d, growth %ld: %u, %s\n", which, growth, code,
                       same ? "as it was" : "changed");
                return -1;
            }
            growths += code == NP_NO_MEMORY;
        }
    }
    np_core_close(&core);
    np_core_close(&taken);
    np_pages_close(&pages);
    np_pages_close(&copy);
    return growths;
}

int main(void) {
    long growths = play();
    if (blocks != 0)
        printf("%ld blocks are held\n", blocks);
    printf("%ld growths\n", growths);
    return growths < 20 || blocks != 0;
}
