/* Each growth of a host's calls refused in turn, through the library's three functions of memory:
 * the call answers NP_NO_MEMORY and the host is as it was, or what it answers with memory; calls of
 * which the header says that they need none are never refused so; and no block is held at the end.
 * Not proved. */
#include "growths.h"
#include "numaplan_hosts.h"

#include <stdio.h>
#include <string.h>

#define TEXT NP_TEXT

/* What all handles keep. */
static np_host host, copy;
static np_plan plan;

enum { GROUPS = 4, PROCESSES = 4, RANGES = 6, RUNS = 8 };

/* What is seen of a host. */
struct seen {
    uint64_t version;
    size_t groups, processes, ranges[PROCESSES];
    np_group group[GROUPS];
    np_process process[PROCESSES];
    np_nodes nodes[GROUPS];
    struct {
        np_range range;
        uint8_t word[32], list[4];
        size_t length, count;
    } each[PROCESSES][RANGES];
    np_policy policy[PROCESSES];
    size_t runs[PROCESSES], flows[PROCESSES];
    np_page_run run[PROCESSES][RUNS];
    np_flow flow[PROCESSES][RUNS];
    np_bound bound[PROCESSES], all;
    size_t flows_of_all;
    np_flow flow_of_all[RUNS];
    uint64_t room[4];
    np_huge_pools pools;
};

static void see(np_host *one, struct seen *seen) {
    long before = left;
    left = -1;
    memset(seen, 0, sizeof *seen);
    np_host_version(one, &seen->version);
    np_host_groups(one, &seen->groups);
    for (size_t k = 0; k < seen->groups && k < GROUPS; k++) {
        np_host_group(one, k, &seen->group[k]);
        np_host_group_nodes(one, seen->group[k].group, &seen->nodes[k]);
    }
    for (uint32_t node = 0; node < 4; node++)
        np_host_room(one, node, &seen->room[node]);
    np_host_pools(one, &seen->pools);
    np_host_moves_of_all(one, seen->flow_of_all, RUNS, &seen->flows_of_all, &seen->all);
    np_host_processes(one, &seen->processes);
    for (size_t k = 0; k < seen->processes && k < PROCESSES; k++) {
        np_host_process(one, k, &seen->process[k]);
        uint32_t number = seen->process[k].process;
        np_host_ranges(one, number, &seen->ranges[k]);
        np_host_task_policy(one, number, 7, &seen->policy[k]);
        np_host_runs(one, number, seen->run[k], RUNS, &seen->runs[k]);
        np_host_moves(one, number, seen->flow[k], RUNS, &seen->flows[k], &seen->bound[k]);
        for (size_t r = 0; r < seen->ranges[k] && r < RANGES; r++) {
            np_host_range(one, number, r, &seen->each[k][r].range, seen->each[k][r].word, 32,
                          &seen->each[k][r].length);
            np_host_choice(one, number, 7, seen->each[k][r].range.start / 4096, 0,
                           seen->each[k][r].list, 4, &seen->each[k][r].count);
        }
    }
    left = before;
}

/* The calls of a round, one after the other. */
static uint32_t call(int which) {
    static const uint32_t frames[4] = {0, 0, 0, 0};
    static const uint8_t far[16] = {10, 20, 20, 20, 20, 10, 20, 20, 20, 20, 10, 20, 20, 20, 20, 10};
    static const np_limits limits = {64, 8, 1000};
    static const np_options options = {NP_RULES_DOCUMENT, NP_ORDERS_KERNEL, {{0, 0, 0, 0}}};
    np_arrived arrived;
    np_bound bound;
    np_flow flows[RUNS];
    np_page_run runs[RUNS];
    size_t count;
    uint32_t node;
    switch (which) {
    case 0: return np_host_open(&host, TEXT("0-3"), frames, 4, far, 16, &limits, &options);
    case 1: return np_host_new_group(&host, 5, 0);
    case 2: return np_host_new_group(&host, 6, 5);
    case 3: return np_host_set_group_mems(&host, 5, TEXT("1-2"));
    case 4: return np_host_new_process(&host, 1, 6);
    case 5: return np_host_map(&host, 1, 0x10000, 0x4000, 0x10);
    case 6: return np_host_mbind(&host, 1, 0x11000, 0x2000, TEXT("bind:1-2"));
    case 7: return np_host_set_task(&host, 1, 7, TEXT("weighted:1-2"));
    case 8: return np_host_set_home(&host, 1, 0x12000, 0x1000, 3);
    case 9: return np_host_inherit(&host, 1, 8, 7);
    case 10: return np_host_set_weight(&host, 1, 3);
    case 11: return np_host_fork(&host, 1, 2, 8, 7);
    case 12: return np_host_unmap(&host, 2, 0x12000, 0x1000);
    case 13: return np_host_place(&host, 1, 0x10000, 0x2000, 1);
    case 14: return np_host_populate(&host, 1, 0x10000, 0x4000, 7, 0, &arrived);
    case 15: return np_host_mbind_strictly(&host, 1, 0x10000, 0x1000, TEXT("bind:1"));
    case 16: return np_host_mbind_moving(&host, 1, 0x10000, 0x4000, TEXT("interleave:1-2"), true, 7,
                                         0, &bound);
    case 17: return np_host_migrate(&host, 1, TEXT("1"), TEXT("2"), &bound);
    case 18: return np_host_move(&host, 1, 0x11000, 1);
    case 19: return np_host_runs(&host, 1, runs, RUNS, &count);
    case 20: return np_host_moves(&host, 1, flows, RUNS, &count, &bound);
    case 21: return np_host_moves_of_all(&host, flows, RUNS, &count, &bound);
    case 22: return np_host_map_huge(&host, 1, 0x200000, 0x400000, 0);
    case 23: return np_host_populate(&host, 2, 0x10000, 0x2000, 7, 0, &arrived);
    case 24: return np_host_unmap(&host, 1, 0x12000, 0x1000);
    case 25: return np_host_copy(&host, &copy);
    case 26: return np_host_compile(&host, 2, &plan);
    case 27: return np_host_set_group_mems(&host, 6, TEXT("2-3"));
    case 28: return np_host_set_room(&host, 0, 5);
    case 29: return np_host_set_follows(&host, true);
    case 30: return np_host_attach(&host, 2, 0);
    case 31: return np_host_exit(&host, 1);
    case 32: return np_host_unset_group_mems(&host, 6);
    case 33: return np_host_pool_node(&host, 1, 3);
    case 34: return np_host_pool_in(&host, 2, 5);
    case 35: return np_host_pool_node_in(&host, 2, 0, 2);
    case 36: return np_host_pool(&host, 6);
    case 37: return np_host_pool_for(&host, 2, 5, 7, 0);
    case 38: return np_host_map_huge_for(&host, 2, 0x800000, 0x400000, 0, 7, true);
    case 39: return np_host_map_huge_for(&host, 2, 0x1000000, 0x200000, 0, 7, false);
    case 40: return np_host_fault(&host, 2, 7, 0x800000, 0, &node);
    case 41: return np_host_fault(&host, 2, 7, 0x13000, 0, &node);
    case 42: return np_host_new_process(&host, 3, 0);
    case 43: return np_host_map(&host, 3, 0x10000, 0x2000, 0x10);
    case 44: return np_host_fault(&host, 3, 7, 0x10000, 0, &node);
    case 45: return np_host_populate(&host, 2, 0x800000, 0x400000, 7, 0, &arrived);
    case 46: return np_host_fork(&host, 2, 4, 7, 7);
    case 47: return np_host_unmap(&host, 2, 0xa00000, 0x200000);
    case 48: return np_host_fault(&host, 4, 7, 0x800000, 0, &node);
    case 49: return np_host_runs(&host, 4, runs, RUNS, &count);
    case 50: return np_host_moves(&host, 2, flows, RUNS, &count, &bound);
    case 51: return np_host_mbind_moving(&host, 2, 0x800000, 0x200000, TEXT("bind:3"), true, 7, 0,
                                         &bound);
    case 52: return np_host_migrate(&host, 2, TEXT("0-3"), TEXT("0"), &bound);
    case 53: return np_host_attach(&host, 2, 6);
    case 54: return np_host_exit(&host, 4);
    default: return NP_UNKNOWN;
    }
}
enum { CALLS = 55 };

/* Whether the header says that a call needs no memory. */
static bool is_free(int which) {
    return which == 3 || which == 10 || (which >= 27 && which <= 37) || which >= 53;
}

/* Makes the calls of a round; each is first refused each of its growths. How many were refused, -1
 * where something is wrong. */
static long play(void) {
    static struct seen before, after, of_copy, then;
    long growths = 0;
    for (int which = 0; which < CALLS; which++) {
        uint32_t code = NP_NO_MEMORY;
        for (long growth = 0; code == NP_NO_MEMORY; growth++) {
            see(&host, &before);
            see(&copy, &of_copy);
            left = growth;
            code = call(which);
            left = -1;
            see(&host, &after);
            see(&copy, &then);
            bool same = memcmp(&before, &after, sizeof before) == 0 &&
                        memcmp(&of_copy, &then, sizeof then) == 0;
            bool well = code == NP_NO_MEMORY ? same && !is_free(which) : code == NP_OK;
            if (!well) {
                printf("call %d, growth %ld: %u, %s\n", which, growth, code,
                       same ? "as it was" : "changed");
                return -1;
            }
            growths += code == NP_NO_MEMORY;
        }
    }
    np_host_close(&host);
    np_host_close(&copy);
    np_plan_close(&plan);
    return growths;
}

int main(void) {
    long growths = play();
    if (blocks != 0)
        printf("%ld blocks are held\n", blocks);
    printf("%ld growths\n", growths);
    return growths < 10 || blocks != 0;
}
