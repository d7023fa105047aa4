/* Pages of 2 MiB of a host's processes from C, and the pools that all share. The values are those of
 * two kernels, 6.12 and 6.1 (the lines of tests/worked/hosts that say so), and of docs/SCRIPT.md by
 * hand. Prints what is wrong; not proved. */
#include "numaplan_hosts.h"
#include "want.h"

#include <stdio.h>
#include <string.h>

#define TEXT NP_TEXT
#define MIB UINT64_C(0x100000)
#define AT UINT64_C(0x240000000)
#define FURTHER UINT64_C(0x280000000)
#define MANY UINT32_MAX

/* Four nodes, with a kernel's orders and rules. */
static void open_host(np_host *host, uint32_t commands) {
    static const uint32_t frames[4] = {0, 0, 0, 0};
    static const uint8_t far[16] = {10, 12, 20, 22, 12, 10, 20, 21, 20, 20, 10, 13, 22, 21, 13, 10};
    const np_limits limits = {64, 4, commands};
    const np_options options = {.rules = NP_RULES_LINUX, .orders = NP_ORDERS_KERNEL};
    WANT(np_host_open(host, TEXT("0-3"), frames, 4, far, 16, &limits, &options), NP_OK);
}

/* The pools, as a script shows them. */
static void pools_are(np_host *host, int line, const char *wanted) {
    static np_huge_pools told;
    char text[256];
    int length = 0;
    WANT(np_host_pools(host, &told), NP_OK);
    for (int node = 0; node < 4; node++) {
        length += sprintf(text + length, "N%d=%llu/%llu", node, (unsigned long long)told.free[node],
                          (unsigned long long)told.total[node]);
        if (told.surplus[node])
            length += sprintf(text + length, "+%llu", (unsigned long long)told.surplus[node]);
        length += sprintf(text + length, " ");
    }
    sprintf(text + length, "reserved %llu", (unsigned long long)told.reserved);
    if (strcmp(text, wanted) != 0 || told.total[4] || told.free[255]) {
        printf("line %d: the pools are %s, not %s\n", line, text, wanted);
        wrong = 1;
    }
}
#define POOLS(wanted) pools_are(&host, __LINE__, wanted)

/* The node where a page lies that a task of a process touches, or 100 and more: why it doesn't. */
static uint32_t fault(np_host *host, uint32_t process, uint32_t task, uint64_t address,
                      uint32_t cpu) {
    uint32_t node = 9, code = np_host_fault(host, process, task, address, cpu, &node);
    if (code != NP_OK)
        WANT(node, 9);
    return code == NP_OK ? node : code;
}

/* How many pages of 4 KiB of a process lie on a node. */
static uint64_t count_on(np_host *host, uint32_t process, uint32_t node) {
    static np_counts counts;
    WANT(np_host_counts(host, process, &counts), NP_OK);
    return counts.pages[node];
}

/* What one process has reserved lacks for another; forks, groups and ends. */
static void shared(void) {
    static np_arrived told;
    np_host host = {0}, copy = {0};
    np_flow flows[4];
    np_bound bound;
    np_page_run runs[4];
    uint64_t version;
    size_t count;
    open_host(&host, MANY);
    POOLS("N0=0/0 N1=0/0 N2=0/0 N3=0/0 reserved 0");
    WANT(np_host_pool_node(&host, 0, 3), NP_OK);
    WANT(np_host_pool_node(&host, 1, 2), NP_OK);
    WANT(np_host_pool_node(&host, 3, 4), NP_OK);
    POOLS("N0=3/3 N1=2/2 N2=0/0 N3=4/4 reserved 0");
    WANT(np_host_new_process(&host, 1, 0), NP_OK);
    WANT(np_host_new_process(&host, 2, 0), NP_OK);
    /* (as two kernels answered, up to the pools with one reserved) */
    WANT(np_host_set_task(&host, 1, 1, TEXT("bind:0")), NP_OK);
    WANT(np_host_map_huge_for(&host, 1, AT, 8 * MIB, 0, 1, true), NP_NO_HUGE_PAGES);
    WANT(np_host_map_huge_for(&host, 1, AT, 6 * MIB, 0, 1, true), NP_OK);
    WANT(np_host_set_task(&host, 1, 1, TEXT("default")), NP_OK);
    WANT(fault(&host, 1, 1, AT, 3), 3);
    WANT(fault(&host, 1, 1, AT + 2 * MIB, 3), 3);
    POOLS("N0=3/3 N1=2/2 N2=0/0 N3=2/4 reserved 1");
    /* seven are left, of which one is reserved */
    WANT(np_host_map_huge_for(&host, 2, AT, 14 * MIB, 0, 1, true), NP_NO_HUGE_PAGES);
    WANT(np_host_map_huge_for(&host, 2, AT, 12 * MIB, 0, 1, true), NP_OK);
    WANT(np_host_map_huge_for(&host, 2, FURTHER, 2 * MIB, 0, 1, true), NP_NO_HUGE_PAGES);
    WANT(np_host_map_huge_for(&host, 2, FURTHER, 2 * MIB, 0, 1, false), NP_OK);
    WANT(fault(&host, 2, 1, FURTHER, 0), NP_NO_PAGE_FREE);
    POOLS("N0=3/3 N1=2/2 N2=0/0 N3=2/4 reserved 7");
    /* a child has mapped what its parent has, untouched and without a reservation */
    WANT(np_host_fork(&host, 2, 3, 1, 2), NP_OK);
    WANT(fault(&host, 3, 2, AT, 3), NP_NO_PAGE_FREE);
    WANT(np_host_copy(&host, &copy), NP_OK);
    WANT(np_host_unmap(&host, 2, AT, 4 * MIB), NP_OK);
    WANT(fault(&host, 3, 2, AT, 3), 3);
    POOLS("N0=3/3 N1=2/2 N2=0/0 N3=1/4 reserved 5");
    WANT(count_on(&host, 3, 3), 512);
    WANT(count_on(&host, 2, 3), 0);
    pools_are(&copy, __LINE__, "N0=3/3 N1=2/2 N2=0/0 N3=2/4 reserved 7");
    np_host_close(&copy);
    /* its pages follow the nodes of its group */
    WANT(np_host_new_group(&host, 5, 0), NP_OK);
    WANT(np_host_set_group_mems(&host, 5, TEXT("1")), NP_OK);
    WANT(np_host_attach(&host, 3, 5), NP_OK);
    WANT(np_host_moves(&host, 3, flows, 4, &count, &bound), NP_OK);
    WANT(count * 1000 + bound.moved * 100 + bound.left, 1100);
    WANT(flows[0].pages * 100 + flows[0].from * 10 + flows[0].to, 131);
    WANT(np_host_moves(&host, 1, flows, 4, &count, &bound), NP_OK);
    WANT(count + bound.moved + bound.left, 0);
    WANT(np_host_set_group_mems(&host, 5, TEXT("2")), NP_OK);
    WANT(np_host_moves_of_all(&host, flows, 4, &count, &bound), NP_OK);
    WANT(count * 1000 + bound.moved * 100 + flows[0].from * 10 + flows[0].to, 1112);
    POOLS("N0=3/3 N1=1/1 N2=0/1 N3=2/4 reserved 5");
    /* who is allowed node 2 alone makes fresh pages there; the host makes them on all nodes */
    WANT(np_host_pool_in(&host, 3, 12), NP_OK);
    POOLS("N0=3/3 N1=1/1 N2=3/4 N3=2/4 reserved 5");
    WANT(np_host_pool(&host, 14), NP_OK);
    POOLS("N0=4/4 N1=1/1 N2=3/4 N3=3/5 reserved 5");
    WANT(np_host_pool_node_in(&host, 3, 0, 4), NP_OK);
    POOLS("N0=4/4 N1=1/1 N2=3/4 N3=3/5 reserved 5");
    WANT(np_host_pool_for(&host, 3, 13, 2, 0), NP_OK);
    POOLS("N0=3/3 N1=1/1 N2=3/4 N3=3/5 reserved 5");
    /* pages of both sizes of one process move, and are told together */
    WANT(np_host_map(&host, 1, 0x10000, 0x3000, 0x10), NP_OK);
    WANT(np_host_populate(&host, 1, 0x10000, 0x3000, 1, 0, &told), NP_OK);
    WANT(told.placed * 10 + told.nodes[0], 33);
    WANT(np_host_populate(&host, 1, AT, 6 * MIB, 1, 0, &told), NP_OK);
    WANT(told.placed * 100 + told.exhausted * 10 + told.nodes[0], 101);
    WANT(fault(&host, 1, 1, 0x11000, 3), 0);
    WANT(np_host_version(&host, &version), NP_OK);
    WANT(version, 14);
    WANT(count_on(&host, 1, 0) * 10000 + count_on(&host, 1, 3), 5151024);
    WANT(np_host_runs(&host, 1, runs, 4, &count), NP_OK);
    WANT(count, 3);
    WANT(runs[0].first * 1000 + runs[0].pages * 10 + runs[0].node, 16030);
    WANT(runs[1].first, AT / 4096);
    WANT(runs[1].pages * 10 + runs[1].node, 10243);
    WANT(runs[2].pages * 10 + runs[2].node, 5120);
    WANT(np_host_migrate(&host, 1, TEXT("0,3"), TEXT("1-2"), &bound), NP_OK);
    WANT(bound.moved * 10 + bound.left, 60);
    WANT(np_host_moves(&host, 1, flows, 4, &count, &bound), NP_OK);
    WANT(count * 100 + bound.moved * 10 + bound.left, 260);
    WANT(flows[0].pages * 100 + flows[0].from * 10 + flows[0].to, 401);
    WANT(flows[1].pages * 100 + flows[1].from * 10 + flows[1].to, 232);
    WANT(np_host_move(&host, 1, AT, 0), NP_OK);
    WANT(np_host_mbind_strictly(&host, 1, AT, 6 * MIB, TEXT("bind:3")), NP_ASTRAY);
    WANT(np_host_mbind_moving(&host, 1, AT, 6 * MIB, TEXT("bind:3"), false, 1, 0, &bound), NP_OK);
    WANT(bound.moved * 100 + bound.left * 10 + bound.error, 300);
    POOLS("N0=3/3 N1=1/1 N2=3/4 N3=2/5 reserved 4");
    WANT(np_host_unmap(&host, 1, AT + 4096, 4096), NP_UNALIGNED);
    /* who ends gives pages and reservations back */
    WANT(np_host_exit(&host, 2), NP_OK);
    POOLS("N0=3/3 N1=1/1 N2=3/4 N3=2/5 reserved 0");
    WANT(np_host_exit(&host, 3), NP_OK);
    WANT(np_host_exit(&host, 1), NP_OK);
    POOLS("N0=3/3 N1=1/1 N2=4/4 N3=5/5 reserved 0");
    np_host_close(&host);
}

/* Where each part of a page lies, and those of 4 KiB beside it. */
static void parts(void) {
    static const uint64_t numbers[5] = {0x400, 0x401, 0x5ff, 0x3ff, 0x600};
    np_host host = {0};
    uint8_t nodes[5];
    uint32_t node = 9;
    open_host(&host, MANY);
    WANT(np_host_new_process(&host, 1, 0), NP_OK);
    WANT(np_host_pool_node(&host, 2, 1), NP_OK);
    WANT(np_host_map_huge_for(&host, 1, 0x400000, 2 * MIB, 0, 1, true), NP_OK);
    WANT(np_host_map(&host, 1, 0x600000, 4096, 0), NP_OK);
    /* no page of 4 KiB lies anywhere yet */
    WANT(np_host_nodes(&host, 1, numbers, 5, nodes, 5, 7), NP_OK);
    WANT(memcmp(nodes, "\7\7\7\7\7", 5), 0);
    WANT(fault(&host, 1, 1, 0x5fffff, 0), 2);
    WANT(np_host_nodes(&host, 1, numbers, 5, nodes, 5, 7), NP_OK);
    WANT(memcmp(nodes, "\2\2\2\7\7", 5), 0);
    WANT(np_host_place(&host, 1, 0x600000, 4096, 3), NP_OK);
    WANT(np_host_nodes(&host, 1, numbers, 5, nodes, 5, 7), NP_OK);
    WANT(memcmp(nodes, "\2\2\2\7\3", 5), 0);
    WANT(np_host_node(&host, 1, 0x401fff, &node), NP_OK);
    WANT(node, 2);
    WANT(np_host_place(&host, 1, 0x400000, 4096, 3), NP_NOT_SUPPORTED);
    WANT(count_on(&host, 1, 2) * 10 + count_on(&host, 1, 3), 5121);
    np_host_close(&host);
}

/* What is refused, each cause before those behind it, and that nothing has changed then. */
static void refusals(void) {
    static np_huge_pools told;
    np_host host = {0};
    uint32_t node = 9;
    open_host(&host, 4);
    WANT(np_host_new_process(&host, 1, 0), NP_OK);
    WANT(np_host_pool_node(&host, 4, 1), NP_NO_SUCH_POOL);
    WANT(np_host_pool_node(&host, MANY, 1), NP_NO_SUCH_POOL);
    WANT(np_host_pool_node(&host, 1, 2), NP_OK);
    WANT(np_host_pool_in(&host, 7, 9), NP_NO_SUCH_PROCESS);
    WANT(np_host_pool_node_in(&host, 7, 9, 9), NP_NO_SUCH_PROCESS);
    WANT(np_host_pool_node_in(&host, 1, 9, 9), NP_NO_SUCH_POOL);
    WANT(np_host_pool_for(&host, 7, 9, 1, 9), NP_NO_SUCH_PROCESS);
    WANT(np_host_pool_for(&host, 1, 9, 1, 4), NP_NO_SUCH_CPU);
    WANT(np_host_map_huge_for(&host, 7, 1, 1, 0, 1, true), NP_NO_SUCH_PROCESS);
    WANT(np_host_map_huge_for(&host, 1, 4096, 1, 0, 1, true), NP_UNALIGNED);
    WANT(np_host_map_huge_for(&host, 1, 0x400000, 0, 0, 1, true), NP_EMPTY_LENGTH);
    WANT(np_host_map_huge_for(&host, 1, 0x400000, 6 * MIB, 0, 1, true), NP_NO_HUGE_PAGES);
    WANT(np_host_map_huge_for(&host, 1, 0x400000, 2 * MIB, 0, 1, true), NP_OK);
    WANT(np_host_map_huge_for(&host, 1, 0x400000, 1, 0, 1, true), NP_OVERLAP);
    WANT(np_host_map(&host, 1, 0x1000, 4096, 1), NP_OK);
    WANT(fault(&host, 7, 1, 0, 9), NP_NO_SUCH_PROCESS);
    WANT(fault(&host, 1, 1, 0, 4), NP_NO_SUCH_CPU);
    WANT(fault(&host, 1, 1, 0, 3), NP_PAGE_UNMAPPED);
    WANT(np_host_set_room(&host, 0, 0), NP_OK);
    WANT(np_host_set_task(&host, 1, 1, TEXT("bind:0")), NP_OK);
    WANT(fault(&host, 1, 1, 0x1000, 3), NP_NODES_FULL);
    WANT(fault(&host, 1, 1, 0x400000, 3), NP_NO_PAGE_FREE);
    POOLS("N0=0/0 N1=2/2 N2=0/0 N3=0/0 reserved 1");
    /* no more commands; pages may still be touched */
    WANT(np_host_map_huge_for(&host, 7, 1, 1, 0, 1, true), NP_COMMANDS_SPENT);
    WANT(fault(&host, 1, 2, 0x1000, 3), 3);
    WANT(fault(&host, 1, 2, 0x400000, 3), 1);
    /* surplus pages, and where a kernel's own counters go wild */
    WANT(np_host_pool(&host, 0), NP_OK);
    POOLS("N0=0/0 N1=0/1+1 N2=0/0 N3=0/0 reserved 0");
    np_host_close(&host);
    memset(&told, 9, sizeof told);
    WANT(np_host_pools(&host, &told), NP_CLOSED);
    WANT(told.reserved, UINT64_C(0x0909090909090909));
    WANT(np_host_pool(&host, 1), NP_CLOSED);
    WANT(np_host_pool_node(&host, 9, 1), NP_CLOSED);
    WANT(np_host_pool_in(&host, 1, 1), NP_CLOSED);
    WANT(np_host_pool_node_in(&host, 1, 9, 1), NP_CLOSED);
    WANT(np_host_pool_for(&host, 1, 1, 1, 9), NP_CLOSED);
    WANT(np_host_map_huge_for(&host, 1, 1, 1, 0, 1, true), NP_CLOSED);
    WANT(np_host_fault(&host, 1, 1, 0, 9, &node), NP_CLOSED);
    WANT(node, 9);
}

int main(void) {
    shared();
    parts();
    refusals();
    return wrong;
}
