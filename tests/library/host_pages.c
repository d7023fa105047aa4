/* Pages of a host's processes from C: where they lie, and where they go. The values are those of
 * docs/SCRIPT.md, cpusets(7), migrate_pages(2), move_pages(2), mbind(2) and madvise(2), by hand.
 * Prints what is wrong; not proved. */
#include "numaplan_hosts.h"
#include "want.h"

#include <string.h>

#define TEXT NP_TEXT
#define BASE 0x10000 /* (page 16) */

static const uint32_t frames[5] = {0, 0, 0, 0, 0};
static const uint8_t distances[25] = {10, 20, 20, 20, 20, 20, 10, 20, 20, 20, 20, 20, 10,
                                      20, 20, 20, 20, 20, 10, 20, 20, 20, 20, 20, 10};

/* Five nodes, of which 4 has no memory, each as far from each other, and so many commands. */
static void open_host_by(np_host *host, uint32_t commands, uint32_t rules) {
    const np_limits limits = {64, 4, commands};
    const np_options options = {.rules = rules};
    WANT(np_host_open(host, TEXT("0-3"), frames, 5, distances, 25, &limits, &options), NP_OK);
}

static void open_host(np_host *host, uint32_t commands) {
    open_host_by(host, commands, NP_RULES_DOCUMENT);
}

/* A process of a group with four mapped pages from 16 on, whose task 1 takes a node alone. */
static void add_process(np_host *host, uint32_t process, uint32_t group, const char *policy) {
    WANT(np_host_new_process(host, process, group), NP_OK);
    WANT(np_host_map(host, process, BASE, 0x4000, 0x10), NP_OK);
    WANT(np_host_set_task(host, process, 1, TEXT(policy)), NP_OK);
}

static uint64_t version_of(np_host *host) {
    uint64_t version = 99;
    WANT(np_host_version(host, &version), NP_OK);
    return version;
}

static uint64_t room_of(np_host *host, uint32_t node) {
    uint64_t room = 77;
    WANT(np_host_room(host, node, &room), NP_OK);
    return room;
}

/* The nodes of the four pages of a process, as digits from a leading 7; 9 is nowhere. */
static unsigned nodes_of(np_host *host, uint32_t process) {
    static const uint64_t numbers[4] = {16, 17, 18, 19};
    uint8_t nodes[4] = {8, 8, 8, 8};
    unsigned digits = 7;
    WANT(np_host_nodes(host, process, numbers, 4, nodes, 4, 9), NP_OK);
    for (uint64_t k = 0; k < 4; k++) {
        uint32_t node = 9, code = np_host_node(host, process, (16 + k) * 4096 + 5, &node);
        WANT(code, node == 9 ? NP_NOT_PLACED : NP_OK);
        WANT(node, nodes[k]);
        digits = digits * 10 + nodes[k];
    }
    return digits;
}

/* madvise(2) with MADV_POPULATE_WRITE: placed, and exhausted, as two digits. */
static unsigned touched(np_host *host, uint32_t process, uint64_t length, uint32_t cpu) {
    np_arrived told;
    uint64_t version = version_of(host), sum = 0;
    memset(&told, 9, sizeof told);
    WANT(np_host_populate(host, process, BASE, length, 1, cpu, &told), NP_OK);
    WANT(version_of(host), version);
    for (size_t node = 0; node < 256; node++)
        sum += told.nodes[node];
    WANT(sum, told.placed);
    return (unsigned)(told.placed * 10 + told.exhausted);
}

/* The last move of a process, or of all (which 0 stands for): moved and left, and of each flow from,
 * to and pages, as digits from a leading 7. */
static unsigned long long moves_of(np_host *host, uint32_t process) {
    np_flow flows[8];
    np_bound bound = {9, 9, 9};
    size_t count = 99;
    WANT(process == 0 ? np_host_moves_of_all(host, flows, 8, &count, &bound)
                      : np_host_moves(host, process, flows, 8, &count, &bound), NP_OK);
    WANT(bound.error, 0);
    unsigned long long digits = 700 + bound.moved * 10 + bound.left;
    for (size_t k = 0; k < count && k < 8; k++)
        digits = digits * 1000 + flows[k].from * 100 + flows[k].to * 10 + flows[k].pages;
    return digits;
}

/* The lines of docs/SCRIPT.md from `populate` on, and then a copy that goes on by itself. */
static void worked(void) {
    np_host host = {0}, copy = {0};
    np_page_run run;
    np_counts counts;
    size_t count = 99;
    open_host(&host, UINT32_MAX);
    WANT(np_host_new_group(&host, 5, 0), NP_OK);
    WANT(np_host_set_group_mems(&host, 5, TEXT("1-2")), NP_OK);
    WANT(np_host_new_process(&host, 1, 5), NP_OK);
    WANT(np_host_map(&host, 1, BASE, 0x1000, 0x10), NP_OK);
    WANT(np_host_set_task(&host, 1, 7, TEXT("bind:2")), NP_OK);
    WANT(np_host_fork(&host, 1, 2, 7, 9), NP_OK);
    WANT(np_host_set_group_mems(&host, 5, TEXT("2-3")), NP_OK);
    WANT(np_host_attach(&host, 2, 0), NP_OK);
    np_arrived told;
    WANT(np_host_populate(&host, 1, BASE, 0x1000, 7, 0, &told), NP_OK);
    WANT(told.placed * 100 + told.exhausted * 10 + told.nodes[3], 101);
    WANT(np_host_populate(&host, 2, BASE, 0x1000, 9, 0, &told), NP_OK);
    WANT(told.placed * 100 + told.exhausted * 10 + told.nodes[1], 101);
    WANT(moves_of(&host, 1), 700);
    WANT(np_host_copy(&host, &copy), NP_OK);
    WANT(np_host_set_group_mems(&host, 5, TEXT("0-1")), NP_OK);
    WANT(version_of(&host), 9);
    /* the second of 2 to 3 is then the second of 0 to 1; the root's process stays */
    WANT(moves_of(&host, 1), 710311);
    WANT(moves_of(&host, 2), 700);
    WANT(moves_of(&host, 0), 710311);
    WANT(nodes_of(&host, 1), 71999);
    WANT(nodes_of(&host, 2), 71999);
    WANT(np_host_counts(&host, 1, &counts), NP_OK);
    WANT(counts.pages[1] * 10 + counts.pages[3], 10);
    WANT(np_host_runs(&host, 1, &run, 1, &count), NP_OK);
    WANT(count * 10000 + run.first * 100 + run.pages * 10 + run.node, 11611);
    /* the copy's pages lie as they did, and go by themselves */
    WANT(nodes_of(&copy, 1), 73999);
    WANT(np_host_attach(&copy, 1, 0), NP_OK);
    /* of two allowed nodes to four, 3 stays allowed */
    WANT(nodes_of(&copy, 1), 73999);
    WANT(np_host_exit(&copy, 1), NP_OK);
    WANT(nodes_of(&host, 1), 71999);
    np_host_close(&copy);
    np_host_close(&host);
}

/* Rooms are of all processes: what comes takes one, what leaves gives one back. */
static void rooms(void) {
    np_host host = {0};
    open_host(&host, UINT32_MAX);
    WANT(room_of(&host, 0) == NP_ENDLESS, 1);
    add_process(&host, 1, 0, "bind:0");
    add_process(&host, 2, 0, "bind:0");
    WANT(np_host_set_room(&host, 0, 3), NP_OK);
    WANT(touched(&host, 1, 0x2000, 0), 20);
    WANT(touched(&host, 2, 0x4000, 3), 13);
    WANT(nodes_of(&host, 1), 70099);
    WANT(nodes_of(&host, 2), 70999);
    WANT(room_of(&host, 0), 0);
    WANT(np_host_unmap(&host, 2, BASE, 0x1000), NP_OK);
    WANT(room_of(&host, 0), 1);
    WANT(nodes_of(&host, 2), 79999);
    /* a child has no page, and takes room when it writes */
    WANT(np_host_fork(&host, 1, 3, 1, 1), NP_OK);
    WANT(nodes_of(&host, 3), 79999);
    WANT(touched(&host, 3, 0x4000, 0), 13);
    WANT(room_of(&host, 0), 0);
    /* one that ends gives it back, to whichever process */
    WANT(np_host_exit(&host, 1), NP_OK);
    WANT(room_of(&host, 0), 2);
    WANT(np_host_place(&host, 2, BASE, 0x4000, 0), NP_NODE_FULL); /* (three are mapped) */
    WANT(np_host_place(&host, 2, BASE, 0x3000, 0), NP_OK);
    WANT(nodes_of(&host, 2), 79009);
    WANT(room_of(&host, 0), 0);
    WANT(np_host_set_room(&host, 0, NP_ENDLESS), NP_OK);
    WANT(touched(&host, 3, 0x4000, 0), 30);
    WANT(np_host_set_room(&host, 4, 1), NP_NO_SUCH_NODE); /* (without memory) */
    WANT(np_host_set_room(&host, 9, 1), NP_NO_SUCH_NODE);
    uint64_t room = 77;
    WANT(np_host_room(&host, 4, &room), NP_NO_SUCH_NODE);
    WANT(room, 77);
    np_host_close(&host);
}

/* Pages follow the allowed nodes: the group above first, in it as processes came to it. */
static void follows(void) {
    np_host host = {0};
    open_host(&host, UINT32_MAX);
    WANT(np_host_new_group(&host, 5, 0), NP_OK);
    WANT(np_host_new_group(&host, 6, 5), NP_OK);
    WANT(np_host_set_group_mems(&host, 5, TEXT("0-1")), NP_OK);
    add_process(&host, 1, 6, "bind:0");
    add_process(&host, 2, 5, "bind:0");
    WANT(touched(&host, 1, 0x2000, 0), 20);
    WANT(touched(&host, 2, 0x2000, 0), 20);
    WANT(np_host_set_room(&host, 2, 3), NP_OK);
    WANT(np_host_set_group_mems(&host, 5, TEXT("2-3")), NP_OK);
    /* process 2 is in the group above: its two pages go, and then one of process 1 */
    WANT(moves_of(&host, 2), 720022);
    WANT(moves_of(&host, 1), 711021);
    WANT(moves_of(&host, 0), 731023);
    WANT(nodes_of(&host, 2), 72299);
    WANT(nodes_of(&host, 1), 72099);
    WANT(room_of(&host, 2), 0);
    /* memory_migrate of 0: they stay */
    WANT(np_host_set_follows(&host, false), NP_OK);
    WANT(np_host_set_group_mems(&host, 5, TEXT("0-1")), NP_OK);
    WANT(nodes_of(&host, 2), 72299);
    WANT(moves_of(&host, 0), 700);
    WANT(np_host_set_follows(&host, true), NP_OK);
    /* to the root, where all nodes are allowed: they stay where they lie */
    WANT(np_host_attach(&host, 2, 0), NP_OK);
    WANT(nodes_of(&host, 2), 72299);
    np_host_close(&host);
}

/* migrate_pages(2), move_pages(2) and mbind(2) of a process. */
static void moved(void) {
    np_host host = {0};
    np_bound bound = {9, 9, 9};
    np_flow flows[2];
    size_t count = 99;
    open_host(&host, UINT32_MAX);
    add_process(&host, 1, 0, "bind:0");
    WANT(touched(&host, 1, 0x4000, 0), 40);
    WANT(np_host_migrate(&host, 1, TEXT("0"), TEXT("2"), &bound), NP_OK);
    WANT(bound.moved * 100 + bound.left * 10 + bound.error, 400);
    WANT(moves_of(&host, 1), 740024);
    WANT(np_host_move(&host, 1, BASE + 5, 0), NP_OK);
    WANT(nodes_of(&host, 1), 70222);
    WANT(moves_of(&host, 1), 710201);
    WANT(moves_of(&host, 0), 710201);
    /* one lies on another node than those of the list, as it is written */
    uint64_t version = version_of(&host);
    WANT(np_host_mbind_strictly(&host, 1, BASE, 0x4000, TEXT("bind:2")), NP_ASTRAY);
    WANT(version_of(&host), version);
    WANT(np_host_mbind_strictly(&host, 1, BASE + 0x1000, 0x3000, TEXT("bind:2")), NP_OK);
    /* the pages' indexes are 16 to 19: the even ones go to the first of the list */
    WANT(np_host_mbind_moving(&host, 1, BASE, 0x4000, TEXT("interleave:1,3"), true, 1, 0, &bound),
         NP_OK);
    WANT(bound.moved * 100 + bound.left * 10 + bound.error, 400);
    WANT(nodes_of(&host, 1), 71313);
    WANT(version_of(&host), version + 2);
    /* those of node 2 went to two nodes */
    WANT(moves_of(&host, 1), 740011211232);
    memset(flows, 9, sizeof flows);
    bound.moved = 9;
    WANT(np_host_moves(&host, 1, flows, 2, &count, &bound), NP_NO_ROOM);
    WANT(count * 100 + flows[0].from * 10 + bound.moved, 394);
    WANT(np_host_moves_of_all(&host, flows, 2, &count, &bound), NP_NO_ROOM);
    WANT(count, 3);
    /* none finds room: that is told, though the policy is set */
    WANT(np_host_set_room(&host, 0, 0), NP_OK);
    WANT(np_host_mbind_moving(&host, 1, BASE, 0x4000, TEXT("bind:0"), true, 1, 0, &bound), NP_OK);
    WANT(bound.moved * 100 + bound.left * 10 + bound.error, 45);
    np_host_close(&host);
}

/* Pages of 2 MiB, each of which is 512 pages here. */
static void huge(void) {
    enum { AT = 1 << 21 };
    np_host host = {0};
    np_arrived told;
    np_bound bound = {9, 9, 9};
    np_counts counts;
    open_host(&host, UINT32_MAX);
    WANT(np_host_new_process(&host, 1, 0), NP_OK);
    WANT(np_host_set_task(&host, 1, 1, TEXT("bind:1")), NP_OK);
    WANT(np_host_map_huge(&host, 1, AT, AT + 1, 0), NP_OK);
    WANT(np_host_map_huge(&host, 1, 4 * AT + 4096, 1, 0), NP_UNALIGNED);
    WANT(np_host_map_huge(&host, 7, AT, AT, 0), NP_NO_SUCH_PROCESS);
    WANT(np_host_populate(&host, 1, AT, 2 * AT, 1, 0, &told), NP_OK);
    WANT(told.placed * 1000 + told.exhausted, 1024000);
    WANT(np_host_migrate(&host, 1, TEXT("1"), TEXT("2"), &bound), NP_OK);
    WANT(bound.moved * 1000 + bound.left * 10 + bound.error, 1024000);
    /* none is unmapped in part */
    WANT(np_host_unmap(&host, 1, AT + 4096, 4096), NP_UNALIGNED);
    WANT(np_host_unmap(&host, 1, AT, AT), NP_OK);
    WANT(np_host_counts(&host, 1, &counts), NP_OK);
    WANT(counts.pages[1] * 1000 + counts.pages[2], 512);
    np_host_close(&host);
}

/* What is refused, each cause before those behind it, and that nothing has changed then. */
static void refusals(void) {
    static const uint64_t numbers[2] = {16, 17};
    np_host host = {0};
    np_arrived told;
    np_bound bound = {9, 9, 9};
    np_counts counts;
    np_page_run run;
    np_flow flow;
    uint8_t nodes[2] = {8, 8};
    uint32_t node = 9;
    size_t count = 99;
    open_host(&host, 5);
    WANT(np_host_new_group(&host, 5, 0), NP_OK);
    WANT(np_host_set_group_mems(&host, 5, TEXT("0-1")), NP_OK);
    add_process(&host, 1, 5, "bind:0");
    memset(&told, 9, sizeof told);
    /* a process that isn't there comes first, and a faulty list or word before it */
    WANT(np_host_place(&host, 7, BASE + 1, 0x1000, 9), NP_NO_SUCH_PROCESS);
    WANT(np_host_populate(&host, 7, BASE + 1, 0x1000, 1, 9, &told), NP_NO_SUCH_PROCESS);
    WANT(np_host_move(&host, 7, BASE, 9), NP_NO_SUCH_PROCESS);
    WANT(np_host_migrate(&host, 7, TEXT("0"), TEXT("3-1"), &bound), NP_LIST_BACKWARDS);
    WANT(np_host_migrate(&host, 7, TEXT("0"), TEXT("1"), &bound), NP_NO_SUCH_PROCESS);
    WANT(np_host_mbind_strictly(&host, 7, BASE, 1, TEXT("bend:0")), NP_UNKNOWN_MODE);
    WANT(np_host_node(&host, 7, BASE, &node), NP_NO_SUCH_PROCESS);
    WANT(np_host_nodes(&host, 7, numbers, 2, nodes, 1, 9), NP_NO_SUCH_PROCESS);
    WANT(np_host_counts(&host, 7, &counts), NP_NO_SUCH_PROCESS);
    WANT(np_host_runs(&host, 7, &run, 1, &count), NP_NO_SUCH_PROCESS);
    WANT(np_host_moves(&host, 7, &flow, 1, &count, &bound), NP_NO_SUCH_PROCESS);
    WANT(told.placed == 0x0909090909090909, 1);
    WANT(count * 100 + node * 10 + nodes[0] + bound.moved, 10007);
    /* as of an np_pages */
    WANT(np_host_place(&host, 1, BASE + 1, 0x1000, 9), NP_UNALIGNED);
    WANT(np_host_place(&host, 1, BASE, 0x1000, 4), NP_NO_SUCH_NODE);
    WANT(np_host_populate(&host, 1, BASE, 0x5000, 1, 9, &told), NP_NO_SUCH_CPU);
    WANT(np_host_populate(&host, 1, BASE, 0x5000, 1, 0, &told), NP_SPAN_UNMAPPED);
    WANT(np_host_migrate(&host, 1, TEXT("0"), TEXT("2"), &bound), NP_NODES_NOT_ALLOWED);
    WANT(np_host_move(&host, 1, 0, 4), NP_NO_SUCH_TARGET);
    WANT(np_host_move(&host, 1, 0, 2), NP_TARGET_NOT_ALLOWED);
    WANT(np_host_move(&host, 1, 0, 1), NP_PAGE_UNMAPPED);
    WANT(np_host_move(&host, 1, BASE, 1), NP_NOT_PLACED);
    WANT(np_host_set_room(&host, 1, 0), NP_OK);
    WANT(np_host_place(&host, 1, BASE, 0x1000, 1), NP_NODE_FULL);
    WANT(np_host_place(&host, 1, BASE, 0x1000, 0), NP_OK);
    WANT(np_host_move(&host, 1, BASE, 1), NP_NODE_FULL);
    WANT(np_host_nodes(&host, 1, numbers, 2, nodes, 1, 9), NP_NO_ROOM);
    WANT(nodes_of(&host, 1), 70999);
    WANT(version_of(&host), 5);
    /* no more commands; pages may still be touched */
    WANT(np_host_mbind_moving(&host, 1, BASE, 0x1000, TEXT("bind:1"), false, 1, 0, &bound),
         NP_COMMANDS_SPENT);
    WANT(touched(&host, 1, 0x4000, 0), 30);
    np_host_close(&host);
    WANT(np_host_set_room(&host, 0, 1), NP_CLOSED);
    WANT(np_host_set_follows(&host, true), NP_CLOSED);
    WANT(np_host_place(&host, 1, BASE, 0x1000, 0), NP_CLOSED);
    WANT(np_host_populate(&host, 1, BASE, 0x1000, 1, 0, &told), NP_CLOSED);
    WANT(np_host_node(&host, 1, BASE, &node), NP_CLOSED);
    WANT(np_host_moves(&host, 1, &flow, 1, &count, &bound), NP_CLOSED);
    WANT(np_host_moves_of_all(&host, &flow, 1, &count, &bound), NP_CLOSED);
    WANT(np_host_map_huge(&host, 1, 0, 1, 0), NP_CLOSED);
}

/* Commands by the system calls' own words do what those by text do; and an mbind of no bytes whose
 * mode, flag and nodes don't go together is refused by the documents alone, whatever way it is told. */
static void by_words(uint32_t rules) {
    static const np_nodes none = {{0, 0, 0, 0}}, one = {{2, 0, 0, 0}}, two = {{6, 0, 0, 0}};
    const uint32_t bind = 2, local = 4, relative = 0x4000;
    const uint32_t code = rules == NP_RULES_LINUX ? NP_OK : NP_FLAGS_FORBIDDEN;
    np_host host = {0};
    np_policy policy;
    np_bound bound = {9, 9, 9};
    WANT(np_host_mbind_by(&host, 1, BASE, 0x1000, bind, &none), NP_NODES_MISSING);
    WANT(np_host_home_by(&host, 1, BASE, 0x1000, 1, 2), NP_FLAGS_FORBIDDEN);
    WANT(np_host_mbind_by(&host, 1, BASE, 0x1000, bind, &one), NP_CLOSED);
    WANT(np_host_mbind(&host, 1, BASE, 0, TEXT("local=relative")), NP_FLAGS_FORBIDDEN);
    open_host_by(&host, UINT32_MAX, rules);
    add_process(&host, 1, 0, "bind:0");
    WANT(np_host_place(&host, 1, BASE, 0x2000, 1), NP_OK);
    WANT(np_host_place(&host, 1, BASE + 0x2000, 0x1000, 2), NP_OK);
    WANT(np_host_mbind_by(&host, 7, BASE, 0x4000, bind, &two), NP_NO_SUCH_PROCESS);
    WANT(np_host_mbind_by(&host, 1, BASE, 0x4000, bind, &two), NP_OK);
    WANT(np_host_mbind_strictly_by(&host, 1, BASE, 0x3000, bind, &one), NP_ASTRAY);
    WANT(np_host_mbind_strictly_by(&host, 1, BASE, 0x3000, bind, &two), NP_OK);
    WANT(np_host_mbind_moving_by(&host, 1, BASE, 0x3000, bind, &none, false, 1, 0, &bound),
         NP_NODES_MISSING);
    WANT(bound.moved, 9);
    WANT(np_host_mbind_moving_by(&host, 1, BASE, 0x3000, bind, &one, false, 1, 0, &bound), NP_OK);
    WANT(bound.moved, 1);
    WANT(nodes_of(&host, 1), 71119);
    WANT(np_host_home_by(&host, 1, BASE, 0x3000, 1, 0), NP_OK);
    WANT(np_host_set_task_by(&host, 1, 2, bind, &none), NP_NODES_MISSING);
    WANT(np_host_set_task_by(&host, 1, 2, bind | relative, &one), NP_OK);
    WANT(np_host_mbind(&host, 1, BASE, 0, TEXT("local=relative")), code);
    WANT(np_host_mbind_by(&host, 1, BASE, 0, local | relative, &none), code);
    WANT(np_host_mbind_strictly(&host, 1, BASE, 0, TEXT("local=relative")), code);
    WANT(np_host_mbind_strictly_by(&host, 1, BASE, 0, local | relative, &none), code);
    WANT(np_host_mbind_moving(&host, 1, BASE, 0, TEXT("local=relative"), true, 1, 0, &bound), code);
    WANT(np_host_mbind_moving_by(&host, 1, BASE, 0, local | relative, &none, true, 1, 0, &bound),
         code);
    /* a process that isn't there is looked for after that */
    WANT(np_host_mbind(&host, 7, BASE, 0, TEXT("local=relative")),
         code ? code : NP_NO_SUCH_PROCESS);
    WANT(np_host_mbind(&host, 1, BASE, 1, TEXT("local=relative")), NP_FLAGS_FORBIDDEN);
    WANT(nodes_of(&host, 1), 71119);
    WANT(np_host_task_policy(&host, 1, 2, &policy), NP_OK);
    WANT(policy.mode, bind | relative);
    /* (process, map, task; three of mbind, a home, a task; six of no bytes) */
    WANT(version_of(&host), rules == NP_RULES_LINUX ? 14 : 8);
    np_host_close(&host);
}

int main(void) {
    by_words(NP_RULES_DOCUMENT);
    by_words(NP_RULES_LINUX);
    worked();
    rooms();
    follows();
    moved();
    huge();
    refusals();
    return wrong;
}
