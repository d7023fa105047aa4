/* Hosts from C: groups, processes, forks and changes of a group's nodes. The values are those of
 * cpusets(7), cgroups(7), fork(2) and set_mempolicy(2), and of docs/SCRIPT.md, by hand. Prints what
 * is wrong; not proved. */
#include "numaplan_hosts.h"
#include "want.h"

#include <errno.h>
#include <string.h>

#define TEXT NP_TEXT
#define BEHIND 99 /* (what stands behind a list of nodes) */

static const uint32_t frames[4] = {0, 0, 0, 0};
static const uint8_t distances[16] = {10, 20, 20, 20, 20, 10, 20, 20,
                                      20, 20, 10, 20, 20, 20, 20, 10};
static const np_options documents = {0};

/* Four nodes with memory, each as far from each other, and so many commands. */
static void open_host(np_host *host, uint32_t commands) {
    const np_limits limits = {64, 2, commands};
    WANT(np_host_open(host, TEXT("0-3"), frames, 4, distances, 16, &limits, &documents), NP_OK);
}

/* The first nodes of a page's list, as decimal digits from a leading 1: 0 and 2 are 102. */
static unsigned first_nodes(np_host *host, uint32_t process, uint32_t task, uint64_t page,
                            uint32_t cpu, size_t most) {
    uint8_t nodes[257];
    size_t count = 0;
    memset(nodes, BEHIND, sizeof nodes);
    if (np_host_choice(host, process, task, page, cpu, nodes, 256, &count) ||
        nodes[count] != BEHIND)
        return 0;
    unsigned digits = 1;
    for (size_t k = 0; k < count && k < most; k++)
        digits = digits * 10 + nodes[k];
    return digits;
}

static uint64_t nodes_of_group(np_host *host, uint32_t group) {
    np_nodes nodes = {{9, 9, 9, 9}};
    WANT(np_host_group_nodes(host, group, &nodes), NP_OK);
    WANT(nodes.words[1] | nodes.words[2] | nodes.words[3], 0);
    return nodes.words[0];
}

static uint64_t version_of(np_host *host) {
    uint64_t version = 99;
    WANT(np_host_version(host, &version), NP_OK);
    return version;
}

/* The lines of docs/SCRIPT.md, and then a copy that goes on by itself. */
static void worked(void) {
    np_host host = {0}, copy = {0};
    open_host(&host, UINT32_MAX);
    WANT(np_host_new_group(&host, 5, 0), NP_OK);
    WANT(np_host_set_group_mems(&host, 5, TEXT("1-2")), NP_OK);
    WANT(np_host_new_process(&host, 1, 5), NP_OK);
    WANT(np_host_map(&host, 1, 0x10000, 0x1000, 0x10), NP_OK);
    WANT(np_host_set_task(&host, 1, 7, TEXT("bind:2")), NP_OK);
    WANT(first_nodes(&host, 1, 7, 16, 0, 9), 12);
    WANT(np_host_fork(&host, 1, 2, 7, 9), NP_OK);
    WANT(np_host_set_group_mems(&host, 5, TEXT("2-3")), NP_OK);
    /* the second of 1 to 2 is then the second of 2 to 3 */
    WANT(first_nodes(&host, 1, 7, 16, 0, 9), 13);
    WANT(np_host_attach(&host, 2, 0), NP_OK);
    /* which is the second of all four */
    WANT(first_nodes(&host, 2, 9, 16, 0, 9), 11);
    /* the child has its parent's task 7 as well, and a task without a policy has all nodes */
    WANT(first_nodes(&host, 2, 7, 16, 0, 9), 11);
    WANT(first_nodes(&host, 2, 1, 16, 3, 9), 13012);
    WANT(first_nodes(&host, 1, 1, 16, 0, 9), 123);
    WANT(version_of(&host), 8);
    WANT(np_host_copy(&host, &copy), NP_OK);
    WANT(np_host_exit(&copy, 2), NP_OK);
    WANT(np_host_set_group_mems(&copy, 5, TEXT("0")), NP_OK);
    WANT(first_nodes(&copy, 1, 7, 16, 0, 9), 10);
    WANT(first_nodes(&host, 1, 7, 16, 0, 9), 13);
    WANT(version_of(&copy), 10);
    WANT(version_of(&host), 8);
    np_host_close(&copy);
    WANT(first_nodes(&host, 2, 9, 16, 0, 9), 11);
    np_host_close(&host);
    np_host_close(&host);
}

/* A tree of groups: own lists, and what is effective of them. */
static void groups(void) {
    np_host host = {0};
    np_group group;
    size_t count = 99;
    open_host(&host, UINT32_MAX);
    WANT(np_host_groups(&host, &count), NP_OK);
    WANT(count, 0);
    WANT(nodes_of_group(&host, 0), 0xf);
    WANT(np_host_new_group(&host, 1, 0), NP_OK);
    WANT(np_host_new_group(&host, 2, 1), NP_OK);
    WANT(np_host_set_group_mems(&host, 1, TEXT("0-2")), NP_OK);
    WANT(nodes_of_group(&host, 2), 0x7);
    WANT(np_host_set_group_mems(&host, 2, TEXT("2-3")), NP_OK);
    WANT(nodes_of_group(&host, 2), 0x4);
    /* nothing of the own list is left: the parent's */
    WANT(np_host_set_group_mems(&host, 1, TEXT("0-1")), NP_OK);
    WANT(nodes_of_group(&host, 2), 0x3);
    WANT(np_host_groups(&host, &count), NP_OK);
    WANT(count, 2);
    WANT(np_host_group(&host, 0, &group), NP_OK);
    WANT(group.group * 10 + group.parent, 21);
    WANT(group.has_mems, 1);
    WANT(group.mems.words[0], 0xc);
    WANT(np_host_unset_group_mems(&host, 2), NP_OK);
    WANT(np_host_group(&host, 0, &group), NP_OK);
    WANT(group.has_mems, 0);
    WANT(group.mems.words[0], 0);
    WANT(np_host_group(&host, 1, &group), NP_OK);
    WANT(group.group * 10 + group.parent, 10);
    memset(&group, 9, sizeof group);
    WANT(np_host_group(&host, 2, &group), NP_NO_SUCH_GROUP);
    WANT(group.has_mems, 0x0909090909090909);
    np_host_close(&host);
}

/* Processes in the order of their birth, with their groups. */
static void processes(void) {
    np_host host = {0};
    np_process process = {9, 9};
    size_t count = 99;
    open_host(&host, UINT32_MAX);
    WANT(np_host_new_group(&host, 3, 0), NP_OK);
    WANT(np_host_new_process(&host, 10, 0), NP_OK);
    WANT(np_host_new_process(&host, 11, 3), NP_OK);
    WANT(np_host_fork(&host, 11, 12, 0, 0), NP_OK);
    WANT(np_host_processes(&host, &count), NP_OK);
    WANT(count, 3);
    WANT(np_host_exit(&host, 11), NP_OK);
    WANT(np_host_processes(&host, &count), NP_OK);
    WANT(count, 2);
    WANT(np_host_process(&host, 0, &process), NP_OK);
    WANT(process.process * 100 + process.group, 1000);
    WANT(np_host_process(&host, 1, &process), NP_OK);
    WANT(process.process * 100 + process.group, 1203);
    WANT(np_host_process(&host, 2, &process), NP_NO_SUCH_PROCESS);
    WANT(process.process, 12);
    np_host_close(&host);
}

/* Ranges, policies and plans of a process. */
static void questions(void) {
    np_host host = {0};
    np_plan plan = {0};
    np_policy policy;
    np_range range = {9, 9, 9};
    uint8_t word[32], nodes[4] = {9, 9, 9, 9};
    size_t count = 99, length = 99;
    uint64_t version = 99;
    open_host(&host, UINT32_MAX);
    WANT(np_host_new_process(&host, 1, 0), NP_OK);
    WANT(np_host_set_weight(&host, 1, 2), NP_OK);
    WANT(np_host_new_process(&host, 2, 0), NP_OK);
    WANT(np_host_map(&host, 1, 0x10000, 0x4000, 0x10), NP_OK);
    WANT(np_host_mbind(&host, 1, 0x12000, 0x2000, TEXT("interleave:2-3")), NP_OK);
    WANT(np_host_set_task(&host, 1, 7, TEXT("bind=static:1-2")), NP_OK);
    WANT(np_host_inherit(&host, 1, 8, 7), NP_OK);
    WANT(np_host_mbind(&host, 1, 0x10000, 0x1000, TEXT("bind:2-3")), NP_OK);
    WANT(np_host_set_home(&host, 1, 0x10000, 0x1000, 3), NP_OK);
    WANT(np_host_ranges(&host, 1, &count), NP_OK);
    WANT(count, 3);
    WANT(np_host_ranges(&host, 2, &count), NP_OK);
    WANT(count, 0);
    WANT(np_host_range(&host, 1, 2, &range, word, sizeof word, &length), NP_OK);
    WANT(range.start, 0x12000);
    WANT(range.length, 0x2000);
    WANT(range.offset, 0x12);
    WANT(length, strlen("interleave:2-3"));
    WANT(memcmp(word, "interleave:2-3", length), 0);
    WANT(np_host_range(&host, 1, 2, &range, word, 5, &length), NP_NO_ROOM);
    WANT(np_host_range(&host, 1, 3, &range, word, sizeof word, &length), NP_NO_RANGE);
    WANT(np_host_task_policy(&host, 1, 8, &policy), NP_OK);
    WANT(policy.mode, 0x8002); /* MPOL_F_STATIC_NODES | MPOL_BIND */
    WANT(policy.asked.words[0], 0x6);
    WANT(np_host_task_policy(&host, 2, 8, &policy), NP_OK);
    WANT(policy.mode, 0);
    /* the home comes first */
    WANT(first_nodes(&host, 1, 7, 16, 0, 9), 132);
    WANT(np_host_compile(&host, 1, &plan), NP_OK);
    WANT(np_plan_version(&plan, &version), NP_OK);
    WANT(version, 7); /* its own six, and the weight */
    WANT(np_plan_fill(&plan, 7, 1, 16, nodes, 4), NP_OK);
    WANT(nodes[0] * 1000 + nodes[1] * 100 + nodes[2] * 10 + nodes[3], 3123);
    WANT(np_host_compile(&host, 1, &plan), NP_OPEN);
    np_plan_close(&plan);
    /* a process begins with the weights of the host: 1 at two places of five */
    WANT(np_host_map(&host, 2, 0x10000, 0x5000, 0), NP_OK);
    WANT(np_host_set_task(&host, 2, 1, TEXT("weighted:0-3")), NP_OK);
    WANT(np_host_compile(&host, 2, &plan), NP_OK);
    np_counts counts;
    WANT(np_plan_counts(&plan, 1, 0, 16, 5, &counts), NP_OK);
    WANT(counts.pages[0] * 100 + counts.pages[1] * 10 + counts.pages[2], 121);
    WANT(counts.pages[3], 1);
    np_plan_close(&plan);
    WANT(np_host_unmap(&host, 2, 0x10000, 0x5000), NP_OK);
    WANT(np_host_choice(&host, 2, 1, 16, 0, nodes, 4, &count), NP_UNMAPPED);
    WANT(np_host_choice(&host, 1, 1, 16, 4, nodes, 4, &count), NP_BAD_CPU);
    memset(nodes, 9, sizeof nodes);
    WANT(np_host_choice(&host, 1, 1, 17, 0, nodes, 3, &count), NP_NO_ROOM);
    WANT(count * 10 + nodes[0], 49);
    WANT(np_host_choice(&host, 3, 1, 16, 0, nodes, 4, &count), NP_NO_SUCH_PROCESS);
    WANT(np_host_compile(&host, 3, &plan), NP_NO_SUCH_PROCESS);
    WANT(np_host_ranges(&host, 3, &count), NP_NO_SUCH_PROCESS);
    WANT(np_host_range(&host, 3, 0, &range, word, sizeof word, &length), NP_NO_SUCH_PROCESS);
    WANT(np_host_task_policy(&host, 3, 0, &policy), NP_NO_SUCH_PROCESS);
    np_host_close(&host);
}

/* What is refused, each cause before those behind it, and that nothing has changed then. */
static void refusals(void) {
    np_host host = {0};
    open_host(&host, 9);
    WANT(np_host_new_group(&host, 1, 2), NP_NO_SUCH_GROUP);
    WANT(np_host_new_group(&host, 0, 2), NP_GROUP_EXISTS);
    WANT(np_host_new_group(&host, 1, 0), NP_OK);
    WANT(np_host_new_group(&host, 1, 2), NP_GROUP_EXISTS);
    WANT(np_host_set_group_mems(&host, 2, TEXT("0-9")), NP_NO_SUCH_GROUP);
    WANT(np_host_set_group_mems(&host, 0, TEXT("0-9")), NP_ROOT_GROUP);
    WANT(np_host_set_group_mems(&host, 1, TEXT("0-9")), NP_NO_SUCH_NODE);
    WANT(np_host_set_group_mems(&host, 2, TEXT("3-1")), NP_LIST_BACKWARDS);
    WANT(np_host_unset_group_mems(&host, 0), NP_ROOT_GROUP);
    WANT(np_host_new_process(&host, 1, 2), NP_NO_SUCH_GROUP);
    WANT(np_host_new_process(&host, 1, 1), NP_OK);
    WANT(np_host_new_process(&host, 1, 2), NP_PROCESS_EXISTS);
    WANT(np_host_unset_group_mems(&host, 1), NP_OK); /* it has none */
    WANT(np_host_set_group_mems(&host, 1, TEXT("0-1")), NP_OK);
    WANT(np_host_unset_group_mems(&host, 1), NP_POPULATED);
    WANT(np_host_fork(&host, 2, 1, 0, 0), NP_PROCESS_EXISTS);
    WANT(np_host_fork(&host, 2, 3, 0, 0), NP_NO_SUCH_PROCESS);
    WANT(np_host_attach(&host, 2, 7), NP_NO_SUCH_PROCESS);
    WANT(np_host_attach(&host, 1, 7), NP_NO_SUCH_GROUP);
    WANT(np_host_exit(&host, 2), NP_NO_SUCH_PROCESS);
    WANT(np_host_set_weight(&host, 4, 0), NP_NO_SUCH_NODE);
    WANT(np_host_set_weight(&host, 3, 0), NP_BAD_WEIGHT);
    WANT(np_host_map(&host, 2, 1, 0, 0), NP_NO_SUCH_PROCESS);
    WANT(np_host_map(&host, 1, 1, 0, 0), NP_UNALIGNED);
    WANT(np_host_mbind(&host, 2, 1, 0, TEXT("bend:0")), NP_UNKNOWN_MODE);
    WANT(np_host_set_task(&host, 1, 1, TEXT("bind:2-3")), NP_NODES_NOT_ALLOWED);
    WANT(version_of(&host), 4);
    WANT(np_host_set_task(&host, 1, 1, TEXT("bind:0")), NP_OK);
    WANT(np_host_set_task(&host, 1, 2, TEXT("bind:0")), NP_OK);
    WANT(np_host_fork(&host, 1, 2, 1, 3), NP_TOO_MANY_TASKS);
    WANT(np_host_fork(&host, 1, 2, 3, 3), NP_OK); /* (the third has no policy) */
    WANT(np_host_exit(&host, 1), NP_OK);
    WANT(np_host_exit(&host, 2), NP_OK);
    WANT(np_host_exit(&host, 2), NP_COMMANDS_SPENT);
    np_host_close(&host);
}

/* As many groups and processes as there may be. */
static void many(void) {
    np_host host = {0};
    open_host(&host, UINT32_MAX);
    for (uint32_t k = 1; k <= 1024; k++)
        WANT(np_host_new_group(&host, k, k / 2), NP_OK);
    WANT(np_host_new_group(&host, 1025, 9999), NP_NO_SUCH_GROUP);
    WANT(np_host_new_group(&host, 1025, 1), NP_TOO_MANY_GROUPS);
    for (uint32_t k = 0; k < 4096; k++)
        WANT(np_host_new_process(&host, k, k % 1025), NP_OK);
    WANT(np_host_new_process(&host, 4096, 1), NP_TOO_MANY_PROCESSES);
    WANT(np_host_fork(&host, 1, 4096, 0, 0), NP_TOO_MANY_PROCESSES);
    WANT(np_host_set_group_mems(&host, 1, TEXT("2")), NP_OK);
    WANT(np_host_map(&host, 4095, 0x1000, 0x1000, 1), NP_OK);
    /* (4095 is in 1020, below 510, 255, .. and 1; a process of the root has all nodes) */
    WANT(first_nodes(&host, 4095, 1, 1, 0, 9), 12);
    WANT(np_host_map(&host, 0, 0x1000, 0x1000, 1), NP_OK);
    WANT(first_nodes(&host, 0, 1, 1, 1, 9), 11023);
    np_host_close(&host);
}

/* What can't be opened, and what is closed. */
static void closed(void) {
    np_host host = {0}, other = {0};
    np_plan plan = {0};
    const np_limits limits = {64, 2, 9}, high = {65537, 2, 9};
    np_options options = {0};
    uint64_t version = 99;
    size_t count = 99;
    np_nodes nodes = {{9, 9, 9, 9}};
    WANT(np_host_version(&host, &version), NP_CLOSED);
    WANT(np_host_processes(&host, &count), NP_CLOSED);
    WANT(np_host_groups(&host, &count), NP_CLOSED);
    WANT(np_host_group_nodes(&host, 0, &nodes), NP_CLOSED);
    WANT(np_host_new_process(&host, 1, 0), NP_CLOSED);
    WANT(np_host_map(&host, 1, 0, 0, 0), NP_CLOSED);
    WANT(np_host_set_task(&host, 1, 1, TEXT("bend")), NP_UNKNOWN_MODE);
    WANT(np_host_compile(&host, 1, &plan), NP_CLOSED);
    WANT(np_host_copy(&host, &other), NP_CLOSED);
    WANT(version + count + nodes.words[0], 207);
    WANT(np_host_open(&host, TEXT("0-4"), frames, 4, distances, 16, &limits, &options),
         NP_NO_MEMORY_NODE);
    WANT(np_host_open(&host, TEXT("0-4"), frames, 4, distances, 15, &high, &options),
         NP_BAD_LIMITS);
    WANT(np_host_open(&host, TEXT("4-0"), frames, 4, distances, 16, &high, &options),
         NP_LIST_BACKWARDS);
    options.orders = 7;
    WANT(np_host_open(&host, TEXT("4-0"), frames, 4, distances, 16, &high, &options),
         NP_BAD_ORDERS);
    options.rules = 7;
    WANT(np_host_open(&host, TEXT("4-0"), frames, 4, distances, 16, &high, &options), NP_BAD_RULES);
    open_host(&host, 9);
    WANT(np_host_open(&host, TEXT("4-0"), frames, 4, distances, 16, &high, &options), NP_OPEN);
    WANT(np_host_copy(&host, &other), NP_OK);
    WANT(np_host_copy(&host, &other), NP_OPEN);
    np_host_close(&other);
    np_host_close(&host);
}

/* The rules of the running kernel, where it does otherwise: `prefer` keeps its node. */
static void rules(void) {
    for (uint32_t rules = NP_RULES_DOCUMENT; rules <= NP_RULES_LINUX; rules++) {
        np_host host = {0};
        np_policy policy;
        const np_limits limits = {64, 8, 99};
        const np_options options = {rules, NP_ORDERS_NEAREST, {{0, 0, 0, 0}}};
        WANT(np_host_open(&host, TEXT("0-3"), frames, 4, distances, 16, &limits, &options), NP_OK);
        WANT(np_host_new_process(&host, 1, 0), NP_OK);
        WANT(np_host_set_task(&host, 1, 1, TEXT("prefer:1")), NP_OK);
        WANT(np_host_new_group(&host, 1, 0), NP_OK);
        WANT(np_host_set_group_mems(&host, 1, TEXT("0")), NP_OK);
        WANT(np_host_attach(&host, 1, 1), NP_OK);
        WANT(np_host_task_policy(&host, 1, 1, &policy), NP_OK);
        WANT(policy.nodes.words[0], rules == NP_RULES_LINUX ? 2 : 1);
        np_host_close(&host);
    }
}

/* The error numbers of the causes that only a host has (errno(3)), and their names. */
static void causes(void) {
    static const struct {
        uint32_t code, number;
        const char *name;
    } all[] = {
        {NP_GROUP_EXISTS, EEXIST, "GroupExists"}, {NP_NO_SUCH_GROUP, ENOENT, "NoSuchGroup"},
        {NP_TOO_MANY_GROUPS, ENOSPC, "TooManyGroups"}, {NP_ROOT_GROUP, EACCES, "RootGroup"},
        {NP_POPULATED, ENOSPC, "Populated"}, {NP_PROCESS_EXISTS, EEXIST, "ProcessExists"},
        {NP_NO_SUCH_PROCESS, ESRCH, "NoSuchProcess"},
        {NP_TOO_MANY_PROCESSES, EAGAIN, "TooManyProcesses"}, {NP_GROUP_MEMS, EPERM, "GroupMems"},
    };
    for (size_t k = 0; k < sizeof all / sizeof *all; k++) {
        uint8_t name[32];
        size_t length = 0;
        uint32_t number = 99;
        WANT(np_answer_name(all[k].code, name, sizeof name, &length), NP_OK);
        WANT(length, strlen(all[k].name));
        WANT(memcmp(name, all[k].name, length), 0);
        WANT(np_answer_errno(all[k].code, &number), NP_OK);
        WANT(number, all[k].number);
    }
    uint32_t number = 99;
    WANT(np_answer_errno(99, &number), NP_UNKNOWN);
    WANT(np_answer_errno(89, &number), NP_UNKNOWN);
}

int main(void) {
    worked();
    groups();
    processes();
    questions();
    refusals();
    many();
    closed();
    rules();
    causes();
    return wrong;
}
