/* numaplan_hosts.h: hosts of processes in control groups, for C99 and C++. numaplan.h includes this
 * file, and its first page applies here too.
 *
 * A host is a machine with a tree of control groups and with processes in them. A process has
 * pages, and policies of ranges and tasks, as a core has; the nodes that it is allowed are the
 * effective ones of its group (cpuset.mems of cgroups(7)), and its policies follow each change of
 * them. A process answers as a core does that is given the commands which the process has accepted:
 * its own, its parent's up to the fork, each weight of the host, and a change of the allowed nodes
 * whenever those of its group have changed.
 *
 * Groups and processes have any numbers of 32 bits; group 0 is the root, which has all nodes with
 * memory. There are at most 1,024 groups below it, and 4,096 processes. A change that concerns
 * several processes happens in all of them or in none.
 *
 * The pages of a process lie where it was stated (np_host_place) or where a task of it touched them
 * first (np_host_populate), and go where Linux moves them, as those of an np_pages do
 * (numaplan_placed.h). All processes take the same rooms of nodes (np_host_set_room). Where a
 * process comes to be allowed other nodes, its pages follow as far as there is room (cgroup v2, or
 * v1 with memory_migrate), unless np_host_set_follows says otherwise. Pages that find no room stay:
 * that refuses no call.
 *
 * Pages of 2 MiB are those that np_host_map_huge_for maps: they come from pools (hugetlb), which all
 * processes share, and are as those of an np_pages (np_pages_map_huge). Where pages lie is said in
 * pages of 4 KiB, of which one of 2 MiB is 512; what moves or comes counts once, whatever its size.
 *
 * This is the language's part `host` (docs/SCRIPT.md), call by call. */
#ifndef NUMAPLAN_HOSTS_H
#define NUMAPLAN_HOSTS_H

#include "numaplan.h"
#include "numaplan_placed.h"

#ifdef __cplusplus
extern "C" {
#endif

/* ---- types */

/* A host: kept by a handle, as a core is. */
typedef struct np_host {
    bool is_open_;
    void *at_;
} np_host;

/* A group below the root: its number, its parent's, 1 where it has a list of its own and else 0,
 * and the nodes of that list. */
typedef struct np_group {
    uint32_t group, parent;
    uint64_t has_mems;
    np_nodes mems;
} np_group;

/* A process: its number, and its group's. */
typedef struct np_process {
    uint32_t process, group;
} np_process;

/* Pages that went from one node to another: how many, and from which to which. */
typedef struct np_flow {
    uint64_t pages;
    uint8_t from, to;
} np_flow;

#if defined(__cplusplus) && __cplusplus >= 201103L
static_assert(sizeof(np_host) == 16 && sizeof(np_flow) == 16, "a handle, a struct");
static_assert(sizeof(np_group) == 48 && sizeof(np_process) == 8, "a struct");
#elif defined(__STDC_VERSION__) && __STDC_VERSION__ >= 201112L
_Static_assert(sizeof(np_host) == 16 && sizeof(np_flow) == 16, "a handle, a struct");
_Static_assert(sizeof(np_group) == 48 && sizeof(np_process) == 8, "a struct");
#endif

/* ---- opening and closing */

/* Opens a host of a machine, described as for np_core_open_by, without a group below the root and
 * without a process. The ranges and tasks of `limits` are those of each process, its commands those
 * of the host. In this order: NP_OPEN; NP_BAD_RULES, NP_BAD_ORDERS; 60 to 63; 50 to 54;
 * NP_NO_MEMORY. */
uint32_t np_host_open(np_host *host, const uint8_t *memory, size_t memory_length,
                      const uint32_t *frames, size_t nodes, const uint8_t *distances,
                      size_t distances_count, const np_limits *limits, const np_options *options);

/* Frees the host, if there is one. */
void np_host_close(np_host *host);

/* Keeps a copy of the host in `copy`, with its processes' pages, to be asked "what if": what is
 * then done to one of the two doesn't change the other. NP_OPEN where `copy` keeps a host,
 * NP_CLOSED where `host` keeps none, NP_NO_MEMORY. */
uint32_t np_host_copy(np_host *host, np_host *copy);

/* How many commands are accepted. NP_CLOSED. */
uint32_t np_host_version(np_host *host, uint64_t *version);

/* ---- groups and processes: each command that is accepted adds one to the version. NP_CLOSED;
 * NP_COMMANDS_SPENT; then what is named, in this order, and NP_NO_MEMORY last */

/* Makes a group below `parent`, without a list of its own. NP_GROUP_EXISTS, NP_NO_SUCH_GROUP,
 * NP_TOO_MANY_GROUPS. */
uint32_t np_host_new_group(np_host *host, uint32_t group, uint32_t parent);

/* Gives a group a list of its own, as "0-1". Its effective nodes are those of its list that its
 * parent has effectively; the parent's, where none of these is left. A faulty list is answered
 * first, even for a closed handle: 60 to 63. NP_NO_SUCH_GROUP, NP_ROOT_GROUP, NP_NO_SUCH_NODE.
 * Needs no memory. The pages of each process follow whose allowed nodes change: group by group from
 * the top down, siblings as they were made, in each group the processes as they came to it; where
 * memory lacks for the move of a process's pages, they stay (np_host_moves). */
uint32_t np_host_set_group_mems(np_host *host, uint32_t group, const uint8_t *nodes,
                                size_t nodes_length);

/* Takes a group's own list away. NP_NO_SUCH_GROUP, NP_ROOT_GROUP, NP_POPULATED where it has a list
 * and a process is in it or below it. Needs no memory. */
uint32_t np_host_unset_group_mems(np_host *host, uint32_t group);

/* Makes a process in a group: nothing is mapped, no page lies anywhere, no task has a policy.
 * NP_PROCESS_EXISTS, NP_NO_SUCH_GROUP, NP_TOO_MANY_PROCESSES. */
uint32_t np_host_new_process(np_host *host, uint32_t process, uint32_t group);

/* Makes the process `child` a copy of `parent`, in its group; then its task `task` has the policy
 * that the task `from` has in the parent (fork(2)). It keeps the policies of all tasks, where Linux
 * keeps one thread's. Its pages lie nowhere until it writes to them (np_host_populate), and of
 * those of 2 MiB none is reserved.
 * NP_PROCESS_EXISTS, NP_NO_SUCH_PROCESS, NP_TOO_MANY_PROCESSES, NP_TOO_MANY_TASKS. */
uint32_t np_host_fork(np_host *host, uint32_t parent, uint32_t child, uint32_t from,
                      uint32_t task);

/* Moves a process to another group (cgroup.procs), where it is the last that came; its pages
 * follow. NP_NO_SUCH_PROCESS, NP_NO_SUCH_GROUP. Needs no memory. */
uint32_t np_host_attach(np_host *host, uint32_t process, uint32_t group);

/* Ends a process; its number is free, and its pages give their room back, those of 2 MiB what they
 * took of the pools and had reserved there. NP_NO_SUCH_PROCESS. Needs no memory. */
uint32_t np_host_exit(np_host *host, uint32_t process);

/* Gives a node its weight for weighted interleaving, for every process, also those to come.
 * NP_NO_SUCH_NODE, NP_BAD_WEIGHT. Needs no memory. */
uint32_t np_host_set_weight(np_host *host, uint32_t node, uint32_t weight);

/* ---- commands of one process: as those of a core (np_core_map, np_core_mbind_by and so on), with
 * a number of a process. NP_CLOSED; NP_COMMANDS_SPENT; NP_NO_SUCH_PROCESS; then 11 to 25;
 * NP_NO_MEMORY. A faulty policy (by its word, or by mode and nodes) and the flags of
 * np_host_home_by are answered first, as by the calls of a core: 60 to 63, 70 to 74 */

uint32_t np_host_map(np_host *host, uint32_t process, uint64_t start, uint64_t length,
                     uint64_t offset);

/* As np_core_map_huge: these pages come from no pool. Each is 512 pages here, which come and move
 * apart. */
uint32_t np_host_map_huge(np_host *host, uint32_t process, uint64_t start, uint64_t length,
                          uint64_t offset);

/* As np_pages_unmap: then the pages of the span lie nowhere any more. First of all, where one of
 * them lies somewhere: NP_TOO_MANY_RUNS, NP_NO_MEMORY. */
uint32_t np_host_unmap(np_host *host, uint32_t process, uint64_t start, uint64_t length);
uint32_t np_host_mbind(np_host *host, uint32_t process, uint64_t start, uint64_t length,
                       const uint8_t *policy, size_t policy_length);
uint32_t np_host_mbind_by(np_host *host, uint32_t process, uint64_t start, uint64_t length,
                          uint32_t mode, const np_nodes *nodes);
uint32_t np_host_set_task(np_host *host, uint32_t process, uint32_t task, const uint8_t *policy,
                          size_t policy_length);
uint32_t np_host_set_task_by(np_host *host, uint32_t process, uint32_t task, uint32_t mode,
                             const np_nodes *nodes);
uint32_t np_host_inherit(np_host *host, uint32_t process, uint32_t task, uint32_t from);
uint32_t np_host_set_home(np_host *host, uint32_t process, uint64_t start, uint64_t length,
                          uint32_t node);
uint32_t np_host_home_by(np_host *host, uint32_t process, uint64_t start, uint64_t length,
                         uint64_t node, uint64_t flags);

/* ---- pages: how many more a node takes, and whether they follow. NP_CLOSED first */

/* Says how many more pages a node takes from now on, whichever process they are of; as
 * np_pages_set_room. NP_ENDLESS, as at first: it never fills. NP_NO_SUCH_NODE. Needs no memory. */
uint32_t np_host_set_room(np_host *host, uint32_t node, uint64_t room);

/* Writes how many more pages a node takes. NP_NO_SUCH_NODE. */
uint32_t np_host_room(np_host *host, uint32_t node, uint64_t *room);

/* Says whether pages follow the nodes that their process is allowed: at first they do; where not,
 * as in cgroup v1 without memory_migrate, they stay where they lie. Needs no memory. */
uint32_t np_host_set_follows(np_host *host, bool follows);

/* ---- pages of one process: as the calls of an np_pages (np_pages_place and so on), with a number
 * of a process, and no command: the version stays. NP_CLOSED; NP_NO_SUCH_PROCESS; NP_NO_MEMORY
 * where none of its pages was stated or touched yet; then as there, NP_NO_MEMORY too */

uint32_t np_host_place(np_host *host, uint32_t process, uint64_t start, uint64_t length,
                       uint32_t node);
uint32_t np_host_populate(np_host *host, uint32_t process, uint64_t start, uint64_t length,
                          uint32_t task, uint32_t cpu, np_arrived *arrived);

/* A faulty list is answered first, that of `from` before that of `to`: 60 to 63. Writes to `bound`
 * how many pages moved, and how many had to and stayed (and error number 0); np_host_moves tells
 * from where to where. */
uint32_t np_host_migrate(np_host *host, uint32_t process, const uint8_t *from, size_t from_length,
                         const uint8_t *to, size_t to_length, np_bound *bound);
uint32_t np_host_move(np_host *host, uint32_t process, uint64_t address, uint32_t node);

/* These are commands of the process, and answered as np_host_mbind and np_host_mbind_by, but for
 * what np_pages_mbind_strictly and np_pages_mbind_moving say of pages. */
uint32_t np_host_mbind_strictly(np_host *host, uint32_t process, uint64_t start, uint64_t length,
                                const uint8_t *policy, size_t policy_length);
uint32_t np_host_mbind_strictly_by(np_host *host, uint32_t process, uint64_t start,
                                   uint64_t length, uint32_t mode, const np_nodes *nodes);
uint32_t np_host_mbind_moving(np_host *host, uint32_t process, uint64_t start, uint64_t length,
                              const uint8_t *policy, size_t policy_length, bool strict,
                              uint32_t task, uint32_t cpu, np_bound *bound);
uint32_t np_host_mbind_moving_by(np_host *host, uint32_t process, uint64_t start, uint64_t length,
                                 uint32_t mode, const np_nodes *nodes, bool strict, uint32_t task,
                                 uint32_t cpu, np_bound *bound);

/* ---- pages of 2 MiB, and the pools that they come from, which all processes share: as the calls of
 * an np_pages (np_pages_pools and so on). NP_CLOSED first, of a process NP_NO_SUCH_PROCESS then */

/* Writes what the pools have. */
uint32_t np_host_pools(np_host *host, np_huge_pools *pools);

/* Makes the pools of all nodes with memory have `count` pages together that aren't surplus, or that
 * of one node, as np_pages_pool and np_pages_pool_node; whoever writes is allowed all nodes with
 * memory. NP_NO_SUCH_POOL, NP_UNSURE of one node. Need no memory. */
uint32_t np_host_pool(np_host *host, uint64_t count);
uint32_t np_host_pool_node(np_host *host, uint32_t node, uint64_t count);

/* The same where a process writes: fresh pages come on the nodes alone that it is allowed; and of
 * the nodes of the policy of one of its tasks, as np_pages_pool_for: NP_NO_SUCH_CPU. Need no
 * memory. */
uint32_t np_host_pool_in(np_host *host, uint32_t process, uint64_t count);
uint32_t np_host_pool_node_in(np_host *host, uint32_t process, uint32_t node, uint64_t count);
uint32_t np_host_pool_for(np_host *host, uint32_t process, uint64_t count, uint32_t task,
                          uint32_t cpu);

/* Maps a span of a process as pages of 2 MiB that come from the pools, for a task, which reserves
 * them or doesn't, as np_pages_map_huge. This is a command of the process. NP_COMMANDS_SPENT comes
 * before NP_NO_SUCH_PROCESS; then 11 to 15; NP_NO_HUGE_PAGES, by which free surplus pages may end;
 * NP_TOO_MANY_RANGES; NP_TOO_MANY_RUNS, NP_NO_MEMORY, which may come before 11 to 15. */
uint32_t np_host_map_huge_for(np_host *host, uint32_t process, uint64_t start, uint64_t length,
                              uint64_t offset, uint32_t task, bool reserve);

/* Touches the page of an address of a process, of either size, for the first time, as
 * np_pages_fault, and writes the node where it lies then. No command: the version stays. In this
 * order: NP_NO_SUCH_CPU; NP_PAGE_UNMAPPED; NP_NO_MEMORY where none of its pages of 4 KiB was stated
 * or touched yet; NP_NODES_FULL, or of a page of 2 MiB NP_NO_PAGE_FREE; NP_TOO_MANY_RUNS,
 * NP_NO_MEMORY. */
uint32_t np_host_fault(np_host *host, uint32_t process, uint32_t task, uint64_t address,
                       uint32_t cpu, uint32_t *node);

/* ---- where pages of one process lie: NP_CLOSED, NP_NO_SUCH_PROCESS, and what is named */

/* Writes the node on which the page of an address lies, of either size. NP_NOT_PLACED where it lies
 * nowhere. */
uint32_t np_host_node(np_host *host, uint32_t process, uint64_t address, uint32_t *node);

/* The same for an array of pages, as np_pages_nodes. NP_NO_ROOM. Needs no memory. */
uint32_t np_host_nodes(np_host *host, uint32_t process, const uint64_t *numbers, size_t count,
                       uint8_t *nodes, size_t places, uint8_t nowhere);

/* Counts, for each node, the pages of 4 KiB that lie on it, of which one of 2 MiB is 512. */
uint32_t np_host_counts(np_host *host, uint32_t process, np_counts *counts);

/* Writes the runs of pages that lie on one node, over pages of both sizes, as np_pages_runs.
 * NP_NO_ROOM, NP_NO_MEMORY. */
uint32_t np_host_runs(np_host *host, uint32_t process, np_page_run *runs, size_t room,
                      size_t *count);

/* What the last move of the process did: of np_host_migrate, np_host_move, np_host_mbind_moving, or
 * of np_host_set_group_mems, np_host_unset_group_mems or np_host_attach where it came to be allowed
 * other nodes by one. Writes to `bound` how many pages went and how many had to and stayed (and
 * error number 0), and from which node how many went to which, in ascending order of both, at the
 * start of `flows`, and how many of these there are to `count`. Each page counts once, whatever its
 * size. NP_NO_ROOM where `room` is less: then `count` is what is needed, and `flows` is as it was.
 * NP_NO_MEMORY. */
uint32_t np_host_moves(np_host *host, uint32_t process, np_flow *flows, size_t room, size_t *count,
                       np_bound *bound);

/* The same of the host: what the last of these calls did, all processes together that went along
 * and are still there. np_host_attach, np_host_migrate, np_host_move and np_host_mbind_moving take
 * one along; np_host_set_group_mems and np_host_unset_group_mems those that came to be allowed
 * other nodes. No sum is told above 2^64 - 1. NP_CLOSED, NP_NO_ROOM, NP_NO_MEMORY. */
uint32_t np_host_moves_of_all(np_host *host, np_flow *flows, size_t room, size_t *count,
                              np_bound *bound);

/* ---- questions about groups and processes */

/* How many groups there are below the root. NP_CLOSED. */
uint32_t np_host_groups(np_host *host, size_t *count);

/* Writes the group at a place, from 0, the newest first; so the parent of each is the root or comes
 * later. NP_CLOSED, NP_NO_SUCH_GROUP where there are not so many. */
uint32_t np_host_group(np_host *host, size_t index, np_group *group);

/* Writes the effective nodes of a group, or of the root (cpuset.mems.effective). NP_CLOSED,
 * NP_NO_SUCH_GROUP. */
uint32_t np_host_group_nodes(np_host *host, uint32_t group, np_nodes *nodes);

/* How many processes there are. NP_CLOSED. */
uint32_t np_host_processes(np_host *host, size_t *count);

/* Writes the process at a place, from 0, the first born first. NP_CLOSED, NP_NO_SUCH_PROCESS where
 * there are not so many. */
uint32_t np_host_process(np_host *host, size_t index, np_process *process);

/* ---- questions to one process: NP_CLOSED, NP_NO_SUCH_PROCESS, and what is named */

/* Writes the list of nodes of a page of the process, without a plan; as np_plan_choice. NP_NO_ROOM,
 * NP_BAD_CPU, NP_UNMAPPED. */
uint32_t np_host_choice(np_host *host, uint32_t process, uint32_t task, uint64_t page, uint32_t cpu,
                        uint8_t *nodes, size_t room, size_t *count);

/* Compiles all that the process has accepted into a plan, which answers as a core's does
 * (np_plan_choice, np_plan_fill, np_plan_counts). Its version counts what the process has accepted.
 * First NP_OPEN where `plan` keeps one; NP_NO_MEMORY. */
uint32_t np_host_compile(np_host *host, uint32_t process, np_plan *plan);

/* How many ranges of pages the process has; and the range at a place, as np_core_range:
 * NP_NO_RANGE, NP_NO_ROOM. */
uint32_t np_host_ranges(np_host *host, uint32_t process, size_t *count);
uint32_t np_host_range(np_host *host, uint32_t process, size_t index, np_range *range,
                       uint8_t *policy, size_t room, size_t *policy_length);

/* Writes the policy of a task of the process, as np_core_task_policy. */
uint32_t np_host_task_policy(np_host *host, uint32_t process, uint32_t task, np_policy *policy);

#ifdef __cplusplus
}
#endif
#endif
