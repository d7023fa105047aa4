/* numaplan_placed.h: cores whose pages are there, for C99 and C++. numaplan.h includes this file,
 * and its first page applies here too.
 *
 * A core says where a page would go when it is first touched. An np_pages keeps a core together
 * with where its pages lie: a caller states that pages lie on nodes, or has a task touch them for
 * the first time; and then they go where Linux moves them: when the allowed nodes change, by
 * migrate_pages(2), move_pages(2) and mbind(2). Each command for that core is given to the
 * np_pages, so that what it says of the pages fits the core as it is: a page that was unmapped
 * lies nowhere any more.
 *
 * Pages lie only where it was stated, and where they went since. Frames that workers take
 * (np_core_touch, seats) are separate.
 *
 * Pages of 2 MiB are those that np_pages_map_huge maps: they come from pools (hugetlb), and come
 * and move whole. They take no room of a node, nor do pages of 4 KiB take any of the pools. Where
 * pages lie is said in pages of 4 KiB, of which one of 2 MiB is 512; what moves or comes counts
 * once, whatever its size; pools count pages of 2 MiB. (Those that the core had when np_pages_open
 * copied it, from np_core_map_huge, come from no pool: each is 512 pages here, which come and move
 * one by one.)
 *
 * There are at most 1,048,576 runs of pages that lie on one node, and as many of pages of 2 MiB.
 * Pages that one policy puts on nodes in turn (np_pages_populate) count as one run. */
#include "numaplan.h" /* (which includes numaplan_hosts.h, and that this file, for its structs) */

#ifndef NUMAPLAN_PLACED_H
#define NUMAPLAN_PLACED_H

#ifdef __cplusplus
extern "C" {
#endif

/* ---- types */

/* A core with its pages: kept by a handle, as a core is. */
typedef struct np_pages {
    bool is_open_;
    void *at_;
} np_pages;

/* What a move did: how many pages went to another node; how many had a node to go to and stayed,
 * since a node was full; how many went from each node; and to which node those of each node go,
 * the node itself where they stay. */
typedef struct np_moves {
    uint64_t moved, left, from[256];
    uint8_t to[256];
} np_moves;

/* What a task's first touches of the pages of a span did: how many went to a node, how many found
 * no node with room, and how many went to each node. */
typedef struct np_arrived {
    uint64_t placed, exhausted, nodes[256];
} np_arrived;

/* What a policy did to the pages of its span: how many went to another node; how many had to go
 * and found no node with room; and the error number that mbind(2) answers all the same, 5 (EIO)
 * or 0. */
typedef struct np_bound {
    uint64_t moved, left;
    uint32_t error;
} np_bound;

/* Pages in a row that lie on one node: the number of the first, and how many they are. */
typedef struct np_page_run {
    uint64_t first, pages;
    uint8_t node;
} np_page_run;

/* What the pools of pages of 2 MiB have: by node how many pages there are, how many of these are
 * free, and how many surplus (as many end when they become free); and how many free ones are
 * reserved, on all nodes together. Sometimes a node's surplus exceeds its total. */
typedef struct np_huge_pools {
    uint64_t total[256], free[256], surplus[256], reserved;
} np_huge_pools;

/* The room of a node that never fills. */
#define NP_ENDLESS UINT64_MAX

#if defined(__cplusplus) && __cplusplus >= 201103L
static_assert(sizeof(np_pages) == 16 && sizeof(np_page_run) == 24, "a handle, a struct");
static_assert(sizeof(np_moves) == 2320 && sizeof(np_bound) == 24, "structs");
static_assert(sizeof(np_arrived) == 2064 && sizeof(np_huge_pools) == 6152, "structs");
#elif defined(__STDC_VERSION__) && __STDC_VERSION__ >= 201112L
_Static_assert(sizeof(np_pages) == 16 && sizeof(np_page_run) == 24, "a handle, a struct");
_Static_assert(sizeof(np_moves) == 2320 && sizeof(np_bound) == 24, "structs");
_Static_assert(sizeof(np_arrived) == 2064 && sizeof(np_huge_pools) == 6152, "structs");
#endif

/* ---- opening and closing */

/* Opens a copy of a core: its pages lie nowhere yet, no node ever fills, and the pools have no
 * page. What is then done to one of the two doesn't change the other. NP_OPEN where `pages` keeps
 * one, NP_CLOSED where `core` keeps none, NP_NO_MEMORY. */
uint32_t np_pages_open(np_pages *pages, np_core *core);

/* Frees the core with its pages, if there is one. */
void np_pages_close(np_pages *pages);

/* Keeps a copy in `copy`, to be asked "what if", as np_core_copy. NP_OPEN, NP_CLOSED,
 * NP_NO_MEMORY. */
uint32_t np_pages_copy(np_pages *pages, np_pages *copy);

/* Keeps a copy of the core in `core`, for plans, ranges, reports and all else that a core is
 * asked. NP_OPEN, NP_CLOSED, NP_NO_MEMORY. */
uint32_t np_pages_core(np_pages *pages, np_core *core);

/* How many commands are accepted. NP_CLOSED. */
uint32_t np_pages_version(np_pages *pages, uint64_t *version);

/* ---- commands of the core: as those of an np_core (np_core_map and so on), and answered so. No
 * page moves by them. NP_CLOSED; 10 to 25; NP_NO_MEMORY, never where a core's command needs no
 * memory. A faulty policy word or list is answered first: 60 to 63, 70 to 74 */

uint32_t np_pages_map(np_pages *pages, uint64_t start, uint64_t length, uint64_t offset);

/* Then the pages of the span lie nowhere any more, and give back the room that they took; those of
 * 2 MiB become free, and reservations of untouched ones are given back, with which as many free
 * surplus pages end. It tries that on a copy of the runs of pages, if one of them lies somewhere or
 * has 2 MiB. First of all: NP_TOO_MANY_RUNS. NP_UNALIGNED also where a border is inside a page of
 * 2 MiB; so it is of np_pages_mbind and np_pages_set_home. */
uint32_t np_pages_unmap(np_pages *pages, uint64_t start, uint64_t length);

uint32_t np_pages_mbind(np_pages *pages, uint64_t start, uint64_t length, const uint8_t *policy,
                        size_t policy_length);
uint32_t np_pages_mbind_by(np_pages *pages, uint64_t start, uint64_t length, uint32_t mode,
                           const np_nodes *nodes);
uint32_t np_pages_set_task(np_pages *pages, uint32_t task, const uint8_t *policy,
                           size_t policy_length);
uint32_t np_pages_set_task_by(np_pages *pages, uint32_t task, uint32_t mode, const np_nodes *nodes);
uint32_t np_pages_inherit(np_pages *pages, uint32_t task, uint32_t from);
uint32_t np_pages_set_home(np_pages *pages, uint64_t start, uint64_t length, uint32_t node);
uint32_t np_pages_home_by(np_pages *pages, uint64_t start, uint64_t length, uint64_t node,
                          uint64_t flags);
uint32_t np_pages_set_weight(np_pages *pages, uint32_t node, uint32_t weight);

/* The pages stay where they lie, as in a cpuset of cgroup v1 without memory_migrate. */
uint32_t np_pages_set_mems(np_pages *pages, const uint8_t *nodes, size_t nodes_length);

/* Gives the pages of a span a policy as np_pages_mbind, unless one of them lies on a node that
 * isn't in the policy's list as it is written (mbind(2), MPOL_MF_STRICT): then NP_ASTRAY.
 * "default" looks at no page; the list of "local" is empty, so every page that lies somewhere
 * counts. NP_ASTRAY comes before NP_TOO_MANY_RANGES and NP_NO_MEMORY, and after all others; but by
 * the kernel's rules before NP_HOLE too, of pages in the ranges before the one that ends at the
 * first hole. */
uint32_t np_pages_mbind_strictly(np_pages *pages, uint64_t start, uint64_t length,
                                 const uint8_t *policy, size_t policy_length);

/* The same by mbind(2)'s own words, as np_core_mbind_by takes them. */
uint32_t np_pages_mbind_strictly_by(np_pages *pages, uint64_t start, uint64_t length, uint32_t mode,
                                    const np_nodes *nodes);

/* ---- where pages lie, and how many more a node takes: NP_CLOSED first */

/* States that the mapped pages of a span lie on a node; what isn't mapped is passed over. A
 * later statement counts. In this order: NP_NOT_SUPPORTED where one has 2 MiB; NP_UNALIGNED,
 * NP_OUT_OF_SPACE; NP_NO_SUCH_NODE, also for a node without memory; NP_NODE_FULL where more pages
 * come to the node than it takes; NP_TOO_MANY_RUNS; NP_NO_MEMORY, which may also come before those
 * two. */
uint32_t np_pages_place(np_pages *pages, uint64_t start, uint64_t length, uint32_t node);

/* Touches each page of a span for the first time, as a task on a CPU of the node `cpu` does that
 * writes to it (madvise(2), MADV_POPULATE_WRITE): the lowest page first, each that lies nowhere
 * goes to the first node of its list that has room by then. Pages that lie somewhere are passed
 * over; one that finds no room stays nowhere, and the next go on. A page of 2 MiB is given by the
 * first node of its list with a free page; without a reservation by none, where all free ones are
 * reserved. What that did is written to `arrived`, where NP_OK is answered, each page counted once,
 * whatever its size. It is no command: the version stays. In this order:
 * NP_UNALIGNED, NP_OUT_OF_SPACE; NP_NO_SUCH_CPU, where the machine lacks the node;
 * NP_SPAN_UNMAPPED; NP_TOO_MANY_RUNS, NP_NO_MEMORY. */
uint32_t np_pages_populate(np_pages *pages, uint64_t start, uint64_t length, uint32_t task,
                           uint32_t cpu, np_arrived *arrived);

/* Says how many more pages of 4 KiB a node takes from now on: each page that comes to it (by a
 * statement, a first touch or a move) takes one, and each that leaves it (by a later statement, a
 * move or an unmap) gives one back. NP_ENDLESS, as at first: it never fills. NP_NO_SUCH_NODE, also
 * for a node without memory. Needs no memory. */
uint32_t np_pages_set_room(np_pages *pages, uint32_t node, uint64_t room);

/* Writes how many more pages a node takes. NP_NO_SUCH_NODE, as above. */
uint32_t np_pages_room(np_pages *pages, uint32_t node, uint64_t *room);

/* Writes the node on which the page of an address lies, of either size. NP_NOT_PLACED where it lies
 * nowhere. */
uint32_t np_pages_node(np_pages *pages, uint64_t address, uint32_t *node);

/* The same for an array of pages of 4 KiB (their numbers, in whatever order), parts of those of 2
 * MiB among them: writes the node on which each lies, or the mark `nowhere`, as 255 on a machine
 * of fewer nodes, at the place in `nodes` that the page has in `numbers`. `places` is `count`, or
 * else the answer is NP_NO_ROOM. Needs no memory. */
uint32_t np_pages_nodes(np_pages *pages, const uint64_t *numbers, size_t count, uint8_t *nodes,
                        size_t places, uint8_t nowhere);

/* Counts, for each node, the pages of 4 KiB that lie on it, of which one of 2 MiB is 512. */
uint32_t np_pages_counts(np_pages *pages, np_counts *counts);

/* Writes the runs of pages of 4 KiB that lie on one node, in order of address and as long as they
 * can be, over pages of both sizes, at the start of `runs`, and how many they are to `count`.
 * NP_NO_ROOM where `room` is less: then `count` is what is needed, and `runs` is as it was.
 * NP_NO_MEMORY. Of pages that lie on nodes in turn each is a run here, so that there may be more
 * than 1,048,576. */
uint32_t np_pages_runs(np_pages *pages, np_page_run *runs, size_t room, size_t *count);

/* ---- pages of 2 MiB, and the pools that they come from (hugetlb): NP_CLOSED first */

/* Writes what the pools have. */
uint32_t np_pages_pools(np_pages *pages, np_huge_pools *pools);

/* Makes the pools of all nodes with memory have `count` pages together that aren't surplus, as a
 * write to nr_hugepages: surplus pages stay from then on, then fresh ones come in turn, on allowed
 * nodes alone. Free ones go in turn, never below what is used or reserved; what is still too many
 * becomes surplus. A node has at most 2^40 pages. Needs no memory. */
uint32_t np_pages_pool(np_pages *pages, uint64_t count);

/* The same of one node, as a write to its own nr_hugepages; from 2^63 on, `count` is 2^63 - 1.
 * NP_NO_SUCH_POOL; NP_UNSURE where the node or the others together have more surplus pages than
 * pages. Needs no memory. */
uint32_t np_pages_pool_node(np_pages *pages, uint32_t node, uint64_t count);

/* The same of the nodes of a task's policy, as a write of the task to nr_hugepages_mempolicy: the
 * node `cpu` of its CPU if the policy is "local", all with memory if it has none. NP_NO_SUCH_CPU
 * where the machine lacks that node. Needs no memory. */
uint32_t np_pages_pool_for(np_pages *pages, uint64_t count, uint32_t task, uint32_t cpu);

/* Maps a span as np_core_map_huge (mmap(2), MAP_HUGETLB), for a task. With `reserve` its pages are
 * reserved: they come from the allowed nodes, and if the task's policy is bind, from its nodes
 * among them. Without (MAP_NORESERVE) a page may lack when it is touched. 10 to 15;
 * NP_NO_HUGE_PAGES where too few pages are free and not reserved, or too few on those nodes: then
 * free surplus pages end, as many as it had reserved, which is all that a refusal changes;
 * NP_TOO_MANY_RANGES; NP_TOO_MANY_RUNS, NP_NO_MEMORY, which may come before all others. */
uint32_t np_pages_map_huge(np_pages *pages, uint64_t start, uint64_t length, uint64_t offset,
                           uint32_t task, bool reserve);

/* Touches the page of an address, of either size, for the first time, as a task on a CPU of the
 * node `cpu` does that writes to it, and writes the node where it lies then, also if it was there
 * before: the first of its list with room, or with a free page of 2 MiB. No command: the version
 * stays. In this order: NP_NO_SUCH_CPU where the machine lacks the node; NP_PAGE_UNMAPPED;
 * NP_NODES_FULL, or of a page of 2 MiB NP_NO_PAGE_FREE; NP_TOO_MANY_RUNS, NP_NO_MEMORY. */
uint32_t np_pages_fault(np_pages *pages, uint32_t task, uint64_t address, uint32_t cpu,
                        uint32_t *node);

/* ---- moves: as far as there is room. Pages of 2 MiB lack none: a free page of the new node that
 * isn't reserved serves, else the page takes its place in the pool along. They go node by node, as
 * Linux does: each time the lowest node whose pages go to a node that isn't still to be emptied,
 * else the highest; of a node the lowest pages first. A node that fills ends the move: the pages
 * that found no room stay, and so do those of all nodes that were still to be emptied. What went
 * where is written to `moves`, where NP_OK is answered; each page counts once, whatever its size */

/* Changes the nodes on which memory may be placed, as np_pages_set_mems, and moves the pages along,
 * as in a cpuset of cgroup v2, or of v1 with memory_migrate (cpusets(7)): where the old nodes and
 * the new are as many, those of the k-th go to the k-th; else pages on a node that stays allowed
 * stay, and the k-th node's go to the k-th of the new ones, counted round. A faulty list is
 * answered first: 60 to 63. NP_CLOSED; 10 to 25; NP_TOO_MANY_RUNS, NP_NO_MEMORY, neither before the
 * first np_pages_set_room. */
uint32_t np_pages_move_mems(np_pages *pages, const uint8_t *nodes, size_t nodes_length,
                            np_moves *moves);

/* Moves pages from the nodes of one list to the allowed nodes of another, by the same rule
 * (migrate_pages(2)). A faulty list is answered first, that of `from` before that of `to`: 60 to
 * 63. NP_CLOSED; NP_NODES_NOT_ALLOWED where no node of `to` is allowed; NP_TOO_MANY_RUNS,
 * NP_NO_MEMORY, neither before the first np_pages_set_room. */
uint32_t np_pages_migrate(np_pages *pages, const uint8_t *from, size_t from_length,
                          const uint8_t *to, size_t to_length, np_moves *moves);

/* Moves the page of an address to a node (move_pages(2)); a page that lies there stays. In this
 * order: NP_CLOSED; NP_NO_SUCH_TARGET, also for a node without memory; NP_TARGET_NOT_ALLOWED;
 * NP_PAGE_UNMAPPED; NP_NOT_PLACED; NP_NODE_FULL; NP_TOO_MANY_RUNS, NP_NO_MEMORY. */
uint32_t np_pages_move(np_pages *pages, uint64_t address, uint32_t node);

/* Gives the pages of a span a policy as np_pages_mbind, and moves those that lie on nodes that
 * aren't in the policy's list as it is written (mbind(2), MPOL_MF_MOVE; "default" and "local":
 * all): the lowest first, each to the first node with room of its list, as a fault of the task on
 * the node `cpu` would put it (of 2 MiB: to the first with a free page that isn't reserved, else to
 * the first); all of them stay where the machine has no such node. What they did
 * is written to `bound`, where NP_OK is answered; where pages stayed and `strict` (MPOL_MF_STRICT
 * too), which "default" drops, with EIO. A faulty word is answered first: 60 to 63, 70 to 74.
 * NP_CLOSED; 10 to 25; NP_TOO_MANY_RUNS, NP_NO_MEMORY, which no bytes may meet too. */
uint32_t np_pages_mbind_moving(np_pages *pages, uint64_t start, uint64_t length,
                               const uint8_t *policy, size_t policy_length, bool strict,
                               uint32_t task, uint32_t cpu, np_bound *bound);

/* The same by mbind(2)'s own words, as np_core_mbind_by takes them. */
uint32_t np_pages_mbind_moving_by(np_pages *pages, uint64_t start, uint64_t length, uint32_t mode,
                                  const np_nodes *nodes, bool strict, uint32_t task, uint32_t cpu,
                                  np_bound *bound);

#ifdef __cplusplus
}
#endif
#endif
