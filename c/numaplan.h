/* numaplan.h: the placement planner of numaplan, for C99 and C++.
 *
 * Units. Addresses and lengths of spans are in bytes; a page is 4,096 bytes, and its number is its
 * address divided by 4,096. Offsets, page numbers and counts are in pages. A frame is a unit of any
 * size. Nodes are numbered from 0 to 255, tasks by any number of 32 bits, workers from 0.
 *
 * Handles. A core, a core with its pages, a plan, a seat, a script and a host are kept by handles
 * of 16 bytes that begin as zero bytes, as in `np_core core = {0};`. A handle owns what it keeps
 * until it is closed. It must not be copied, and its fields are the library's: C neither reads nor
 * writes them. Closing a closed handle does nothing. A call that takes a `const` handle only looks
 * at it; each other one, even a question, takes what is kept out of its handle, and puts it back
 * before it answers.
 *
 * Threads. A handle may go to another thread, ordered by a lock, a start or a join. Calls that take
 * it `const` may run in any number of threads at once, and wait for nothing: those that ask a plan,
 * which never changes, or a reader, and np_plan_share, by which a plan outlives the handle of
 * another thread.
 * Each other call has its handle to itself: np_plan_close too, which comes after all questions of
 * other threads. np_seat_split makes a seat for each thread that takes frames. The library starts
 * no thread, waits for nothing and never ends the process. A desk shows each new plan to readers in
 * other threads (numaplan_desks.h).
 *
 * Pointers are not null, not even where a length is 0, and hold for the call; no two of one call
 * overlap. Texts are bytes with a length, without a zero at the end: NP_TEXT makes both of a string.
 *
 * Answers. Each function that can fail answers one of the numbers of `enum np_answer`, as a
 * uint32_t: a later version may answer a number that this header lacks. NP_OK is 0. A call that
 * answers another one changed nothing, except for NP_STILL and NP_EXHAUSTED, which are no failures,
 * NP_NO_ROOM, which gives the length that is needed, and NP_ANSWER_LOST. After NP_NO_MEMORY every
 * handle is as it was.
 *
 * Versions. A program runs with each later library of the same major number, that of the shared
 * library's name, without being compiled again: a minor number adds calls, structs and answers.
 * What a call takes and answers, a struct's fields and what a number means change by a major number
 * alone, but for faults, which CHANGELOG tells.
 *
 * Memory comes from malloc, realloc and free, or by np_config from functions of the caller's. */
#ifndef NUMAPLAN_H
#define NUMAPLAN_H

#include <stdbool.h>
#include <stddef.h>
#include <stdint.h>
#include <string.h>

#ifdef __cplusplus
extern "C" {
#endif

/* ---- the version of this header, and of the library */

#define NP_VERSION_MAJOR 0
#define NP_VERSION_MINOR 10
#define NP_VERSION_PATCH 0
#define NP_VERSION (NP_VERSION_MAJOR * 1000000 + NP_VERSION_MINOR * 1000 + NP_VERSION_PATCH)
#define NP_UNPROVED UINT32_C(0x80000000)

/* The version of the library, as one number like NP_VERSION. They differ if a program runs with
 * another library than the one it was compiled for. A library that was compiled without a proof
 * (`./numaplan library --unproved`) adds NP_UNPROVED. */
uint32_t np_version(void);

/* ---- answers; a number that was given once is never given to another cause */

enum np_answer {
    NP_OK = 0,
    NP_CLOSED = 1,    /* the handle keeps nothing */
    NP_OPEN = 2,      /* the handle that is to be opened keeps something */
    NP_NO_MEMORY = 3, /* out of memory */
    NP_NO_ROOM = 4,   /* the answer is longer than the room for it */
    NP_UNKNOWN = 5,   /* no answer has this number */
    NP_ANSWER_LOST = 6, /* a script's line was served; there was no memory for its answer */

    /* a command is refused, in the order in which the causes are looked for */
    NP_COMMANDS_SPENT = 10,    /* ENOSPC: as many commands as the limits allow were accepted */
    NP_UNALIGNED = 11,         /* EINVAL: the start is no multiple of 4,096; also np_core_map_huge */
    NP_OUT_OF_SPACE = 12,      /* ENOMEM: the span ends above address 2^47 */
    NP_EMPTY_LENGTH = 13,      /* EINVAL: a map of no bytes */
    NP_BAD_OFFSET = 14,        /* EINVAL: an offset of 2^35 pages or more */
    NP_OVERLAP = 15,           /* EEXIST: a page of a map's span is mapped already */
    NP_HOLE = 16,              /* EFAULT: a page to which a policy is bound isn't mapped */
    NP_NO_SUCH_NODE = 17,      /* EINVAL: a node that the machine lacks */
    NP_BAD_WEIGHT = 18,        /* EINVAL: a weight of 0 or above 255 */
    NP_NODES_NOT_ALLOWED = 19, /* EINVAL: the policy would have no node */
    NP_NOT_SUPPORTED = 20,     /* EOPNOTSUPP: a home for a policy that takes none; a statement about
                                  a page of 2 MiB */
    NP_TOO_MANY_TASKS = 21,    /* ENOMEM: as many tasks have a policy as the limits allow */
    NP_TOO_MANY_RANGES = 22,   /* ENOMEM: there would be more ranges than the limits allow */
    NP_NO_POLICY_THERE = 23,   /* ENOENT: by the kernel's rules, a home where no page has one */
    NP_BAD_SPAN = 24,          /* EINVAL: by the kernel's rules, a span that ends too high */
    NP_NO_NODES = 25,          /* ENOSPC: by the kernel's rules, no allowed node; no list says so */

    /* an event of a worker, or a question, is refused */
    NP_NO_SUCH_WORKER = 30, /* there are not so many workers */
    NP_BUSY = 31,           /* the worker still looks for a frame */
    NP_IDLE = 32,           /* the worker looks for no frame */
    NP_BAD_TRY = 33,        /* a frame, or a word of frames, that the worker can't try now */
    NP_NOT_OWNED = 34,      /* the frame isn't the worker's, or isn't held by the seat */
    NP_BAD_CPU = 35,        /* the faulting node is none of the machine's */
    NP_UNMAPPED = 36,       /* the page isn't mapped */
    NP_NO_RANGE = 37,       /* there are not so many ranges */
    NP_PLACED_TWICE = 38,   /* two of the placements are of one page */

    NP_STILL = 40,     /* the worker has a current node, and goes on */
    NP_EXHAUSTED = 41, /* each frame of each listed node was met, and the worker is idle */
    NP_ALL_TAKEN = 42, /* each frame of each listed node was found taken by the seat's call */

    /* a core, or the pools of a machine's frames, can't be opened */
    NP_BAD_NODE_COUNT = 50,     /* no node, more than 256, or not nodes times nodes distances */
    NP_NO_MEMORY_NODE = 51,     /* no node has memory, or one that the machine lacks */
    NP_BAD_DISTANCE = 52,       /* not 10 from a node to itself, or below 11 to another */
    NP_TOO_MANY_FRAMES = 53,    /* over 4,096 of a node, over 65,536 in all, or without memory */
    NP_BAD_LIMITS = 54,         /* over 65,536 ranges or 1,024 tasks */
    NP_BAD_WORKERS = 55,        /* no worker, or more than 16 */
    NP_BAD_RULES = 56, NP_BAD_ORDERS = 57, /* no number of enum np_rules, of enum np_orders */
    NP_BAD_FORMAT = 58, /* no number of enum np_format */

    /* a list of nodes, as "0,2-3", is faulty */
    NP_LIST_EMPTY = 60,     /* an item without a byte */
    NP_LIST_BAD_DIGIT = 61, /* an item that is neither a nor a-b */
    NP_LIST_BACKWARDS = 62, /* a range whose first number is above its last */
    NP_LIST_TOO_HIGH = 63,  /* a number of 256 or more */

    /* a policy word, as "bind:0-1", is faulty: set_mempolicy(2)'s EINVAL */
    NP_UNKNOWN_MODE = 70,
    NP_BOTH_FLAGS = 71,
    NP_NODES_FORBIDDEN = 72,
    NP_FLAGS_FORBIDDEN = 73,
    NP_NODES_MISSING = 74,

    NP_NO_POLICY = 75,       /* the word says "default", which is no policy */
    NP_NO_NODE_ALLOWED = 76, /* the set of allowed nodes is empty */

    /* a question about a script has no answer */
    NP_NO_MACHINE = 80, /* no line of the script makes a machine */
    NP_BAD_ACCESS = 81, /* a line of the trace can't be replayed */
    NP_MANY_PROCESSES = 82, /* the script is a host's, and the answer is about one process */

    /* a command of a host is refused, or a question names what the host hasn't */
    NP_GROUP_EXISTS = 90,       /* EEXIST: there is a group of this number */
    NP_NO_SUCH_GROUP = 91,      /* ENOENT: there is no group of this number, or not so many */
    NP_TOO_MANY_GROUPS = 92,    /* ENOSPC: there are 1,024 groups below the root */
    NP_ROOT_GROUP = 93,         /* EACCES: the root has no list of its own */
    NP_POPULATED = 94,          /* ENOSPC: a process is in the group or below it */
    NP_PROCESS_EXISTS = 95,     /* EEXIST: there is a process of this number */
    NP_NO_SUCH_PROCESS = 96,    /* ESRCH: there is no process of this number, or not so many */
    NP_TOO_MANY_PROCESSES = 97, /* EAGAIN: there are 4,096 processes */
    NP_GROUP_MEMS = 98,         /* EPERM: a process's allowed nodes are its group's; no call asks
                                   for others */

    /* a change of pages that are there is refused */
    NP_TOO_MANY_RUNS = 100,      /* ENOMEM: there would be over 1,048,576 runs of pages */
    NP_ASTRAY = 101,             /* EIO: a page lies on a node for which the policy doesn't ask */
    NP_NO_SUCH_TARGET = 102,     /* ENODEV: the machine lacks the node, or it has no memory */
    NP_TARGET_NOT_ALLOWED = 103, /* EACCES: the node isn't allowed */
    NP_PAGE_UNMAPPED = 104,      /* EFAULT: the page isn't mapped; also of np_pages_fault */
    NP_NOT_PLACED = 105,         /* ENOENT: the page lies nowhere */
    NP_NODE_FULL = 106,          /* ENOMEM: the node has no room for the page, or for so many */
    NP_OCCUPIED = 107,           /* EEXIST: the page lies somewhere; no call answers so yet */
    NP_NO_SUCH_CPU = 108,        /* EINVAL: the machine lacks the node of the task's CPU */
    NP_SPAN_UNMAPPED = 109,      /* ENOMEM: a page of the span that is touched isn't mapped */

    /* of pages of 2 MiB, their pools, or the first touch of one page */
    NP_NO_SUCH_POOL = 110,  /* ENOENT: the machine lacks the node */
    NP_UNSURE = 111,        /* Linux takes all the node's memory where its pool is resized so */
    NP_NO_HUGE_PAGES = 112, /* ENOMEM: a mapping finds too few free pages that aren't reserved */
    NP_NODES_FULL = 113,    /* no node of the page's list has room for it */
    NP_NO_PAGE_FREE = 114,  /* SIGBUS: no node of its list gives a page of 2 MiB */
    /* a desk, or a reader of one */
    NP_NO_PLACE = 115,   /* EAGAIN: the desk has as many readers as it can */
    NP_ENDED = 116,      /* ESHUTDOWN: the desk was closed; the reader has what it had */
    NP_NOT_YET = 117,    /* EAGAIN: no version so new could be taken; enter again */
    NP_BAD_READERS = 118 /* EINVAL: no reader, or more than 64 */
};

/* ---- types */

/* A string as the two arguments that a call takes for a text, its bytes and how many they are, as in
 * `np_core_set_task(&core, 1, NP_TEXT("bind:0-1"))`; it is evaluated twice. */
#define NP_TEXT(string) (const uint8_t *)(string), strlen(string)

/* A core: commands, published versions, and workers that look for frames. */
typedef struct np_core {
    bool is_open_;
    void *at_;
} np_core;

/* A plan: the list of nodes of each page, as the commands of a core say. */
typedef struct np_plan {
    bool is_open_;
    void *at_;
} np_plan;

/* A script that is given line by line, with the answer to its last line. */
typedef struct np_script {
    bool is_open_;
    void *at_;
} np_script;

/* A set of nodes: node n is a member where bit n % 64 of word n / 64 is 1. */
typedef struct np_nodes {
    uint64_t words[4];
} np_nodes;

/* How large a core may grow: at most 65,536 ranges and 1,024 tasks with a policy. */
typedef struct np_limits {
    uint32_t max_ranges, max_tasks, max_commands;
} np_limits;

/* Whose rules count where Linux's documents and its kernel differ (docs/KERNEL.md): those of the
 * manual pages and the administration guide, or those of the running kernel, 6.1 to 6.12. */
enum np_rules { NP_RULES_DOCUMENT = 0, NP_RULES_LINUX = 1 };
/* In which order the nodes with memory are looked at from a node: the nearest first, of equal
 * distances the lower number; or as that kernel makes its zone lists. */
enum np_orders { NP_ORDERS_NEAREST = 0, NP_ORDERS_KERNEL = 1 };

/* What a core is opened by; all zeros is what np_core_open goes by. A kernel's orders ask which
 * nodes have CPUs: where all have them, or none, all zeros will do. */
typedef struct np_options {
    uint32_t rules, orders; /* of enum np_rules, of enum np_orders */
    np_nodes cpus;
} np_options;

/* A policy as it stands: its mode as get_mempolicy(2) gives it, with MPOL_F_STATIC_NODES (0x8000)
 * or MPOL_F_RELATIVE_NODES (0x4000), MPOL_DEFAULT (0) where there is no policy; its home node, or
 * NP_NO_HOME; the nodes that were asked for, allowed or not, and those that it has at present. */
#define NP_NO_HOME 256
typedef struct np_policy {
    uint32_t mode, home;
    np_nodes asked, nodes;
} np_policy;

/* Where a page was placed: by this version, for this page and task, on this frame of this
 * node. The rank is the node's place in the page's list, from 0. */
typedef struct np_placement {
    uint64_t version, page;
    uint32_t task, rank;
    uint16_t frame;
    uint8_t node;
} np_placement;

/* How many pages have each node first in their list. */
typedef struct np_counts {
    uint64_t pages[256];
} np_counts;

/* A range of pages: its address and length in bytes, and the index of its first page, in pages of
 * 4 KiB; pages of 2 MiB have NP_HUGE added to theirs. */
#define NP_HUGE ((uint64_t)1 << 36)
typedef struct np_range {
    uint64_t start, length, offset;
} np_range;

/* Reads a mask of nodes as mbind(2) and set_mempolicy(2) do: of `mask` the bits below `maxnode` - 1,
 * bit n % 64 of word n / 64 for node n; no mask is the empty set. NP_LIST_TOO_HIGH where a bit from
 * 256 on is 1 (EINVAL, of a number that a kernel can't have), and where `maxnode` is 0 or above
 * 32,769 (EINVAL). Then `nodes` is as it was. (These few lines are in the header, and not proved.) */
static inline uint32_t np_nodes_of(const unsigned long *mask, unsigned long maxnode,
                                   np_nodes *nodes)
{
    const unsigned long bits = 8 * sizeof *mask;
    np_nodes found = {{0, 0, 0, 0}};
    unsigned long node;
    if (mask && maxnode - 1 > 32768)
        return NP_LIST_TOO_HIGH;
    for (node = 0; mask && node < maxnode - 1; node++) {
        if (!(mask[node / bits] >> node % bits & 1))
            continue;
        if (node >= 256)
            return NP_LIST_TOO_HIGH;
        found.words[node / 64] |= (uint64_t)1 << node % 64;
    }
    *nodes = found;
    return NP_OK;
}

/* (the library's own sizes are proved where the types are written) */
#if defined(__cplusplus) && __cplusplus >= 201103L
static_assert(sizeof(np_core) == 16 && sizeof(np_plan) == 16, "a handle");
static_assert(sizeof(np_limits) == 12 && sizeof(np_placement) == 32, "a struct");
static_assert(sizeof(np_counts) == 2048 && sizeof(np_range) == 24, "a struct");
static_assert(sizeof(np_nodes) == 32 && sizeof(np_script) == 16, "a struct, a handle");
static_assert(sizeof(np_options) == 40 && sizeof(np_policy) == 72, "a struct");
#elif defined(__STDC_VERSION__) && __STDC_VERSION__ >= 201112L
_Static_assert(sizeof(np_core) == 16 && sizeof(np_plan) == 16, "a handle");
_Static_assert(sizeof(np_limits) == 12 && sizeof(np_placement) == 32, "a struct");
_Static_assert(sizeof(np_counts) == 2048 && sizeof(np_range) == 24, "a struct");
_Static_assert(sizeof(np_options) == 40 && sizeof(np_policy) == 72, "a struct");
#endif

/* ---- memory. A call that doesn't name NP_NO_MEMORY among its answers wants none; a command that
 * never answers that needs none */

/* By which functions the library gets memory and gives it back. Each is given `context`. The first
 * two answer a null pointer where they refuse, and else memory that is aligned as malloc's is;
 * realloc keeps what is there, and where it refuses leaves it; no length is 0. Threads call them at
 * once, as they call the library, which they don't call themselves. */
typedef struct np_memory {
    void *(*alloc)(void *context, size_t length);
    void *(*realloc)(void *context, void *at, size_t length);
    void (*free)(void *context, void *at);
    void *context;
} np_memory;

/* Takes these in place of malloc, realloc and free, for all handles. It is to come before any other
 * call, and before threads make some: NP_OPEN where memory was wanted already, and nothing has
 * changed. (Not proved.) */
uint32_t np_config(const np_memory *memory);

/* ---- opening and closing */

/* Opens a core of a machine with as many nodes as there are frame counts. `memory` is the list
 * of the nodes that have memory ("0-3"), `frames` how many frames each node has, `distances`
 * the table of distances, row by row. Nothing is mapped, version 0 is published, each worker
 * is idle. NP_OPEN; 60 to 63; 50 to 55; NP_NO_MEMORY. */
uint32_t np_core_open(np_core *core, const uint8_t *memory, size_t memory_length,
                      const uint32_t *frames, size_t nodes, const uint8_t *distances,
                      size_t distances_count, const np_limits *limits, uint32_t workers);

/* The same by options, which its copies and plans go by too. After NP_OPEN first NP_BAD_RULES,
 * NP_BAD_ORDERS; then as np_core_open, but that NP_BAD_NODE_COUNT is also answered, before the
 * machine is judged, for a kernel's orders where a node of `cpus` is none of the machine's. */
uint32_t np_core_open_by(np_core *core, const uint8_t *memory, size_t memory_length,
                         const uint32_t *frames, size_t nodes, const uint8_t *distances,
                         size_t distances_count, const np_limits *limits, uint32_t workers,
                         const np_options *options);

/* Frees the core, if there is one. */
void np_core_close(np_core *core);

/* Keeps a copy of the core in `copy`, to be asked "what if": it has the same ranges, policies
 * and published version, and its workers have the same frames and go on with the same frame
 * searches. What is then done to one of the two doesn't change the other. NP_OPEN where `copy`
 * keeps a core, NP_CLOSED where `core` keeps none, NP_NO_MEMORY. */
uint32_t np_core_copy(np_core *core, np_core *copy);

/* How many commands are accepted, and how many of them are published. NP_CLOSED. */
uint32_t np_core_versions(np_core *core, uint64_t *accepted, uint64_t *published);

/* ---- commands: each that is accepted adds one to the version. NP_CLOSED; 10 to 25;
 * NP_NO_MEMORY, but never of a weight, of allowed nodes, of a task's "default" or of no bytes */

/* Maps `length` bytes of unmapped pages from `start` on; the first page has the index `offset`. */
uint32_t np_core_map(np_core *core, uint64_t start, uint64_t length, uint64_t offset);

/* The same as pages of 2 MiB, as many as the length takes (MAP_HUGETLB of mmap(2)), from a start
 * and an offset, in pages of 4 KiB, that are such a page's. Each takes one turn. NP_UNALIGNED comes
 * also where another call would change a part of one alone.
 *
 * All calls name and count pages of 4 KiB, of which such a page is 512, its parts; only
 * np_core_explain and its text count the index in pages of 2 MiB, and np_core_maps counts these, as
 * np_core_predict_text does in a range where each node has whole ones.
 * Each part has the list of nodes that a kernel goes by for its page. But there are no pools (an
 * np_pages and an np_host have them: np_pages_map_huge, np_host_map_huge_for), and where pages are
 * placed each part goes by itself, as in no kernel: np_core_touch and all that workers do, np_core_fill and other calls with free pages,
 * np_core_replay, and what an np_pages that copies this core says of these pages. */
uint32_t np_core_map_huge(np_core *core, uint64_t start, uint64_t length, uint64_t offset);

/* Unmaps the pages of a span, those among them that are mapped. */
uint32_t np_core_unmap(np_core *core, uint64_t start, uint64_t length);

/* Gives the pages of a span a policy of their own (mbind(2)): a word as "interleave=static:0-3", by
 * name (default, prefer, bind, interleave, local, many, weighted), flags and nodes. "default" takes
 * the policy away. A faulty word is answered first, even for a closed handle: 60 to 63, 70
 * to 74; but by the kernel's rules no bytes are bound before 72 to 74 are looked for. */
uint32_t np_core_mbind(np_core *core, uint64_t start, uint64_t length, const uint8_t *policy,
                       size_t policy_length);

/* The same by mbind(2)'s own words: a mode (MPOL_BIND is 2), with MPOL_F_STATIC_NODES (0x8000) or
 * MPOL_F_RELATIVE_NODES (0x4000) in it, and a mask of 256 bits, as an np_policy has both (`mode`,
 * `asked`). What is wrong with them is answered first, even for a closed handle: 70 to 74. */
uint32_t np_core_mbind_by(np_core *core, uint64_t start, uint64_t length, uint32_t mode,
                          const np_nodes *nodes);

/* The same by a mask as mbind(2) takes it; as np_nodes_of answers of it first. */
static inline uint32_t np_core_mbind_mask(np_core *core, uint64_t start, uint64_t length,
                                          uint32_t mode, const unsigned long *mask,
                                          unsigned long maxnode)
{
    np_nodes nodes;
    uint32_t code = np_nodes_of(mask, maxnode, &nodes);
    return code ? code : np_core_mbind_by(core, start, length, mode, &nodes);
}

/* Gives a task its policy (set_mempolicy(2)); a faulty word is answered as by np_core_mbind. */
uint32_t np_core_set_task(np_core *core, uint32_t task, const uint8_t *policy,
                          size_t policy_length);

/* The same by set_mempolicy(2)'s own words; as np_core_mbind_by. */
uint32_t np_core_set_task_by(np_core *core, uint32_t task, uint32_t mode, const np_nodes *nodes);

/* The same by a mask as set_mempolicy(2) takes it; as np_nodes_of answers of it first. */
static inline uint32_t np_core_set_task_mask(np_core *core, uint32_t task, uint32_t mode,
                                             const unsigned long *mask, unsigned long maxnode)
{
    np_nodes nodes;
    uint32_t code = np_nodes_of(mask, maxnode, &nodes);
    return code ? code : np_core_set_task_by(core, task, mode, &nodes);
}

/* Gives a task the policy that another has, or none, as a new thread has its maker's (clone(2)). */
uint32_t np_core_inherit(np_core *core, uint32_t task, uint32_t from);

/* Gives the policies of a span's pages a home node (set_mempolicy_home_node(2)). */
uint32_t np_core_set_home(np_core *core, uint64_t start, uint64_t length, uint32_t node);

/* The same by set_mempolicy_home_node(2)'s own words. First of all, even for a closed handle,
 * NP_FLAGS_FORBIDDEN where `flags` isn't 0. */
uint32_t np_core_home_by(np_core *core, uint64_t start, uint64_t length, uint64_t node,
                         uint64_t flags);

/* Gives a node its weight for weighted interleaving, from 1 to 255. */
uint32_t np_core_set_weight(np_core *core, uint32_t node, uint32_t weight);

/* Changes the nodes on which memory may be placed (cpuset.mems of cpusets(7)), a list as "0-1". A
 * faulty list is answered first, even for a closed handle: 60 to 63. */
uint32_t np_core_set_mems(np_core *core, const uint8_t *nodes, size_t nodes_length);

/* Publishes all accepted commands. NP_CLOSED, NP_NO_MEMORY. */
uint32_t np_core_publish(np_core *core);

/* ---- ranges, by all accepted commands, published or not */

/* How many ranges of pages there are: a range is as many pages as follow each other, with indexes
 * that do so too, and with the same policy of their own or none. At most 65,536. NP_CLOSED. */
uint32_t np_core_ranges(np_core *core, size_t *count);

/* Writes the range at a place, from 0, in order of address; at the start of `policy` the policy of
 * its own, as numa_maps shows it with the nodes that it has at present ("interleave=static:0-3",
 * but also "weighted interleave:0-1"; at most 1,024 bytes, and none where it has no policy of its
 * own); and to `policy_length` how many bytes these are. NP_NO_ROOM where `room` is less: then
 * `policy_length` is what is needed, and `range` and `policy` are as they were. NP_CLOSED,
 * NP_NO_RANGE. */
uint32_t np_core_range(np_core *core, size_t index, np_range *range, uint8_t *policy, size_t room,
                       size_t *policy_length);

/* Writes the place of the range that has an address to `index`, or else of the next one: as many as
 * there are ranges where there is none. One search, by halves. NP_CLOSED. */
uint32_t np_core_range_at(np_core *core, uint64_t address, size_t *index);

/* Writes the policy of its own that the range at a place has, and the policy of a task.
 * NP_CLOSED, NP_NO_RANGE. */
uint32_t np_core_range_policy(np_core *core, size_t index, np_policy *policy);
uint32_t np_core_task_policy(np_core *core, uint32_t task, np_policy *policy);

/* Writes one line for each range, in order of address, as /proc/PID/numa_maps has it (numa(7)):
 * "00010000 bind:0-1 anon=2 N0=1 N1=1 kernelpagesize_kB=4" and a line feed. These are its address
 * in hexadecimal, the policy by which a fault of this task is served, and of the placements' pages
 * how many are in it, in all and on each node. Pages of 2 MiB are counted as such, each on the node
 * of the lowest of its parts that have placements, and end in kernelpagesize_kB=2048. Placements
 * come from np_core_touch and np_core_try, or are the caller's own; those of pages that aren't
 * mapped are left out. The text stands at the start of `text`, its length in `length`. NP_NO_ROOM
 * where `room` is less: then `length` is what is needed, and `text` is as it was. NP_CLOSED,
 * NP_PLACED_TWICE, NP_NO_MEMORY. */
uint32_t np_core_maps(np_core *core, uint32_t task, const np_placement *placements, size_t count,
                      uint8_t *text, size_t room, size_t *length);

/* ---- workers */

/* A worker places a page that a task touched on the node `cpu`: on the lowest free frame of
 * the first node of the page's list that has one, by the newest published version.
 * NP_EXHAUSTED where no listed node has a free frame. NP_CLOSED, NP_NO_SUCH_WORKER, NP_BUSY,
 * NP_BAD_CPU, NP_UNMAPPED. `placed` is written where NP_OK is answered. */
uint32_t np_core_touch(np_core *core, uint32_t worker, uint32_t task, uint64_t page, uint32_t cpu,
                       np_placement *placed);

/* The same step by step: a worker takes up a request (NP_STILL), looks at the 64 frames of a
 * word of its current node, and tries a frame until one is free (NP_OK) or none is left
 * (NP_EXHAUSTED). NP_CLOSED; 30 to 36. */
uint32_t np_core_begin(np_core *core, uint32_t worker, uint32_t task, uint64_t page, uint32_t cpu);
uint32_t np_core_look(np_core *core, uint32_t worker, uint32_t word);
uint32_t np_core_try(np_core *core, uint32_t worker, uint8_t node, uint16_t frame,
                     np_placement *placed);

/* A worker gives one of its frames back. NP_CLOSED, NP_NO_SUCH_WORKER, NP_BUSY, NP_NOT_OWNED. */
uint32_t np_core_give(np_core *core, uint32_t worker, uint8_t node, uint16_t frame);

/* ---- plans. Questions about one need no memory: its version, lists, nodes, counts and runs. */

/* Compiles all accepted commands of the core, published or not, into a plan: the first time from
 * nothing; later plans cost what the commands since have touched. NP_OPEN where `plan` keeps one,
 * NP_CLOSED where `core` keeps none, NP_NO_MEMORY. */
uint32_t np_core_compile(np_core *core, np_plan *plan);

/* Keeps the plan of the published commands of the core, by which its workers place pages: the
 * newest published version, as np_core_versions gives it. Compiles nothing. NP_OPEN, NP_CLOSED,
 * NP_NO_MEMORY. */
uint32_t np_core_plan(np_core *core, np_plan *plan);

/* Keeps the same plan in `other`, which may outlive `plan`. NP_OPEN, NP_CLOSED, NP_NO_MEMORY. */
uint32_t np_plan_share(const np_plan *plan, np_plan *other);

/* Lets go of the plan, which is freed with its last handle. */
void np_plan_close(np_plan *plan);

/* How many commands the plan was made of. NP_CLOSED. */
uint32_t np_plan_version(const np_plan *plan, uint64_t *version);

/* Writes the list of nodes of a page at the start of `nodes`, in the order in which memory is
 * looked for on them, and how many they are (1 to 256) to `count`. NP_NO_ROOM where `room` is less:
 * then `count` is what is needed, and `nodes` is as it was. NP_CLOSED, NP_BAD_CPU, NP_UNMAPPED. */
uint32_t np_plan_choice(const np_plan *plan, uint32_t task, uint64_t page, uint32_t cpu,
                        uint8_t *nodes, size_t room, size_t *count);

/* Writes the first node of each page's list, for `pages` pages from `first` on.
 * NP_CLOSED, NP_BAD_CPU, NP_UNMAPPED. */
uint32_t np_plan_fill(const np_plan *plan, uint32_t task, uint32_t cpu, uint64_t first,
                      uint8_t *nodes, size_t pages);

/* Counts, for `pages` pages from `first` on, how many have each node first. The time doesn't grow
 * with the pages. NP_CLOSED, NP_BAD_CPU, NP_UNMAPPED. */
uint32_t np_plan_counts(const np_plan *plan, uint32_t task, uint32_t cpu, uint64_t first,
                        uint64_t pages, np_counts *counts);

/* ---- sets of nodes, and policy words. A set is a value: nothing is to be freed. */

/* Reads a list of nodes, as "0-2,5". 60 to 63. */
uint32_t np_nodes_read(const uint8_t *text, size_t length, np_nodes *nodes);

/* Writes a set as a list, "0-2,5", at the start of `text`, and how many bytes that are (at most
 * 1,024) to `length`. The empty set is the empty text, which np_nodes_read refuses. NP_NO_ROOM
 * where `room` is less: then `length` is what is needed, and `text` is as it was. */
uint32_t np_nodes_write(const np_nodes *nodes, uint8_t *text, size_t room, size_t *length);

/* The nodes that a policy has (a word as np_core_mbind takes it) once it is set where the
 * nodes of the list `allowed` are allowed: set_mempolicy(2). `nodes` is written where NP_OK is
 * answered. In this order: 60 to 63 and 70 to 74 for the word, 60 to 63 for the list,
 * NP_NO_POLICY, NP_NODES_NOT_ALLOWED where the policy would have no node. "local" has none and
 * is taken. */
uint32_t np_policy_effective(const uint8_t *policy, size_t policy_length, const uint8_t *allowed,
                             size_t allowed_length, np_nodes *nodes);

/* The same once the allowed nodes have then changed from `old_allowed` to `new_allowed`, as
 * when cpuset.mems does (cpusets(7)): with =static or =relative the word's nodes are read
 * again, without a flag the nodes that the policy had move to the same places among the new
 * ones. May be empty. This is by the documents' rules (`rules document` of a script). First what
 * np_policy_effective answers of the word and the old nodes, then 60 to 63 for the new ones. */
uint32_t np_policy_rebind(const uint8_t *policy, size_t policy_length, const uint8_t *old_allowed,
                          size_t old_length, const uint8_t *new_allowed, size_t new_length,
                          np_nodes *nodes);

/* The same by these rules, of enum np_rules. By the kernel's, "prefer" and "many" keep their nodes,
 * and another policy that would have no node has all new ones. First NP_BAD_RULES. */
uint32_t np_policy_rebind_by(uint32_t rules, const uint8_t *policy, size_t policy_length,
                             const uint8_t *old_allowed, size_t old_length,
                             const uint8_t *new_allowed, size_t new_length, np_nodes *nodes);

/* The same policy as numa_maps shows it (proc_pid_numa_maps(5)), as "prefer:1"; written as a
 * list is by np_nodes_write, and answered as by np_policy_effective. At most 1,024 bytes. */
uint32_t np_policy_text(const uint8_t *policy, size_t policy_length, const uint8_t *allowed,
                        size_t allowed_length, uint8_t *text, size_t room, size_t *length);

/* ---- scripts: the language of `numaplan run`, docs/SCRIPT.md */

/* Answers a whole script, from a fresh start: writes what `numaplan run` prints at the start of
 * `answers`, and how many bytes that are to `written`. NP_NO_ROOM where `room` is less: then
 * `written` is what is needed, and `answers` is as it was. NP_NO_MEMORY. */
uint32_t np_script_run(const uint8_t *script, size_t length, uint8_t *answers, size_t room,
                       size_t *written);

/* Opens a script before its first line. NP_OPEN, NP_NO_MEMORY. */
uint32_t np_script_open(np_script *script);

/* The same by these rules, if no line `rules` gives others. NP_OPEN, NP_BAD_RULES, NP_NO_MEMORY. */
uint32_t np_script_open_by(np_script *script, uint32_t rules);

/* Frees the script, if there is one. */
void np_script_close(np_script *script);

/* Serves a line (without its line feed), keeps its answer in place of the last one, and writes to
 * `needed` how many bytes it has: none for a comment or an empty line. The answer says whether a
 * line is faulty or refused. NP_CLOSED; NP_NO_MEMORY: nothing has changed; NP_ANSWER_LOST: the line
 * was served, there was no memory for its answer, and none is kept. Only a question, `maps` or
 * `moved` has an answer of over 4,096 bytes that can be lost so; it changed nothing, and can be
 * asked again. */
uint32_t np_script_line(np_script *script, const uint8_t *line, size_t length, size_t *needed);

/* Copies the answer to the last line, with its line feed, to the start of `answer`, and how many
 * bytes that are to `length`. It is kept until the next line. NP_CLOSED; NP_NO_ROOM where `room` is
 * less: then `length` is what is needed, and `answer` is as it was. */
uint32_t np_script_answer(np_script *script, uint8_t *answer, size_t room, size_t *length);

/* ---- answers as names */

/* Writes the name of an answer at the start of `name`, as "Unaligned" for NP_UNALIGNED, and how
 * many bytes it has (at most 32) to `length`. NP_NO_ROOM as above; NP_UNKNOWN where no answer has
 * this number. */
uint32_t np_answer_name(uint32_t code, uint8_t *name, size_t room, size_t *length);

/* Writes what an answer says in words, and what to do, as "a page of the span is mapped already;
 * unmap it first" for NP_OVERLAP, at the start of `words`, and how many bytes that are (at most 160)
 * to `length`: what Python and Rust say after the name. NP_NO_ROOM as above; NP_UNKNOWN. A later
 * version may say it in other words. */
uint32_t np_answer_words(uint32_t code, uint8_t *words, size_t room, size_t *length);

/* Writes the error number that Linux gives for the cause of an answer (errno(3)): EINVAL,
 * ENOMEM, EEXIST, EFAULT, ENOSPC, EOPNOTSUPP or ENOENT for what mmap(2), mbind(2),
 * set_mempolicy(2) and set_mempolicy_home_node(2) refuse, EACCES, ESRCH, EAGAIN or EPERM too for
 * what a host refuses, EACCES, EIO or ENODEV too for what pages refuse, EAGAIN or ESHUTDOWN too for
 * what desks and readers refuse, else 0. NP_UNKNOWN where no answer has this number. */
uint32_t np_answer_errno(uint32_t code, uint32_t *number);

#ifdef __cplusplus
}
#endif

#include "numaplan_plans.h"
#include "numaplan_desks.h"
#include "numaplan_pools.h"
#include "numaplan_reports.h"
#include "numaplan_hosts.h"
#include "numaplan_placed.h"
#endif
