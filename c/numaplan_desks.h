/* numaplan_desks.h: desks and their readers, for C99 and C++. numaplan.h includes this file, and its
 * first page applies here too. */
#ifndef NUMAPLAN_DESKS_H
#define NUMAPLAN_DESKS_H

#include "numaplan.h"

#ifdef __cplusplus
extern "C" {
#endif

/* ---- desks: one thread gives commands and publishes, up to 64 readers look. Nobody waits for
 * anybody: a reader keeps the plan that it took last, whatever is published, until it enters again.
 *
 * Threads. A desk, like a core, is in one call at a time; calls of its readers may run at the same
 * time. A reader may go to another thread. np_reader_enter and np_reader_close have the reader to
 * themselves; questions, which take it `const`, may run in any number of threads at once.
 *
 * Memory. No question needs any, and np_reader_enter allocates nothing and frees nothing: a plan
 * that no reader has any more is freed by a later np_desk_publish. So at most as many plans are kept
 * as there are readers, and two. */

/* A desk: commands, and what of them is published. */
typedef struct np_desk {
    bool is_open_;
    void *at_;
} np_desk;

/* A reader of a desk, with the plan that it took last. */
typedef struct np_reader {
    bool is_open_;
    void *at_;
} np_reader;

#if defined(__cplusplus) && __cplusplus >= 201103L
static_assert(sizeof(np_desk) == 16 && sizeof(np_reader) == 16, "a handle");
#elif defined(__STDC_VERSION__) && __STDC_VERSION__ >= 201112L
_Static_assert(sizeof(np_desk) == 16 && sizeof(np_reader) == 16, "a handle");
#endif

/* Opens a desk of a machine, described as for np_core_open_by, for at most `readers` readers at a
 * time, from 1 to 64. Version 0 is published: nothing is mapped. NP_OPEN; NP_BAD_RULES,
 * NP_BAD_ORDERS; as np_core_open_by, with NP_BAD_READERS in place of NP_BAD_WORKERS. */
uint32_t np_desk_open(np_desk *desk, const uint8_t *memory, size_t memory_length,
                      const uint32_t *frames, size_t nodes, const uint8_t *distances,
                      size_t distances_count, const np_limits *limits, uint32_t readers,
                      const np_options *options);

/* Frees the desk, if there is one. Its readers keep what they have, and answer by it. */
void np_desk_close(np_desk *desk);

/* Commands, as the calls of the same name for a core: each that is accepted adds one to the version,
 * and readers see it once it is published. */
uint32_t np_desk_map(np_desk *desk, uint64_t start, uint64_t length, uint64_t offset);
uint32_t np_desk_map_huge(np_desk *desk, uint64_t start, uint64_t length, uint64_t offset);
uint32_t np_desk_unmap(np_desk *desk, uint64_t start, uint64_t length);
uint32_t np_desk_mbind(np_desk *desk, uint64_t start, uint64_t length, const uint8_t *policy,
                       size_t policy_length);
uint32_t np_desk_mbind_by(np_desk *desk, uint64_t start, uint64_t length, uint32_t mode,
                          const np_nodes *nodes);
uint32_t np_desk_set_task(np_desk *desk, uint32_t task, const uint8_t *policy,
                          size_t policy_length);
uint32_t np_desk_set_task_by(np_desk *desk, uint32_t task, uint32_t mode, const np_nodes *nodes);
uint32_t np_desk_inherit(np_desk *desk, uint32_t task, uint32_t from);
uint32_t np_desk_set_home(np_desk *desk, uint64_t start, uint64_t length, uint32_t node);
uint32_t np_desk_home_by(np_desk *desk, uint64_t start, uint64_t length, uint64_t node,
                         uint64_t flags);
uint32_t np_desk_set_weight(np_desk *desk, uint32_t node, uint32_t weight);
uint32_t np_desk_set_mems(np_desk *desk, const uint8_t *nodes, size_t nodes_length);

/* Publishes all accepted commands, and writes how many these are to `version`: the version. Each
 * np_reader_enter that begins later sees it or a later one. NP_CLOSED, NP_NO_MEMORY. */
uint32_t np_desk_publish(np_desk *desk, uint64_t *version);

/* How many commands are accepted, and how many of them are published. NP_CLOSED. */
uint32_t np_desk_versions(np_desk *desk, uint64_t *accepted, uint64_t *published);

/* Makes a reader in `reader`, which looks at what is published. NP_OPEN where `reader` keeps one,
 * NP_CLOSED where `desk` keeps none, NP_NO_PLACE where the desk has as many readers as it can,
 * NP_NO_MEMORY. */
uint32_t np_desk_reader(np_desk *desk, np_reader *reader);

/* ---- readers */

/* Takes the newest published plan, and writes its version to `version`; one that is none older than
 * `least`, as np_desk_publish gave it to another thread, or 0. Where the newest is the reader's
 * already, this is one load; and many questions may follow one call, which the same plan answers.
 * Where it is refused, the reader keeps the plan that it has: NP_CLOSED; NP_ENDED where the desk was
 * closed; NP_NOT_YET where the newest that could be taken is older than `least`, which a desk that
 * published it answers only while others are in the way: enter again. */
uint32_t np_reader_enter(np_reader *reader, uint64_t least, uint64_t *version);

/* Questions to the plan that the reader took last, as those to a plan. NP_CLOSED, NP_BAD_CPU,
 * NP_UNMAPPED; NP_NO_ROOM. */
uint32_t np_reader_version(const np_reader *reader, uint64_t *version);
uint32_t np_reader_choice(const np_reader *reader, uint32_t task, uint64_t page, uint32_t cpu,
                          uint8_t *nodes, size_t room, size_t *count);
uint32_t np_reader_fill(const np_reader *reader, uint32_t task, uint32_t cpu, uint64_t first,
                        uint8_t *nodes, size_t pages);
uint32_t np_reader_counts(const np_reader *reader, uint32_t task, uint32_t cpu, uint64_t first,
                          uint64_t pages, np_counts *counts);

/* Lets go of the reader, whose place at the desk is free then. */
void np_reader_close(np_reader *reader);

#ifdef __cplusplus
}
#endif
#endif
