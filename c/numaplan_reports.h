/* numaplan_reports.h: the reports of numaplan, for C99 and C++. numaplan.h includes this file, and
 * its first page applies here too.
 *
 * Scripts. The first eight calls play a script from a fresh start to its end and answer what the
 * program's commands `check`, `predict`, `diff`, `explain`, `replay` and `moves` print, byte for
 * byte. Lines that are malformed or refused are skipped; a message reports each. A call reads a
 * script, and lines to add to it, as texts: messages call the script `-`, the lines `--then`, a
 * trace `trace` and a text of lines `at` `at`.
 *
 * Pages that are there. np_predict_at, np_explain_at and np_moves_at go by the pages that a script
 * leaves (at, populate, moves), and then by lines `at START LENGTH NODE`, in a host `in P at ..`,
 * of a further text `at`; other lines of that text are passed over. The other calls are about first
 * touches, and judge lines `at` as np_script_run does; np_explain says too where the lines of a
 * script put its page. Of pages of 2 MiB, which only np_script_run, np_script_line, np_predict_at and
 * np_predict with free pages take from pools, a message says how they count: each as 512 of 4 KiB, in
 * a row as one, or that those that are there are left out.
 *
 * Rooms. The answer stands at the start of `text`, and the messages after it. `report` gets how
 * many bytes each has. NP_NO_ROOM where both together are longer than the room: then `report` gives
 * what is needed, and `text` is as it was. With any other number there is no answer, but the
 * messages stand in `text` all the same. After NP_NO_MEMORY, NP_BAD_RULES and NP_BAD_FORMAT, which
 * come first, nothing has changed.
 *
 * Cores. The other calls ask the same of a core, by all accepted commands, and answer structs;
 * those that end with `_text` answer in the formats of the commands, as the calls for scripts do. A
 * change is asked about with two cores: one as it stands, and a copy of it (np_core_copy) with more
 * commands. */
#ifndef NUMAPLAN_REPORTS_H
#define NUMAPLAN_REPORTS_H

#include "numaplan.h"

#ifdef __cplusplus
extern "C" {
#endif

/* ---- types */

/* The formats of an answer: lines, JSON (RFC 8259: one object, or one on each line), records with a
 * header (RFC 4180), a picture (SVG 1.1), a page for a browser (HTML 5). Each answer has some of
 * them, as the program's command has, and is text where it lacks the wanted one. */
enum np_format {
    NP_FORMAT_TEXT = 0,
    NP_FORMAT_JSON = 1,
    NP_FORMAT_CSV = 2,
    NP_FORMAT_SVG = 3,
    NP_FORMAT_HTML = 4
};

/* A question about a script: the task that touches pages, the node of the CPU on which it runs,
 * whose rules count if no line `rules` gives others (of enum np_rules), and the format of the
 * answer (of enum np_format). */
typedef struct np_question {
    uint32_t task, cpu, rules, format;
} np_question;

/* How many free pages a node has. */
typedef struct np_free {
    uint64_t pages;
    uint8_t node;
} np_free;

/* How many bytes an answer has, and the messages after it; 1 where lines were malformed, refused or
 * not judged, so that the answer goes by the others alone, else 0. */
typedef struct np_report {
    size_t answer, messages;
    uint64_t faulty;
} np_report;

/* Whose policy serves a page: that of its range, of the task, or none, which is local
 * allocation. */
enum np_scope { NP_SCOPE_RANGE = 0, NP_SCOPE_TASK = 1, NP_SCOPE_SYSTEM = 2 };

/* What puts the nodes of a page in order. LOCAL, PREFERRED and the two INTERLEAVEs: the allowed
 * nodes in the order of a node: the faulting one, the lowest of the policy's, the one whose turn it
 * is. BIND: the policy's nodes alone in the order of the home or else the faulting node.
 * PREFERRED_MANY: the same, and after them the other allowed nodes. */
enum np_rule {
    NP_RULE_LOCAL = 0,
    NP_RULE_PREFERRED = 1,
    NP_RULE_BIND = 2,
    NP_RULE_PREFERRED_MANY = 3,
    NP_RULE_INTERLEAVE = 4,
    NP_RULE_WEIGHTED_INTERLEAVE = 5
};

/* Why a page goes where it goes: the policy that serves it (its mode is 0 where none does), its
 * index, in pages of its size, the place of its turn among how many (0 of 0 where nodes take no
 * turns), the scope and the rule (of enum np_scope and np_rule), and the node in whose order the
 * nodes are. */
typedef struct np_explanation {
    np_policy policy;
    uint64_t index, place, places;
    uint32_t scope, rule, node;
} np_explanation;

/* How many pages of a span go to another node: of `pages` pages from number `first` on, `moved` go
 * to node `to`, and would have gone to node `from`. */
typedef struct np_move {
    uint64_t first, pages, moved;
    uint8_t from, to;
} np_move;

/* Accesses of a trace: `count` by a task, on a CPU of node `cpu`, to the page of a number (its
 * address divided by 4,096). */
typedef struct np_access {
    uint32_t task;
    uint64_t page;
    uint32_t cpu, count;
} np_access;

/* How many accesses of a task on CPUs of node `cpu` went to pages on a node, and how many of them
 * were faults, which placed the page. Where `node` is NP_NO_FRAME the pages found no frame. */
typedef struct np_route {
    uint64_t accesses, faults;
    uint32_t task, cpu, node;
} np_route;

enum { NP_NO_FRAME = 256 };

#if defined(__cplusplus) && __cplusplus >= 201103L
static_assert(sizeof(np_question) == 16 && sizeof(np_free) == 16, "a struct");
static_assert(sizeof(np_report) == 24 && sizeof(np_explanation) == 112, "a struct");
static_assert(sizeof(np_move) == 32 && sizeof(np_access) == 24, "a struct");
static_assert(sizeof(np_route) == 32, "a struct");
#elif defined(__STDC_VERSION__) && __STDC_VERSION__ >= 201112L
_Static_assert(sizeof(np_question) == 16 && sizeof(np_free) == 16, "a struct");
_Static_assert(sizeof(np_report) == 24 && sizeof(np_explanation) == 112, "a struct");
_Static_assert(sizeof(np_move) == 32 && sizeof(np_access) == 24, "a struct");
_Static_assert(sizeof(np_route) == 32, "a struct");
#endif

/* ---- reports on scripts */

/* What is wrong with the lines of a script, and what a running kernel would do otherwise with one
 * (numaplan check): all of it is the answer. The question's task and node don't count.
 * NP_BAD_RULES; NP_BAD_FORMAT; NP_NO_MEMORY; NP_NO_ROOM. */
uint32_t np_check(const uint8_t *script, size_t length, const np_question *asked, uint8_t *text,
                  size_t room, np_report *report);

/* Where all mapped pages would go, if the task touched each of them now (numaplan predict), where
 * nodes have so many free pages; others never run out. NP_BAD_RULES; NP_BAD_FORMAT; NP_NO_MEMORY;
 * NP_NO_MACHINE; NP_NO_SUCH_NODE for free pages of a node that the machine lacks; NP_BAD_CPU. */
uint32_t np_predict(const uint8_t *script, size_t length, const uint8_t *lines,
                    size_t lines_length, const np_question *asked, const np_free *free_pages,
                    size_t free_count, uint8_t *text, size_t room, np_report *report);

/* Which pages would go to another node after the lines than before them (numaplan diff --then).
 * NP_BAD_RULES; NP_BAD_FORMAT; NP_NO_MEMORY; NP_NO_MACHINE; NP_BAD_CPU. */
uint32_t np_diff(const uint8_t *script, size_t length, const uint8_t *lines, size_t lines_length,
                 const np_question *asked, uint8_t *text, size_t room, np_report *report);

/* Why the page of a number (its address divided by 4,096) would go where it goes; of one that is
 * there also where it lies, and from which nodes, or with which nodes full, it would come there
 * (numaplan explain). NP_BAD_RULES; NP_BAD_FORMAT; NP_NO_MEMORY; NP_NO_MACHINE; NP_BAD_CPU;
 * NP_UNMAPPED. */
uint32_t np_explain(const uint8_t *script, size_t length, const uint8_t *lines,
                    size_t lines_length, const np_question *asked, uint64_t page, uint8_t *text,
                    size_t room, np_report *report);

/* Where the accesses of a trace go on the frames of a machine where no page is placed, or, where no
 * node has a frame, in the room that the script leaves, beside its pages (numaplan replay): a line
 * `TASK ADDRESS CPU [COUNT]` for each, of a host with `in P` before it; a line `mark TEXT` closes a
 * phase. The question's task and node don't count. NP_BAD_RULES; NP_BAD_FORMAT; NP_NO_MEMORY;
 * NP_NO_MACHINE; NP_BAD_ACCESS where a line of the trace can't be replayed, or no page finds room;
 * the last message says why. */
uint32_t np_replay(const uint8_t *script, size_t length, const uint8_t *lines, size_t lines_length,
                   const uint8_t *trace, size_t trace_length, const np_question *asked,
                   uint8_t *text, size_t room, np_report *report);

/* As np_predict, with its answers, but pages that are there are counted where they lie, and take
 * no free page (numaplan predict --at). `at` has lines `at`, which follow the script and the lines.
 * There is no page for a browser, but text. */
uint32_t np_predict_at(const uint8_t *script, size_t length, const uint8_t *lines,
                       size_t lines_length, const uint8_t *at, size_t at_length,
                       const np_question *asked, const np_free *free_pages, size_t free_count,
                       uint8_t *text, size_t room, np_report *report);

/* As np_explain, with its answers, but lines `at` of this text, in a host `in P at ..`, follow the
 * script and the lines (numaplan explain --at). */
uint32_t np_explain_at(const uint8_t *script, size_t length, const uint8_t *lines,
                       size_t lines_length, const uint8_t *at, size_t at_length,
                       const np_question *asked, uint64_t page, uint8_t *text, size_t room,
                       np_report *report);

/* What becomes of pages that are there, line by line (numaplan moves --then): a line `mems`,
 * `migrate`, `cgroup-mems` or `attach` each, of which the last may end with a line feed. `at` has
 * lines `at`, which follow the script. Nodes take as many more pages as free_pages says, else as
 * the script leaves them (`room`); others never fill. The question's task and node don't count.
 * NP_BAD_RULES; NP_BAD_FORMAT; NP_NO_MEMORY; NP_NO_MACHINE; NP_MANY_PROCESSES for a picture of a
 * host; NP_NO_SUCH_NODE as np_predict. */
uint32_t np_moves_at(const uint8_t *script, size_t length, const uint8_t *lines,
                     size_t lines_length, const uint8_t *at, size_t at_length,
                     const np_question *asked, const np_free *free_pages, size_t free_count,
                     uint8_t *text, size_t room, np_report *report);

/* The same of pages that lie where the task touched them on a CPU of the node, while every node had
 * room (numaplan moves --node). Also NP_BAD_CPU. */
uint32_t np_moves_touched(const uint8_t *script, size_t length, const uint8_t *lines,
                          size_t lines_length, const np_question *asked, const np_free *free_pages,
                          size_t free_count, uint8_t *text, size_t room, np_report *report);

/* ---- reports on a core, by all accepted commands, published or not */

/* Counts, for each node, the mapped pages that would go to it, if the task touched each of them now
 * on a CPU of node `cpu`. The time grows with the ranges, not with the pages. NP_CLOSED,
 * NP_BAD_CPU, NP_NO_MEMORY. */
uint32_t np_core_predict(np_core *core, uint32_t task, uint32_t cpu, np_counts *counts);

/* The same where each node has as many free pages as `free_pages` says, which gets what remains of
 * them once each mapped page, in ascending order, has taken a free page of the first node of its
 * list that has one, or has gone nowhere. NP_CLOSED, NP_BAD_CPU, NP_NO_MEMORY. */
uint32_t np_core_fill(np_core *core, uint32_t task, uint32_t cpu, np_counts *free_pages);

/* Explains why a page would go where it goes, if the task touched it now on a CPU of node `cpu`;
 * its list of nodes is np_plan_choice's. NP_CLOSED, NP_BAD_CPU, NP_UNMAPPED, NP_NO_MEMORY. */
uint32_t np_core_explain(np_core *core, uint32_t task, uint64_t page, uint32_t cpu,
                         np_explanation *explanation);

/* Lists the pages that would go to another node in the core `after` than in `before`, if the task
 * touched each of them now on a CPU of node `cpu`: for each span of pages that are mapped in both,
 * how many go from which node to which other, in order of the span, of `from` and of `to`. They
 * stand at the start of `moves`, and `count` says how many they are. The time grows with the pages.
 * NP_NO_ROOM where `room` is less: then `count` is what is needed, and `moves` is as it was.
 * NP_CLOSED; NP_BAD_CPU where one of the machines lacks the node; NP_NO_MEMORY. */
uint32_t np_core_diff(np_core *before, np_core *after, uint32_t task, uint32_t cpu, np_move *moves,
                      size_t room, size_t *count);

/* Counts where the accesses of a trace go if no page is placed before it: the first touch of a page
 * places it on the first node of its list that has a frame left, and later accesses go there. The
 * routes stand at the start of `routes`, in order of task, of `cpu` and of the node, where pages
 * that found no frame come first; how many they are is in `count`. NP_NO_ROOM as above.
 * NP_BAD_ACCESS where an access can't be replayed, since the machine lacks the node, the page isn't
 * mapped, or a number would pass 2^64 - 1: then `count` is its place in the trace, from 0.
 * NP_CLOSED, NP_NO_MEMORY. */
uint32_t np_core_replay(np_core *core, const np_access *trace, size_t length, np_route *routes,
                        size_t room, size_t *count);

/* ---- the same as texts: what the program prints of a script with these commands. The question's
 * rules don't count, since a core has its own; np_core_explain_text doesn't say by which other
 * rules a page would go elsewhere, nor where it lies. NP_CLOSED, then as the calls for scripts */

/* As np_predict. NP_BAD_FORMAT; NP_NO_MEMORY; NP_NO_SUCH_NODE; NP_BAD_CPU. */
uint32_t np_core_predict_text(np_core *core, const np_question *asked, const np_free *free_pages,
                              size_t free_count, uint8_t *text, size_t room, np_report *report);

/* As np_diff, from the core `before` to `after`. NP_BAD_FORMAT; NP_NO_MEMORY; NP_BAD_CPU. */
uint32_t np_core_diff_text(np_core *before, np_core *after, const np_question *asked, uint8_t *text,
                           size_t room, np_report *report);

/* As np_explain. NP_BAD_FORMAT; NP_NO_MEMORY; NP_BAD_CPU; NP_UNMAPPED. */
uint32_t np_core_explain_text(np_core *core, const np_question *asked, uint64_t page, uint8_t *text,
                              size_t room, np_report *report);

/* As np_replay, of a trace as a text, where pages take frames alone. NP_BAD_FORMAT; NP_NO_MEMORY;
 * NP_BAD_ACCESS. */
uint32_t np_core_replay_text(np_core *core, const uint8_t *trace, size_t trace_length,
                             const np_question *asked, uint8_t *text, size_t room,
                             np_report *report);

#ifdef __cplusplus
}
#endif
#endif
