/* numaplan_plans.h: many pages of a plan at once, for C99 and C++. numaplan.h includes this file, and
 * its first page applies here too. */
#ifndef NUMAPLAN_PLANS_H
#define NUMAPLAN_PLANS_H

#include "numaplan.h"

#ifdef __cplusplus
extern "C" {
#endif

/* ---- many pages of a plan, mapped or not */

/* Pages in a row whose lists come in turns: the number of the first, how many they are, and after
 * how many of them, at most `pages`, the lists come again. */
typedef struct np_plan_run {
    uint64_t first, pages, cycle;
} np_plan_run;

#if defined(__cplusplus) && __cplusplus >= 201103L
static_assert(sizeof(np_plan_run) == 24, "a struct");
#elif defined(__STDC_VERSION__) && __STDC_VERSION__ >= 201112L
_Static_assert(sizeof(np_plan_run) == 24, "a struct");
#endif

/* Writes the first node of each page's list, as np_plan_fill does, and the mark `unmapped` for each
 * page that isn't mapped, as 255 on a machine of fewer nodes. The pages of a hole are marked at
 * once. Needs no memory. NP_CLOSED, NP_BAD_CPU. */
uint32_t np_plan_fill_marked(const np_plan *plan, uint32_t task, uint32_t cpu, uint64_t first,
                             uint8_t *nodes, size_t pages, uint8_t unmapped);

/* The same for an array of pages (their numbers, in whatever order): writes the first node of the
 * list of each, or the mark, at the place in `nodes` that the page has in `pages`. `places` is
 * `count`, or else the answer is NP_NO_ROOM. Pages that go on by one, and a page of the run of pages
 * that was found last or of the next, cost no search. Needs no memory. NP_CLOSED, NP_NO_ROOM,
 * NP_BAD_CPU. */
uint32_t np_plan_nodes(const np_plan *plan, uint32_t task, uint32_t cpu, const uint64_t *pages,
                       size_t count, uint8_t *nodes, size_t places, uint8_t unmapped);

/* Writes the runs of mapped pages of the plan, in order of address, at the start of `runs`, and how
 * many they are to `count`; pages between them aren't mapped. np_plan_fill of a run's first `cycle`
 * pages writes the nodes that its pages have first, in turns. NP_NO_ROOM where `room` is less: then
 * `count` is what is needed, and `runs` is as it was. Needs no memory. NP_CLOSED. */
uint32_t np_plan_runs(const np_plan *plan, uint32_t task, np_plan_run *runs, size_t room,
                      size_t *count);

#ifdef __cplusplus
}
#endif

#endif
