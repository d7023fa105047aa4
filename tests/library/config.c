/* The library's memory by functions of the program's (np_config): all of it comes from them and goes
 * back, where they refuse a call answers NP_NO_MEMORY, and calls that don't name that get none. Linked
 * with the archive, and with the shared library. Prints what is wrong; not proved. */
#include "numaplan.h"
#include "want.h"

#include <stdlib.h>
#include <string.h>

#define TEXT NP_TEXT

/* What is counted of the memory that the library has. */
struct counted {
    long blocks, calls;
    int refuses;
};

static void *get(void *context, size_t length) {
    struct counted *counted = context;
    void *at = counted->refuses ? NULL : malloc(length);
    counted->blocks += at != NULL;
    counted->calls++;
    WANT(length != 0, 1);
    return at;
}

static void *change(void *context, void *at, size_t length) {
    struct counted *counted = context;
    counted->calls++;
    WANT(length != 0, 1);
    return counted->refuses ? NULL : realloc(at, length);
}

static void give_back(void *context, void *at) {
    struct counted *counted = context;
    counted->blocks--;
    free(at);
}

static const uint32_t frames[2] = {8, 8};
static const uint8_t distances[4] = {10, 20, 20, 10};
static const np_limits limits = {65536, 1024, UINT32_MAX};

/* Calls that name no NP_NO_MEMORY, with all memory refused. */
static void without(np_core *core, np_plan *plan, np_pages *pages, struct counted *counted) {
    static const uint64_t numbers[3] = {17, 16, 99};
    long calls = counted->calls;
    uint8_t nodes[4], text[160];
    uint64_t version, published, room;
    np_placement placed;
    np_policy policy;
    np_counts counts;
    np_range range;
    np_nodes set;
    size_t count;
    uint32_t number;
    counted->refuses = 1;
    WANT(np_plan_version(plan, &version), NP_OK);
    WANT(np_plan_choice(plan, 5, 16, 0, nodes, 4, &count), NP_OK);
    WANT(np_plan_fill(plan, 5, 0, 16, nodes, 4), NP_OK);
    WANT(np_plan_fill_marked(plan, 5, 0, 14, nodes, 4, 9), NP_OK);
    WANT(np_plan_nodes(plan, 5, 0, numbers, 3, nodes, 3, 9), NP_OK);
    WANT(np_plan_counts(plan, 5, 0, 16, 4, &counts), NP_OK);
    WANT(np_core_versions(core, &version, &published), NP_OK);
    WANT(np_core_ranges(core, &count), NP_OK);
    WANT(np_core_range(core, 0, &range, text, sizeof text, &count), NP_OK);
    WANT(np_core_range_at(core, 0x10000, &count), NP_OK);
    WANT(np_core_range_policy(core, 0, &policy), NP_OK);
    WANT(np_core_task_policy(core, 5, &policy), NP_OK);
    WANT(np_core_touch(core, 0, 5, 16, 0, &placed), NP_OK);
    WANT(np_core_give(core, 0, placed.node, placed.frame), NP_OK);
    WANT(np_core_begin(core, 1, 5, 16, 0), NP_STILL);
    WANT(np_core_look(core, 1, 0), NP_STILL);
    WANT(np_core_try(core, 1, placed.node, 0, &placed), NP_OK);
    WANT(np_pages_room(pages, 0, &room), NP_OK);
    WANT(np_pages_set_room(pages, 1, 9), NP_OK);
    WANT(np_pages_node(pages, 0x10000, &number), NP_OK);
    WANT(np_pages_nodes(pages, numbers, 3, nodes, 3, 9), NP_OK);
    WANT(np_pages_counts(pages, &counts), NP_OK);
    WANT(np_nodes_read(TEXT("0-1"), &set), NP_OK);
    WANT(np_nodes_write(&set, text, sizeof text, &count), NP_OK);
    WANT(np_policy_effective(TEXT("bind:0-1"), TEXT("0"), &set), NP_OK);
    WANT(np_policy_text(TEXT("bind:0-1"), TEXT("0"), text, sizeof text, &count), NP_OK);
    WANT(np_answer_name(NP_HOLE, text, sizeof text, &count), NP_OK);
    WANT(np_answer_words(NP_HOLE, text, sizeof text, &count), NP_OK);
    WANT(np_answer_errno(NP_HOLE, &number), NP_OK);
    WANT(counted->calls, calls);
    /* commands that need none, though they may ask for some; and one that does */
    WANT(np_core_set_weight(core, 1, 3), NP_OK);
    WANT(np_core_set_mems(core, TEXT("0-1")), NP_OK);
    WANT(np_core_set_task(core, 5, TEXT("default")), NP_OK);
    WANT(np_core_mbind(core, 0x10000, 0, TEXT("bind:1")), NP_OK);
    WANT(np_core_map(core, 0x40000, 4096, 0), NP_NO_MEMORY);
    WANT(counted->calls > calls, 1);
    counted->refuses = 0;
}

int main(void) {
    struct counted counted = {0, 0, 1};
    const np_memory memory = {get, change, give_back, &counted}, other = {NULL, NULL, NULL, NULL};
    np_core core = {0};
    np_plan plan = {0}, shared = {0};
    np_pages pages = {0};
    WANT(np_config(&memory), NP_OK);
    WANT(np_config(&memory), NP_OK);
    WANT(np_core_open(&core, TEXT("0-1"), frames, 2, distances, 4, &limits, 2), NP_NO_MEMORY);
    WANT(counted.blocks, 0);
    counted.refuses = 0;
    WANT(np_core_open(&core, TEXT("0-1"), frames, 2, distances, 4, &limits, 2), NP_OK);
    WANT(np_config(&other), NP_OPEN);
    WANT(np_core_map(&core, 0x10000, 0x4000, 16), NP_OK);
    WANT(np_core_mbind(&core, 0x10000, 0x2000, TEXT("interleave:0-1")), NP_OK);
    WANT(np_core_set_task(&core, 5, TEXT("prefer:1")), NP_OK);
    WANT(np_core_publish(&core), NP_OK);
    WANT(np_core_compile(&core, &plan), NP_OK);
    WANT(np_plan_share(&plan, &shared), NP_OK);
    WANT(np_pages_open(&pages, &core), NP_OK);
    WANT(np_pages_place(&pages, 0x10000, 0x1000, 1), NP_OK);
    WANT(counted.blocks > 0, 1);
    without(&core, &plan, &pages, &counted);
    np_plan_close(&plan);
    np_plan_close(&shared);
    np_pages_close(&pages);
    np_core_close(&core);
    WANT(counted.blocks, 0);
    WANT(np_config(&other), NP_OPEN);
    return wrong;
}
