/* Each growth of a round refused in turn, through the library's three functions of memory: a call
 * that is refused so answers NP_NO_MEMORY and leaves the handle as it was. Not proved. */
#include "growths.h"
#include "numaplan.h"

#include <stdio.h>
#include <string.h>

#define TEXT NP_TEXT

/* What all handles keep. */
struct kept {
    np_core core, copy;
    np_plan plan, other;
    np_seat seats[2];
};

/* What is seen of them: their bytes; and of the core its versions and ranges, with policies. */
struct seen {
    struct kept handles;
    uint32_t codes[2];
    uint64_t accepted, published;
    size_t ranges;
    struct {
        np_range range;
        uint8_t policy[32];
        size_t length;
    } each[4];
};

static void see(struct kept *kept, struct seen *seen) {
    long before = left;
    left = -1;
    memset(seen, 0, sizeof *seen);
    memcpy(&seen->handles, kept, sizeof *kept);
    seen->codes[0] = np_core_versions(&kept->core, &seen->accepted, &seen->published);
    seen->codes[1] = np_core_ranges(&kept->core, &seen->ranges);
    for (size_t k = 0; k < seen->ranges && k < 4; k++)
        np_core_range(&kept->core, k, &seen->each[k].range, seen->each[k].policy, 32, &seen->each[k].length);
    left = before;
}

/* Makes a call. Where it was refused for memory, all is as it was; and once more, which must do it. */
#define MAKE(call)                                                                                 \
    do {                                                                                           \
        static struct seen before, after;                                                          \
        see(kept, &before);                                                                        \
        uint32_t code = (call);                                                                    \
        if (code == NP_NO_MEMORY) {                                                                \
            count++;                                                                               \
            see(kept, &after);                                                                     \
            if (memcmp(&before, &after, sizeof before) != 0)                                       \
                return -1;                                                                         \
            code = (call);                                                                         \
        }                                                                                          \
        if (code != NP_OK)                                                                         \
            return -1;                                                                             \
    } while (0)

/* The round: how many calls were refused; -1 where one answered anything else. */
static int round_of(struct kept *kept) {
    static const uint32_t frames[2] = {8, 8};
    static const uint8_t distances[4] = {10, 20, 20, 10};
    static const np_limits limits = {65536, 1024, UINT32_MAX};
    static const np_options kernel = {NP_RULES_LINUX, NP_ORDERS_KERNEL, {{0, 0, 0, 0}}};
    static const np_placement placed = {2, 16, 1, 0, 0, 0};
    static const uint8_t nodes[2] = {0, 1};
    np_core *core = &kept->core;
    np_frame frame = {9, 9};
    uint8_t text[200];
    size_t length, rank;
    int count = 0;
    MAKE(np_core_open_by(core, TEXT("0-1"), frames, 2, distances, 4, &limits, 2, &kernel));
    MAKE(np_core_map(core, 0x10000, 0x8000, 16));
    MAKE(np_core_set_weight(core, 1, 3));
    MAKE(np_core_mbind(core, 0x10000, 0x4000, TEXT("weighted:0-1")));
    MAKE(np_core_set_task(core, 5, TEXT("prefer:1")));
    MAKE(np_core_publish(core));
    MAKE(np_core_compile(core, &kept->plan));
    MAKE(np_plan_share(&kept->plan, &kept->other));
    np_plan_close(&kept->plan);
    MAKE(np_core_plan(core, &kept->plan));
    MAKE(np_seat_open(&kept->seats[0], TEXT("0-1"), frames, 2, distances, 4));
    MAKE(np_seat_take(&kept->seats[0], nodes, 2, &frame, &rank));
    MAKE(np_seat_split(&kept->seats[0], &kept->seats[1]));
    MAKE(np_core_copy(core, &kept->copy));
    MAKE(np_core_maps(&kept->copy, 1, &placed, 1, text, sizeof text, &length));
    return count;
}

/* What a plan gives eight pages from page 16 on, whose index is 16: turns of one page on node 0 and three
 * on node 1, and then the node of the CPU for task 1, and node 1 for task 5. Page 24 isn't mapped. No
 * question needs memory. */
static bool fills(const np_plan *plan) {
    static const uint8_t wanted[2][8] = {{0, 1, 1, 1, 0, 0, 0, 0}, {0, 1, 1, 1, 1, 1, 1, 1}};
    static const uint8_t marked[9] = {0, 1, 1, 1, 0, 0, 0, 0, 255}, asked[4] = {255, 1, 0, 1};
    static const uint64_t pages[4] = {24, 19, 16, 17};
    uint8_t nodes[2][8], others[9], each[4], list[2];
    np_plan_run runs[2];
    np_counts counts;
    uint64_t version;
    size_t count, length;
    left = 0;
    uint32_t first = np_plan_fill(plan, 1, 0, 16, nodes[0], 8);
    uint32_t second = np_plan_fill(plan, 5, 0, 16, nodes[1], 8);
    uint32_t third = np_plan_fill_marked(plan, 1, 0, 16, others, 9, 255);
    uint32_t fourth = np_plan_nodes(plan, 1, 0, pages, 4, each, 4, 255);
    uint32_t fifth = np_plan_runs(plan, 5, runs, 2, &count);
    uint32_t sixth = np_plan_choice(plan, 5, 16, 1, list, 2, &length);
    uint32_t seventh = np_plan_counts(plan, 1, 0, 16, 8, &counts);
    uint32_t eighth = np_plan_version(plan, &version);
    left = -1;
    return first == NP_OK && second == NP_OK && memcmp(nodes, wanted, sizeof nodes) == 0 &&
           third == NP_OK && memcmp(others, marked, 9) == 0 && fourth == NP_OK &&
           memcmp(each, asked, 4) == 0 && fifth == NP_OK && runs[0].cycle == 4 && sixth == NP_OK &&
           length == 2 && list[0] == 0 && list[1] == 1 && seventh == NP_OK &&
           counts.pages[0] == 5 && counts.pages[1] == 3 && eighth == NP_OK && version == 4;
}

/* Whether a worker of a core gets frame 0 of node 0 for page 16. */
static bool touches(np_core *core, uint32_t worker) {
    np_placement placed = {0, 0, 0, 9, 9, 9};
    uint32_t code = np_core_touch(core, worker, 1, 16, 0, &placed);
    return code == NP_OK && placed.node == 0 && placed.frame == 0 && placed.rank == 0;
}

/* Whether all is as the calls make it with memory: four commands, two ranges, both plans, a core whose
 * copy goes another way, and two seats of which the first has frame 0 of node 0. */
static bool is_made(struct kept *kept) {
    static struct seen seen;
    see(kept, &seen);
    return seen.accepted == 4 && seen.published == 4 && seen.ranges == 2 &&
           seen.each[0].range.length == 0x4000 && seen.each[1].range.length == 0x4000 &&
           seen.each[0].length > 0 && seen.each[1].length == 0 &&
           fills(&kept->plan) && fills(&kept->other) &&
           touches(&kept->copy, 0) && touches(&kept->core, 1) &&
           np_core_give(&kept->copy, 1, 0, 0) == NP_NOT_OWNED &&
           np_core_give(&kept->copy, 0, 0, 0) == NP_OK &&
           np_seat_give(&kept->seats[1], 0, 0) == NP_NOT_OWNED &&
           np_seat_give(&kept->seats[0], 0, 0) == NP_OK;
}

int main(void) {
    int refused_calls = 0;
    for (long growth = 0;; growth++) {
        struct kept kept;
        memset(&kept, 0, sizeof kept);
        left = growth;
        int refusals = round_of(&kept);
        bool all = left >= 0;
        refused_calls += refusals > 0;
        left = -1;
        if (refusals < 0 || refusals > (all ? 0 : 1) || !is_made(&kept)) {
            printf("growth %ld: %d calls were refused\n", growth, refusals);
            return 1;
        }
        np_seat_close(&kept.seats[1]);
        np_seat_close(&kept.seats[0]);
        np_plan_close(&kept.other);
        np_plan_close(&kept.plan);
        np_core_close(&kept.copy);
        np_core_close(&kept.core);
        if (blocks != 0) {
            printf("growth %ld: %ld blocks are held\n", growth, blocks);
            return 1;
        }
        if (all) {
            printf("%ld growths, %d refused calls\n", growth, refused_calls);
            return refused_calls < 10;
        }
    }
}
