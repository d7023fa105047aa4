/* Pages of 2 MiB beside those of 4 KiB: turns, refusals, ranges, listings, fills and counts. The
 * wanted values come from mmap(2), mbind(2) and what kernels answered (docs/KERNEL.md), and for
 * random mappings from a second model, page by page. Prints what is wrong; not proved. */
#include "numaplan.h"
#include "numaplan_reports.h"
#include "want.h"

#include <stdio.h>
#include <string.h>

#define TEXT(words) (const uint8_t *)(words), strlen(words)
#define MIB ((uint64_t)1 << 20)

static const uint32_t frames[4] = {8, 8, 8, 8};
static const uint8_t flat[16] = {10, 20, 20, 20, 20, 10, 20, 20, 20, 20, 10, 20, 20, 20, 20, 10};
static const np_limits limits = {65536, 1024, UINT32_MAX};

static void open_by(np_core *core, uint32_t rules) {
    np_options options = {0};
    options.rules = rules;
    WANT(np_core_open_by(core, TEXT("0-3"), frames, 4, flat, 16, &limits, 1, &options), NP_OK);
}

/* The first node of a page of task 1. */
static uint8_t node_of(np_core *core, uint64_t page) {
    np_plan plan = {0};
    uint8_t node = 255;
    WANT(np_core_compile(core, &plan), NP_OK);
    WANT(np_plan_fill(&plan, 1, 0, page, &node, 1), NP_OK);
    np_plan_close(&plan);
    return node;
}

/* Each page of 2 MiB takes one turn, from that of the offset on. */
static void turns(void) {
    static uint8_t nodes[5 * 512];
    np_core core = {0};
    np_plan plan = {0};
    np_counts counts;
    np_explanation said;
    np_range range;
    size_t length;
    open_by(&core, NP_RULES_DOCUMENT);
    WANT(np_core_set_task(&core, 1, TEXT("interleave:0-3")), NP_OK);
    WANT(np_core_map_huge(&core, 1024 * MIB, 8 * MIB + 1, 0), NP_OK);
    WANT(np_core_map_huge(&core, 2048 * MIB, 4 * MIB, 512), NP_OK);
    WANT(np_core_map(&core, 1034 * MIB, 4096, 2560), NP_OK);
    WANT(np_core_compile(&core, &plan), NP_OK);
    WANT(np_plan_fill(&plan, 1, 0, 1024 * 256, nodes, 5 * 512), NP_OK);
    for (size_t k = 0; k < 5 * 512; k++)
        WANT(nodes[k], k / 512 % 4);
    WANT(np_plan_counts(&plan, 1, 0, 1024 * 256 + 511, 1026, &counts), NP_OK);
    WANT(counts.pages[0], 1);
    WANT(counts.pages[1], 512);
    WANT(counts.pages[2], 512);
    WANT(counts.pages[3], 1);
    WANT(node_of(&core, 2048 * 256), 1);
    WANT(node_of(&core, 2048 * 256 + 512), 2);
    WANT(node_of(&core, 1034 * 256), 0);
    WANT(np_core_explain(&core, 1, 2048 * 256 + 1023, 0, &said), NP_OK);
    WANT(said.index, 2);
    WANT(said.place, 2);
    WANT(said.places, 4);
    WANT(np_core_range(&core, 0, &range, NULL, 0, &length), NP_OK);
    WANT(range.start, 1024 * MIB);
    WANT(range.length, 10 * MIB);
    WANT(range.offset, NP_HUGE);
    WANT(np_core_range(&core, 1, &range, NULL, 0, &length), NP_OK);
    WANT(range.length, 4096);
    WANT(range.offset, 2560);
    np_plan_close(&plan);
    np_core_close(&core);
}

static void refusals(uint32_t rules) {
    np_core core = {0};
    uint64_t at = 64 * MIB;
    open_by(&core, rules);
    WANT(np_core_map_huge(&core, at + 4096, 4096, 0), NP_UNALIGNED);
    WANT(np_core_map_huge(&core, at, 0, 0), NP_EMPTY_LENGTH);
    WANT(np_core_map_huge(&core, ((uint64_t)1 << 47) - 2 * MIB, 2 * MIB + 1, 0), NP_OUT_OF_SPACE);
    WANT(np_core_map_huge(&core, at, 2 * MIB, (uint64_t)1 << 35), NP_BAD_OFFSET);
    WANT(np_core_map_huge(&core, at, 2 * MIB, 1), NP_UNALIGNED);
    WANT(np_core_map_huge(&core, at, 6 * MIB - 1, 1024), NP_OK);
    WANT(np_core_map_huge(&core, at, 2 * MIB, 1), NP_OVERLAP);
    WANT(np_core_map(&core, at + 6 * MIB - 4096, 4096, 0), NP_OVERLAP);
    /* a part alone */
    WANT(np_core_mbind(&core, at + 4096, 4096, TEXT("bind:2")), NP_UNALIGNED);
    WANT(np_core_mbind(&core, at, 4096, TEXT("bind:2")), NP_UNALIGNED);
    WANT(np_core_mbind(&core, at - 4096, 8192, TEXT("bind:2")), NP_HOLE);
    WANT(np_core_mbind(&core, at + 4096, 4096, TEXT("default")), NP_OK);
    WANT(np_core_mbind(&core, at + 2 * MIB, 2 * MIB, TEXT("bind:2")), NP_OK);
    WANT(np_core_mbind(&core, at + 2 * MIB + 4096, 4096, TEXT("bind:2")), NP_OK);
    WANT(np_core_mbind(&core, at + 2 * MIB + 4096, 4096, TEXT("default")), NP_UNALIGNED);
    WANT(np_core_set_home(&core, at + 2 * MIB, 4096, 1), NP_UNALIGNED);
    WANT(np_core_set_home(&core, at + MIB, 3 * MIB, 1), NP_OK);
    WANT(np_core_set_home(&core, at + 3 * MIB, MIB, 1), NP_OK);
    WANT(np_core_unmap(&core, at, MIB), NP_UNALIGNED);
    WANT(np_core_unmap(&core, at - MIB, MIB), NP_OK);
    WANT(np_core_unmap(&core, at + 5 * MIB, 2 * MIB), NP_UNALIGNED);
    WANT(np_core_unmap(&core, at + 4 * MIB, 2 * MIB), NP_OK);
    WANT(np_core_set_task(&core, 1, TEXT("interleave:0-3")), NP_OK);
    WANT(node_of(&core, at / 4096), 2); /* turn 2 of 0 to 3 */
    np_core_close(&core);
}

/* What np_core_maps writes for two ranges of pages of 2 MiB, with these placements. */
static void shown(np_core *core, const np_placement *placements, size_t count, const char *text) {
    char found[400];
    size_t length = 0;
    WANT(np_core_maps(core, 1, placements, count, (uint8_t *)found, sizeof found, &length), NP_OK);
    if (length != strlen(text) || memcmp(found, text, length) != 0) {
        printf("maps wrote\n%.*sinstead of\n%s", (int)length, found, text);
        wrong = 1;
    }
}

/* Listings count pages of 2 MiB: the first are two lines of a kernel's numa_maps (an anonymous
 * MAP_HUGETLB; tests/tools/samples/huge), without its words file, huge and dirty. A page lies where
 * the lowest of its placed parts does, in whatever order these are told. */
static void listed(void) {
    const uint64_t first = 0x7f4751600;
    const np_placement parts[] = {
        {2, first + 511, 1, 0, 0, 2}, {2, first + 7, 1, 0, 0, 1}, {2, first + 8, 2, 0, 0, 3},
        {2, first + 1023, 1, 0, 0, 3}, {2, 0x10, 1, 0, 0, 0},
    };
    static np_placement all[1024];
    np_core core = {0};
    open_by(&core, NP_RULES_LINUX);
    WANT(np_core_map_huge(&core, 0x7f4751200000, 2 * MIB, 0), NP_OK);
    WANT(np_core_map_huge(&core, first * 4096, 4 * MIB, 512), NP_OK);
    WANT(np_core_mbind(&core, first * 4096, 4 * MIB, TEXT("interleave:0")), NP_OK);
    for (uint32_t k = 0; k < 1024; k++)
        all[k] = (np_placement){3, first + 1023 - k, 1, 0, 0, 0};
    shown(&core, all, 1024, "7f4751200000 default\n"
                            "7f4751600000 interleave:0 anon=2 N0=2 kernelpagesize_kB=2048\n");
    shown(&core, parts, 5, "7f4751200000 default\n"
                           "7f4751600000 interleave:0 anon=2 N1=1 N3=1 kernelpagesize_kB=2048\n");
    shown(&core, parts, 1, "7f4751200000 default\n"
                           "7f4751600000 interleave:0 anon=1 N2=1 kernelpagesize_kB=2048\n");
    WANT(np_core_map(&core, 0x10000, 4096, 16), NP_OK);
    shown(&core, parts, 5, "00010000 default anon=1 N0=1 kernelpagesize_kB=4\n"
                           "7f4751200000 default\n"
                           "7f4751600000 interleave:0 anon=2 N1=1 N3=1 kernelpagesize_kB=2048\n");
    np_core_close(&core);
}

/* ---- random mappings, by a second model */

enum { PAGES = 32 * 512 };
static struct {
    int mapped, bound;
    uint64_t turn;
} model[PAGES];
static uint64_t state = 88172645463325252u;

static uint64_t below(uint64_t count) {
    state ^= state << 13, state ^= state >> 7, state ^= state << 17;
    return state % count;
}

static uint8_t wanted(uint64_t page) {
    static const uint8_t cycle[6] = {0, 0, 0, 1, 3, 3};
    return model[page].bound ? (uint8_t)(model[page].turn % 4) : cycle[model[page].turn % 6];
}

static void fill_model(uint64_t first, uint64_t pages, uint64_t offset, uint64_t unit) {
    for (uint64_t k = 0; k < pages; k++) {
        model[first + k].mapped = 1;
        model[first + k].bound = 0;
        model[first + k].turn = (offset + k) / unit;
    }
}

static void change_one(np_core *core) {
    uint64_t huge = below(2), unit = huge ? 512 : 1;
    uint64_t first = below(PAGES / unit) * unit, pages = (below(huge ? 6 : 700) + 1) * unit;
    uint64_t offset = below(1000) * unit;
    uint32_t code;
    if (first + pages > PAGES)
        return;
    switch (below(4)) {
    case 0:
        code = np_core_unmap(core, first * 4096, pages * 4096);
        if (code == NP_OK)
            memset(&model[first], 0, pages * sizeof model[0]);
        break;
    case 1:
        code = np_core_mbind(core, first * 4096, pages * 4096, TEXT("interleave:0-3"));
        for (uint64_t k = 0; code == NP_OK && k < pages; k++)
            model[first + k].bound = 1;
        break;
    default:
        code = huge ? np_core_map_huge(core, first * 4096, pages * 4096 - below(4096), offset)
                    : np_core_map(core, first * 4096, pages * 4096, offset);
        if (code == NP_OK)
            fill_model(first, pages, offset, unit);
    }
}

static void compare(np_core *core) {
    np_plan plan = {0};
    WANT(np_core_compile(core, &plan), NP_OK);
    for (int k = 0; k < 60; k++) {
        uint64_t first = below(PAGES), pages = 0, most = below(4000) + 1;
        static uint8_t nodes[4000];
        uint64_t counted[256] = {0};
        np_counts counts;
        while (pages < most && first + pages < PAGES && model[first + pages].mapped)
            counted[wanted(first + pages++)]++;
        if (pages == 0)
            continue;
        WANT(np_plan_fill(&plan, 1, 0, first, nodes, pages), NP_OK);
        for (uint64_t q = 0; q < pages; q++)
            WANT(nodes[q], wanted(first + q));
        WANT(np_plan_counts(&plan, 1, 0, first, pages, &counts), NP_OK);
        WANT(memcmp(counted, counts.pages, sizeof counted), 0);
        WANT(np_plan_choice(&plan, 1, first, 0, nodes, 256, &(size_t){0}), NP_OK);
        WANT(nodes[0], wanted(first));
    }
    np_plan_close(&plan);
}

static void randomly(void) {
    np_core core = {0};
    open_by(&core, NP_RULES_LINUX);
    WANT(np_core_set_weight(&core, 0, 3), NP_OK);
    WANT(np_core_set_weight(&core, 3, 2), NP_OK);
    WANT(np_core_set_task(&core, 1, TEXT("weighted:0,1,3")), NP_OK);
    for (int round = 0; round < 300 && !wrong; round++) {
        for (int k = 0; k < 8; k++)
            change_one(&core);
        compare(&core);
    }
    np_core_close(&core);
}

int main(void) {
    turns();
    refusals(NP_RULES_DOCUMENT);
    refusals(NP_RULES_LINUX);
    listed();
    randomly();
    return wrong;
}
