/* Copies of cores, their ranges and listings, and the steps of a worker: the values are those of
 * the man pages (mmap(2), mbind(2), numa(7)) and of the header, by hand. Prints what is wrong; not
 * proved. */
#include "numaplan.h"
#include "want.h"

#include <stdio.h>
#include <string.h>

#define TEXT NP_TEXT

/* Two nodes: two frames of the first, one of the second; two workers. Three spans of 4, 2 and 1
 * pages; the two pages in the middle of the first are interleaved. */
static void open_core(np_core *core) {
    static const uint32_t frames[2] = {2, 1};
    static const uint8_t distances[4] = {10, 20, 20, 10};
    static const np_limits limits = {65536, 1024, UINT32_MAX};
    WANT(np_core_open(core, TEXT("0-1"), frames, 2, distances, 4, &limits, 2), NP_OK);
    WANT(np_core_map(core, 0x10000, 0x4000, 16), NP_OK);
    WANT(np_core_map(core, 0x30000, 0x1000, 7), NP_OK);
    WANT(np_core_map(core, 0x20000, 0x2000, 32), NP_OK);
    WANT(np_core_mbind(core, 0x11000, 0x2000, TEXT("interleave:0-1")), NP_OK);
}

/* A range as it is wanted. */
struct wanted {
    np_range range;
    const char *policy;
};

/* Whether these are the core's ranges. */
static void want_ranges(int line, np_core *core, const struct wanted *wanted, size_t count) {
    size_t found = 99;
    int before = wrong;
    WANT(np_core_ranges(core, &found), NP_OK);
    WANT(found, count);
    for (size_t k = 0; k < count; k++) {
        np_range range = {9, 9, 9};
        uint8_t policy[64];
        size_t length = 99;
        memset(policy, '?', sizeof policy);
        WANT(np_core_range(core, k, &range, policy, sizeof policy, &length), NP_OK);
        WANT(range.start, wanted[k].range.start);
        WANT(range.length, wanted[k].range.length);
        WANT(range.offset, wanted[k].range.offset);
        WANT(length, strlen(wanted[k].policy));
        WANT(memcmp(policy, wanted[k].policy, strlen(wanted[k].policy)), 0);
        WANT(policy[strlen(wanted[k].policy)], '?');
    }
    if (wrong > before)
        printf("line %d: these ranges\n", line);
}

#define WANT_RANGES(core, wanted)                                                                  \
    want_ranges(__LINE__, core, wanted, sizeof(wanted) / sizeof(wanted)[0])

/* The ranges, and what is told where there is no range, or no room for its policy. */
static void ranges(void) {
    static const struct wanted five[] = {
        {{0x10000, 0x1000, 16}, ""}, {{0x11000, 0x2000, 17}, "interleave:0-1"},
        {{0x13000, 0x1000, 19}, ""}, {{0x20000, 0x2000, 32}, ""},
        {{0x30000, 0x1000, 7}, ""},
    };
    /* a span whose index goes on makes the fourth longer, another doesn't */
    static const struct wanted six[] = {
        {{0x10000, 0x1000, 16}, ""}, {{0x11000, 0x2000, 17}, "interleave:0-1"},
        {{0x13000, 0x1000, 19}, ""}, {{0x20000, 0x3000, 32}, ""},
        {{0x30000, 0x1000, 7}, ""},  {{0x31000, 0x1000, 9}, ""},
    };
    np_core core = {0};
    np_range range = {9, 9, 9};
    uint8_t policy[13];
    size_t length = 99;
    memset(policy, '?', sizeof policy);
    open_core(&core);
    WANT_RANGES(&core, five);
    WANT(np_core_range(&core, 5, &range, policy, 13, &length), NP_NO_RANGE);
    WANT(np_core_range(&core, SIZE_MAX, &range, policy, 13, &length), NP_NO_RANGE);
    WANT(length, 99);
    WANT(np_core_range(&core, 1, &range, policy, 13, &length), NP_NO_ROOM);
    WANT(length, 14);
    WANT(range.start, 9);
    WANT(policy[0], '?');
    WANT(np_core_range(&core, 0, &range, policy, 0, &length), NP_OK);
    WANT(length, 0);
    WANT(np_core_map(&core, 0x22000, 0x1000, 34), NP_OK);
    WANT(np_core_map(&core, 0x31000, 0x1000, 9), NP_OK);
    WANT_RANGES(&core, six);
    np_core_close(&core);
}

/* What is done to a copy doesn't change the core, nor the other way round. */
static void copies(void) {
    static const struct wanted five[] = {
        {{0x10000, 0x1000, 16}, ""}, {{0x11000, 0x2000, 17}, "interleave:0-1"},
        {{0x13000, 0x1000, 19}, ""}, {{0x20000, 0x2000, 32}, ""},
        {{0x30000, 0x1000, 7}, ""},
    };
    static const struct wanted changed[] = {
        {{0x10000, 0x1000, 16}, ""}, {{0x11000, 0x2000, 17}, "interleave:0-1"},
        {{0x13000, 0x1000, 19}, ""}, {{0x20000, 0x2000, 32}, "bind=static:1"},
    };
    np_core core = {0}, copy = {0}, none = {0};
    np_placement placed = {0, 0, 0, 0, 0, 0};
    uint64_t accepted = 0, published = 0;
    open_core(&core);
    WANT(np_core_publish(&core), NP_OK);
    WANT(np_core_touch(&core, 1, 5, 16, 0, &placed), NP_OK);
    WANT(np_core_copy(&core, &copy), NP_OK);
    WANT(np_core_copy(&core, &copy), NP_OPEN);
    WANT(np_core_copy(&none, &copy), NP_OPEN);
    WANT_RANGES(&copy, five);
    WANT(np_core_mbind(&copy, 0x20000, 0x2000, TEXT("bind=static:1")), NP_OK);
    WANT(np_core_unmap(&copy, 0x30000, 0x1000), NP_OK);
    WANT_RANGES(&copy, changed);
    WANT_RANGES(&core, five);
    WANT(np_core_versions(&core, &accepted, &published), NP_OK);
    WANT(accepted, 4);
    WANT(published, 4);
    WANT(np_core_versions(&copy, &accepted, &published), NP_OK);
    WANT(accepted, 6);
    WANT(published, 4);
    /* frame 0 of node 0 is taken in both, and given back in one */
    WANT(np_core_touch(&copy, 0, 5, 32, 0, &placed), NP_OK);
    WANT(placed.node, 0);
    WANT(placed.frame, 1);
    WANT(np_core_give(&copy, 1, 0, 0), NP_OK);
    WANT(np_core_give(&copy, 1, 0, 0), NP_NOT_OWNED);
    WANT(np_core_touch(&core, 0, 5, 32, 0, &placed), NP_OK);
    WANT(placed.frame, 1);
    WANT(np_core_give(&core, 1, 0, 0), NP_OK);
    np_core_close(&core);
    WANT_RANGES(&copy, changed);
    np_core_close(&copy);
}

/* The steps of two workers over two frames of node 0 and one of node 1. */
static void steps(void) {
    np_core core = {0};
    np_placement placed = {0, 0, 0, 0, 0, 0};
    open_core(&core);
    WANT(np_core_publish(&core), NP_OK);
    WANT(np_core_begin(&core, 1, 5, 16, 0), NP_STILL);
    WANT(np_core_try(&core, 1, 0, 1, &placed), NP_OK);
    WANT(placed.frame, 1);
    WANT(placed.rank, 0);
    /* the other worker meets frame 1 by a look, takes frame 0, and then meets both */
    WANT(np_core_begin(&core, 0, 5, 32, 0), NP_STILL);
    WANT(np_core_look(&core, 0, 0), NP_STILL);
    WANT(np_core_look(&core, 0, 1), NP_BAD_TRY);
    WANT(np_core_try(&core, 0, 0, 1, &placed), NP_BAD_TRY);
    WANT(np_core_try(&core, 0, 1, 0, &placed), NP_BAD_TRY);
    WANT(np_core_try(&core, 0, 0, 0, &placed), NP_OK);
    WANT(placed.frame, 0);
    WANT(np_core_look(&core, 0, 0), NP_IDLE);
    WANT(np_core_begin(&core, 0, 5, 33, 0), NP_STILL);
    WANT(np_core_look(&core, 0, 0), NP_STILL);
    WANT(np_core_give(&core, 0, 0, 0), NP_BUSY);
    /* so node 1 is its current node now */
    WANT(np_core_try(&core, 0, 1, 0, &placed), NP_OK);
    WANT(placed.node, 1);
    WANT(placed.rank, 1);
    WANT(placed.page, 33);
    WANT(np_core_begin(&core, 1, 5, 19, 1), NP_STILL);
    WANT(np_core_try(&core, 1, 1, 0, &placed), NP_STILL);
    WANT(np_core_look(&core, 1, 0), NP_EXHAUSTED);
    WANT(placed.page, 33);
    WANT(np_core_give(&core, 1, 0, 0), NP_NOT_OWNED);
    WANT(np_core_give(&core, 0, 0, 0), NP_OK);
    WANT(np_core_give(&core, 2, 0, 0), NP_NO_SUCH_WORKER);
    np_core_close(&core);
}

/* A core with one mapped page, which is published, and so many frames of each of so many nodes, 20 apart. */
static void open_large(np_core *core, size_t nodes, uint32_t each, uint32_t workers, const char *memory) {
    static const np_limits limits = {65536, 1024, UINT32_MAX};
    uint32_t frames[16];
    uint8_t distances[256];
    for (size_t k = 0; k < nodes; k++)
        frames[k] = each;
    for (size_t k = 0; k < nodes * nodes; k++)
        distances[k] = k % (nodes + 1) == 0 ? 10 : 20;
    WANT(np_core_open(core, TEXT(memory), frames, nodes, distances, nodes * nodes, &limits, workers), NP_OK);
    WANT(np_core_map(core, 0x10000, 0x1000, 0), NP_OK);
}

/* A try that wins: the node, the frame and the rank. */
static void want_won(int line, np_core *core, uint32_t worker, uint8_t node, uint16_t frame, uint32_t rank) {
    np_placement placed = {0, 0, 0, 0, 0, 0};
    int before = wrong;
    WANT(np_core_try(core, worker, node, frame, &placed), NP_OK);
    WANT(placed.node, node);
    WANT(placed.frame, frame);
    WANT(placed.rank, rank);
    if (wrong > before)
        printf("line %d: worker %u, node %u, frame %u\n", line, worker, node, frame);
}

#define WANT_WON(core, worker, node, frame, rank) want_won(__LINE__, core, worker, node, frame, rank)

/* Sixteen workers, as many as there may be, over eight frames of each of two nodes. */
static void sixteen(void) {
    np_core core = {0};
    np_placement placed = {0, 0, 0, 0, 0, 0};
    open_large(&core, 2, 8, 16, "0-1");
    WANT(np_core_publish(&core), NP_OK);
    for (uint32_t k = 0; k < 16; k++)
        WANT(np_core_begin(&core, k, 1, 16, 0), NP_STILL);
    /* the first eight win the frames of node 0, and the last one meets each */
    for (uint16_t k = 0; k < 8; k++) {
        WANT_WON(&core, k, 0, k, 0);
        WANT(np_core_look(&core, 15, 0), NP_STILL);
    }
    /* the next seven meet them all at once, and go on to node 1 */
    for (uint16_t k = 0; k < 7; k++) {
        WANT(np_core_try(&core, k + 8, 1, k, &placed), NP_BAD_TRY);
        WANT(np_core_look(&core, k + 8, 0), NP_STILL);
        WANT_WON(&core, k + 8, 1, k, 1);
    }
    WANT_WON(&core, 15, 1, 7, 1);
    WANT(np_core_begin(&core, 0, 1, 16, 0), NP_STILL);
    WANT(np_core_look(&core, 0, 0), NP_STILL);
    WANT(np_core_look(&core, 0, 0), NP_EXHAUSTED);
    WANT(np_core_give(&core, 14, 1, 7), NP_NOT_OWNED);
    WANT(np_core_give(&core, 15, 1, 7), NP_OK);
    np_core_close(&core);
}

/* The last of 65,536 frames: worker 0 wins all of node 15, and worker 1 meets them word by word. */
static void all_frames(void) {
    np_core core = {0};
    open_large(&core, 16, 4096, 2, "0-15");
    WANT(np_core_set_task(&core, 1, TEXT("bind:15")), NP_OK);
    WANT(np_core_publish(&core), NP_OK);
    for (uint16_t k = 0; k < 4096; k++) {
        WANT(np_core_begin(&core, 0, 1, 16, 0), NP_STILL);
        WANT_WON(&core, 0, 15, k, 0);
    }
    WANT(np_core_begin(&core, 1, 1, 16, 0), NP_STILL);
    for (uint32_t k = 0; k < 63; k++)
        WANT(np_core_look(&core, 1, k), NP_STILL);
    WANT(np_core_look(&core, 1, 63), NP_EXHAUSTED);
    WANT(np_core_give(&core, 0, 15, 4095), NP_OK);
    WANT(np_core_begin(&core, 1, 1, 16, 0), NP_STILL);
    WANT_WON(&core, 1, 15, 4095, 0);
    np_core_close(&core);
}

/* The listing: two of the placements are in the second range, one in the fourth, one in none. */
static void maps(void) {
    static const np_placement four[] = {
        {4, 18, 1, 0, 0, 0}, {4, 33, 1, 0, 1, 0}, {4, 17, 2, 1, 0, 1}, {4, 64, 1, 0, 0, 0},
    };
    static const np_placement twice[] = {{4, 18, 1, 0, 0, 0}, {4, 18, 2, 0, 1, 0}};
    static const char bare[] = "00010000 default\n00011000 interleave:0-1\n00013000 default\n"
                               "00020000 default\n00030000 default\n";
    static const char filled[] =
        "00010000 prefer:1\n00011000 interleave:0-1 anon=2 N0=1 N1=1 kernelpagesize_kB=4\n"
        "00013000 prefer:1\n00020000 prefer:1 anon=1 N0=1 kernelpagesize_kB=4\n"
        "00030000 prefer:1\n";
    np_core core = {0};
    uint8_t text[400];
    size_t length = 99;
    memset(text, '?', sizeof text);
    open_core(&core);
    WANT(np_core_maps(&core, 1, twice, 2, text, sizeof text, &length), NP_PLACED_TWICE);
    WANT(length, 99);
    WANT(np_core_maps(&core, 1, four, 0, text, strlen(bare) - 1, &length), NP_NO_ROOM);
    WANT(length, strlen(bare));
    WANT(text[0], '?');
    WANT(np_core_maps(&core, 1, four, 0, text, strlen(bare), &length), NP_OK);
    WANT(memcmp(text, bare, strlen(bare)), 0);
    WANT(text[strlen(bare)], '?');
    WANT(np_core_set_task(&core, 1, TEXT("prefer:1")), NP_OK);
    WANT(np_core_maps(&core, 1, four, 4, text, sizeof text, &length), NP_OK);
    WANT(length, strlen(filled));
    WANT(memcmp(text, filled, strlen(filled)), 0);
    WANT(np_core_maps(&core, 2, four, 0, text, sizeof text, &length), NP_OK);
    WANT(length, strlen(bare));
    np_core_close(&core);
}

/* A handle that keeps nothing. */
static void closed(void) {
    np_core core = {0}, copy = {0};
    np_range range = {9, 9, 9};
    np_placement placed = {0, 0, 0, 0, 0, 0};
    uint8_t text[2] = {'?', '?'};
    size_t count = 99;
    WANT(np_core_copy(&core, &copy), NP_CLOSED);
    WANT(np_core_ranges(&core, &count), NP_CLOSED);
    WANT(np_core_range(&core, 0, &range, text, 2, &count), NP_CLOSED);
    WANT(np_core_maps(&core, 1, &placed, 1, text, 2, &count), NP_CLOSED);
    WANT(np_core_begin(&core, 0, 1, 16, 0), NP_CLOSED);
    WANT(np_core_look(&core, 0, 0), NP_CLOSED);
    WANT(np_core_try(&core, 0, 0, 0, &placed), NP_CLOSED);
    WANT(np_core_give(&core, 0, 0, 0), NP_CLOSED);
    WANT(count, 99);
    WANT(range.offset, 9);
    WANT(text[0], '?');
    WANT(np_core_ranges(&copy, &count), NP_CLOSED);
}

int main(void) {
    closed();
    ranges();
    copies();
    steps();
    sixteen();
    all_frames();
    maps();
    return wrong;
}
