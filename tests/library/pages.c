/* Cores with their pages from C: where pages lie, and where they go. The values are those of
 * cpusets(7), migrate_pages(2), move_pages(2), mbind(2) and madvise(2), by hand. Prints what is
 * wrong; not proved. */
#include "numaplan_placed.h"
#include "want.h"

#include <errno.h>
#include <string.h>

#define TEXT NP_TEXT
#define BASE 0x10000 /* (page 16) */

static const uint32_t frames[5] = {0, 0, 0, 0, 0};
static const uint8_t distances[25] = {10, 20, 20, 20, 20, 20, 10, 20, 20, 20, 20, 20, 10,
                                      20, 20, 20, 20, 20, 10, 20, 20, 20, 20, 20, 10};

/* Five nodes, of which 4 has no memory, six mapped pages from 16 on, and so many ranges and
 * commands, by these rules. */
static void open_pages_by(np_pages *pages, uint32_t ranges, uint32_t commands, uint32_t rules) {
    const np_limits limits = {ranges, 2, commands};
    np_options options = {0};
    np_core core = {0};
    options.rules = rules;
    WANT(np_core_open_by(&core, TEXT("0-3"), frames, 5, distances, 25, &limits, 1, &options),
         NP_OK);
    WANT(np_core_map(&core, BASE, 0x6000, 0x10), NP_OK);
    WANT(np_pages_open(pages, &core), NP_OK);
    np_core_close(&core);
}

static void open_pages(np_pages *pages, uint32_t ranges, uint32_t commands) {
    open_pages_by(pages, ranges, commands, NP_RULES_DOCUMENT);
}

/* The node of a page, 9 where it lies nowhere. */
static unsigned node_of(np_pages *pages, uint64_t page) {
    uint32_t node = 9, code = np_pages_node(pages, page * 4096 + 5, &node);
    WANT(code, node == 9 ? NP_NOT_PLACED : NP_OK);
    return node;
}

/* The nodes of the six pages, as digits from a leading 7. */
static unsigned nodes_of(np_pages *pages) {
    unsigned digits = 7;
    for (uint64_t page = 16; page < 22; page++)
        digits = digits * 10 + node_of(pages, page);
    return digits;
}

static uint64_t room_of(np_pages *pages, uint32_t node) {
    uint64_t room = 77;
    WANT(np_pages_room(pages, node, &room), NP_OK);
    return room;
}

static uint64_t version_of(np_pages *pages) {
    uint64_t version = 99;
    WANT(np_pages_version(pages, &version), NP_OK);
    return version;
}

/* States where each of the six pages lies: a digit each, 9 for nowhere. */
static void place_all(np_pages *pages, const char *nodes) {
    for (uint64_t k = 0; k < 6; k++)
        if (nodes[k] != '9')
            WANT(np_pages_place(pages, BASE + k * 4096, 4096, nodes[k] - '0'), NP_OK);
}

/* Statements, and what is told of them. */
static void statements(void) {
    np_pages pages = {0};
    np_page_run runs[4];
    np_counts counts;
    size_t count = 99;
    open_pages(&pages, 64, 99);
    WANT(nodes_of(&pages), 7999999);
    WANT(np_pages_runs(&pages, runs, 0, &count), NP_OK);
    WANT(count, 0);
    WANT(np_pages_place(&pages, BASE, 0x2000, 0), NP_OK);
    WANT(np_pages_place(&pages, BASE + 0x2000, 0x2000, 1), NP_OK);
    WANT(np_pages_place(&pages, BASE + 0x4000, 1, 2), NP_OK);
    WANT(nodes_of(&pages), 7001129);
    memset(runs, 9, sizeof runs);
    WANT(np_pages_runs(&pages, runs, 2, &count), NP_NO_ROOM);
    WANT(count, 3);
    WANT(runs[0].node, 9);
    WANT(np_pages_runs(&pages, runs, 4, &count), NP_OK);
    WANT(count, 3);
    WANT(runs[0].first * 100 + runs[0].pages * 10 + runs[0].node, 1620);
    WANT(runs[1].first * 100 + runs[1].pages * 10 + runs[1].node, 1821);
    WANT(runs[2].first * 100 + runs[2].pages * 10 + runs[2].node, 2012);
    WANT(runs[3].node, 9);
    WANT(np_pages_counts(&pages, &counts), NP_OK);
    WANT(counts.pages[0] * 100 + counts.pages[1] * 10 + counts.pages[2], 221);
    WANT(counts.pages[3] + counts.pages[255], 0);
    /* a later one counts; what isn't mapped is passed over; a span of no bytes has no page */
    WANT(np_pages_place(&pages, BASE + 0x1000, 0x2000, 3), NP_OK);
    WANT(nodes_of(&pages), 7033129);
    WANT(np_pages_place(&pages, BASE, 0, 1), NP_OK);
    WANT(nodes_of(&pages), 7033129);
    WANT(np_pages_place(&pages, 0, UINT64_C(1) << 47, 1), NP_OK);
    WANT(nodes_of(&pages), 7111111);
    WANT(np_pages_runs(&pages, runs, 4, &count), NP_OK);
    WANT(count, 1);
    WANT(runs[0].first * 100 + runs[0].pages * 10 + runs[0].node, 1661);
    /* the causes in their order */
    WANT(np_pages_place(&pages, (UINT64_C(1) << 47) + 1, 4096, 7), NP_UNALIGNED);
    WANT(np_pages_place(&pages, UINT64_C(1) << 47, 4096, 7), NP_OUT_OF_SPACE);
    WANT(np_pages_place(&pages, BASE, 4096, 5), NP_NO_SUCH_NODE);
    WANT(np_pages_place(&pages, BASE, 4096, 4), NP_NO_SUCH_NODE); /* (without memory) */
    WANT(np_pages_place(&pages, BASE, 4096, UINT32_MAX), NP_NO_SUCH_NODE);
    WANT(nodes_of(&pages), 7111111);
    np_pages_close(&pages);
}

/* The nodes of an array of pages, in whatever order. */
static void arrays(void) {
    static const uint64_t numbers[6] = {21, 16, 19, 20, UINT64_MAX, 16};
    static const uint8_t wanted[6] = {200, 0, 1, 2, 200, 0};
    np_pages pages = {0};
    uint8_t nodes[6];
    memset(nodes, 9, sizeof nodes);
    WANT(np_pages_nodes(&pages, numbers, 6, nodes, 5, 200), NP_CLOSED);
    open_pages(&pages, 64, 99);
    place_all(&pages, "001129");
    WANT(np_pages_nodes(&pages, numbers, 6, nodes, 5, 200), NP_NO_ROOM);
    WANT(np_pages_nodes(&pages, numbers, 5, nodes, 6, 200), NP_NO_ROOM);
    WANT(nodes[0] * 10 + nodes[5], 99);
    WANT(np_pages_nodes(&pages, numbers, 0, nodes, 0, 200), NP_OK);
    WANT(np_pages_nodes(&pages, numbers, 6, nodes, 6, 200), NP_OK);
    WANT(memcmp(nodes, wanted, 6), 0);
    np_pages_close(&pages);
}

/* The allowed nodes change, and the pages follow (do_migrate_pages), or they don't. */
static void followed(void) {
    np_pages pages = {0};
    np_moves moves;
    open_pages(&pages, 64, 99);
    WANT(np_pages_set_mems(&pages, TEXT("0-2")), NP_OK);
    place_all(&pages, "001129");
    /* as many nodes: those of the k-th go to the k-th, and each page moves once */
    WANT(np_pages_move_mems(&pages, TEXT("1-3"), &moves), NP_OK);
    WANT(nodes_of(&pages), 7112239);
    WANT(moves.moved * 10 + moves.left, 50);
    WANT(moves.from[0] * 1000 + moves.from[1] * 100 + moves.from[2] * 10 + moves.from[3], 2210);
    WANT(moves.to[0] * 1000 + moves.to[1] * 100 + moves.to[2] * 10 + moves.to[3], 1233);
    WANT(moves.to[255], 255);
    /* fewer: what may stay stays, and the second of three goes to the second of two */
    WANT(np_pages_move_mems(&pages, TEXT("1,3"), &moves), NP_OK);
    WANT(nodes_of(&pages), 7113339);
    WANT(moves.moved, 2);
    WANT(moves.from[2], 2);
    WANT(moves.to[2], 3);
    /* pages that don't follow stay; then nothing of them is on an old node */
    WANT(np_pages_set_mems(&pages, TEXT("0")), NP_OK);
    WANT(nodes_of(&pages), 7113339);
    WANT(np_pages_move_mems(&pages, TEXT("2"), &moves), NP_OK);
    WANT(nodes_of(&pages), 7113339);
    WANT(moves.moved + moves.left, 0);
    /* refused: nothing has changed, and no move is told */
    memset(&moves, 9, sizeof moves);
    WANT(np_pages_move_mems(&pages, TEXT("9"), &moves), NP_NO_SUCH_NODE);
    WANT(np_pages_move_mems(&pages, TEXT("4"), &moves), NP_NODES_NOT_ALLOWED);
    WANT(np_pages_move_mems(&pages, TEXT("3-"), &moves), NP_LIST_BAD_DIGIT);
    WANT(moves.moved, UINT64_C(0x0909090909090909));
    WANT(moves.to[0], 9);
    WANT(version_of(&pages), 6);
    np_pages_close(&pages);
}

/* migrate_pages(2). */
static void migrated(void) {
    np_pages pages = {0};
    np_moves moves;
    open_pages(&pages, 64, 99);
    place_all(&pages, "000119");
    WANT(np_pages_set_mems(&pages, TEXT("0-2")), NP_OK);
    WANT(np_pages_migrate(&pages, TEXT("0"), TEXT("3"), &moves), NP_NODES_NOT_ALLOWED);
    /* of 2 to 3 only 2 is allowed */
    WANT(np_pages_migrate(&pages, TEXT("0"), TEXT("2-3"), &moves), NP_OK);
    WANT(nodes_of(&pages), 7222119);
    WANT(moves.moved * 10 + moves.left, 30);
    /* two nodes to two: the first to the first, the second to the second */
    WANT(np_pages_migrate(&pages, TEXT("1-2"), TEXT("0,2"), &moves), NP_OK);
    WANT(nodes_of(&pages), 7222009);
    WANT(np_pages_migrate(&pages, TEXT("0,2"), TEXT("2,0"), &moves), NP_OK);
    WANT(moves.moved, 0);
    /* a node outside the first list keeps its pages */
    WANT(np_pages_migrate(&pages, TEXT("0"), TEXT("1"), &moves), NP_OK);
    WANT(nodes_of(&pages), 7222119);
    WANT(np_pages_migrate(&pages, TEXT("0-"), TEXT("x"), &moves), NP_LIST_BAD_DIGIT);
    WANT(np_pages_migrate(&pages, TEXT("0"), TEXT("1-0"), &moves), NP_LIST_BACKWARDS);
    /* the pages moved, and no command was accepted */
    WANT(version_of(&pages), 2);
    np_pages_close(&pages);
}

/* Nodes that fill. */
static void rooms(void) {
    np_pages pages = {0};
    np_moves moves;
    open_pages(&pages, 64, 99);
    place_all(&pages, "111119");
    WANT(room_of(&pages, 2), NP_ENDLESS);
    WANT(np_pages_set_room(&pages, 2, 3), NP_OK);
    WANT(np_pages_set_room(&pages, 1, 0), NP_OK);
    /* the lowest pages go first; those that leave give room back */
    WANT(np_pages_migrate(&pages, TEXT("1"), TEXT("2"), &moves), NP_OK);
    WANT(nodes_of(&pages), 7222119);
    WANT(moves.moved * 10 + moves.left, 32);
    WANT(room_of(&pages, 2), 0);
    WANT(room_of(&pages, 1), 3);
    WANT(np_pages_move(&pages, BASE + 0x3000, 2), NP_NODE_FULL);
    WANT(np_pages_move(&pages, BASE, 2), NP_OK); /* (it lies there) */
    WANT(np_pages_move(&pages, BASE + 4095, 3), NP_OK);
    WANT(room_of(&pages, 2), 1);
    WANT(np_pages_move(&pages, BASE + 0x3000, 2), NP_OK);
    WANT(nodes_of(&pages), 7322219);
    WANT(room_of(&pages, 2), 0);
    /* a statement takes room, too, and an unmapped page gives its own back */
    WANT(np_pages_place(&pages, BASE + 0x5000, 4096, 2), NP_NODE_FULL);
    WANT(nodes_of(&pages), 7322219);
    WANT(np_pages_unmap(&pages, BASE + 0x1000, 4096), NP_OK);
    WANT(room_of(&pages, 2), 1);
    WANT(np_pages_place(&pages, BASE + 0x5000, 4096, 2), NP_OK);
    WANT(room_of(&pages, 2), 0);
    /* of pages that lie there none takes any; one that is stated elsewhere gives its own back */
    WANT(np_pages_place(&pages, BASE + 0x2000, 0x2000, 2), NP_OK);
    WANT(room_of(&pages, 2), 0);
    WANT(room_of(&pages, 1), 4);
    WANT(np_pages_place(&pages, BASE + 0x3000, 0x2000, 1), NP_OK);
    WANT(room_of(&pages, 2), 1);
    WANT(room_of(&pages, 1), 3);
    WANT(nodes_of(&pages), 7392112);
    /* three pages come to node 2, and two lie there: all or none */
    WANT(np_pages_place(&pages, BASE, 0x6000, 2), NP_NODE_FULL);
    WANT(np_pages_set_room(&pages, 2, 2), NP_OK);
    WANT(np_pages_place(&pages, BASE, 0x6000, 2), NP_NODE_FULL);
    WANT(nodes_of(&pages), 7392112);
    WANT(room_of(&pages, 2), 2);
    WANT(np_pages_set_room(&pages, 2, 3), NP_OK);
    WANT(np_pages_place(&pages, BASE, 0x6000, 2), NP_OK);
    WANT(nodes_of(&pages), 7292222);
    WANT(room_of(&pages, 2), 0);
    WANT(room_of(&pages, 1), 5);
    /* which comes after the causes of the call itself; a node that never fills takes all */
    WANT(np_pages_place(&pages, BASE + 1, 4096, 2), NP_UNALIGNED);
    WANT(np_pages_place(&pages, UINT64_C(1) << 47, 4096, 2), NP_OUT_OF_SPACE);
    WANT(np_pages_set_room(&pages, 2, NP_ENDLESS), NP_OK);
    WANT(np_pages_place(&pages, BASE, 0x1000, 1), NP_OK);
    WANT(np_pages_place(&pages, BASE, 0x1000, 2), NP_OK);
    WANT(room_of(&pages, 2), NP_ENDLESS);
    WANT(np_pages_set_room(&pages, 4, 1), NP_NO_SUCH_NODE);
    WANT(np_pages_set_room(&pages, 5, 1), NP_NO_SUCH_NODE);
    uint64_t room = 77;
    WANT(np_pages_room(&pages, 256, &room), NP_NO_SUCH_NODE);
    WANT(room, 77);
    np_pages_close(&pages);
}

/* A node that fills ends the move, also for nodes whose pages would find room. */
static void ended(void) {
    np_pages pages = {0};
    np_moves moves;
    open_pages(&pages, 64, 99);
    place_all(&pages, "001199");
    WANT(np_pages_set_room(&pages, 2, 1), NP_OK);
    /* 0 goes to 2 first, and 1 to 3 not any more */
    WANT(np_pages_migrate(&pages, TEXT("0-1"), TEXT("2-3"), &moves), NP_OK);
    WANT(nodes_of(&pages), 7201199);
    WANT(moves.moved * 10 + moves.left, 13);
    WANT(moves.from[0] * 10 + moves.from[1], 10);
    np_pages_close(&pages);
}

/* move_pages(2): the causes in their order. */
static void moved(void) {
    np_pages pages = {0};
    open_pages(&pages, 64, 99);
    place_all(&pages, "009999");
    WANT(np_pages_set_mems(&pages, TEXT("0-1")), NP_OK);
    WANT(np_pages_set_room(&pages, 1, 0), NP_OK);
    WANT(np_pages_move(&pages, 0, 5), NP_NO_SUCH_TARGET);
    WANT(np_pages_move(&pages, 0, 4), NP_NO_SUCH_TARGET);
    WANT(np_pages_move(&pages, 0, 3), NP_TARGET_NOT_ALLOWED);
    WANT(np_pages_move(&pages, 0, 1), NP_PAGE_UNMAPPED);
    WANT(np_pages_move(&pages, UINT64_MAX, 1), NP_PAGE_UNMAPPED);
    WANT(np_pages_move(&pages, BASE + 0x5000, 1), NP_NOT_PLACED);
    WANT(np_pages_move(&pages, BASE, 1), NP_NODE_FULL);
    WANT(np_pages_move(&pages, BASE, 0), NP_OK);
    WANT(np_pages_set_room(&pages, 1, NP_ENDLESS), NP_OK);
    WANT(np_pages_move(&pages, BASE, 1), NP_OK);
    WANT(nodes_of(&pages), 7109999);
    WANT(room_of(&pages, 1), NP_ENDLESS);
    np_pages_close(&pages);
}

/* mbind(2) with MPOL_MF_STRICT. */
static void strictly(void) {
    np_pages pages = {0};
    open_pages(&pages, 64, 99);
    place_all(&pages, "222119");
    WANT(np_pages_mbind_strictly(&pages, BASE, 0x3000, TEXT("bind:1-2")), NP_OK);
    WANT(np_pages_mbind_strictly(&pages, BASE, 0x4000, TEXT("bind:2")), NP_ASTRAY);
    WANT(np_pages_mbind_strictly(&pages, BASE, 0x3000, TEXT("prefer:1")), NP_ASTRAY);
    WANT(np_pages_mbind_strictly(&pages, BASE, 0x3000, TEXT("local")), NP_ASTRAY);
    WANT(np_pages_mbind_strictly(&pages, BASE, 0x3000, TEXT("default")), NP_OK);
    WANT(np_pages_mbind_strictly(&pages, BASE + 0x5000, 0x1000, TEXT("bind:3")), NP_OK);
    WANT(np_pages_mbind_strictly(&pages, BASE, 0, TEXT("bind:1")), NP_OK);
    WANT(version_of(&pages), 5);
    /* without strict it is set, and the pages stay */
    WANT(np_pages_mbind(&pages, BASE, 0x4000, TEXT("bind:3")), NP_OK);
    WANT(nodes_of(&pages), 7222119);
    /* the list as it is written, though 0 of 1 to 3 is node 1 */
    WANT(np_pages_place(&pages, BASE, 0x1000, 0), NP_OK);
    WANT(np_pages_set_mems(&pages, TEXT("1-3")), NP_OK);
    WANT(np_pages_mbind_strictly(&pages, BASE, 0x1000, TEXT("bind=relative:0")), NP_OK);
    WANT(np_pages_mbind_strictly(&pages, BASE, 0x1000, TEXT("bind=relative:1")), NP_ASTRAY);
    /* before it */
    WANT(np_pages_mbind_strictly(&pages, BASE + 1, 0x1000, TEXT("bind:3")), NP_UNALIGNED);
    WANT(np_pages_mbind_strictly(&pages, BASE, 0x7000, TEXT("bind:3")), NP_HOLE);
    WANT(np_pages_mbind_strictly(&pages, BASE, 0x2000, TEXT("bind:0")), NP_NODES_NOT_ALLOWED);
    WANT(np_pages_mbind_strictly(&pages, BASE, 0x1000, TEXT("bend:0")), NP_UNKNOWN_MODE);
    np_pages_close(&pages);
    /* and behind it: one range has to become three */
    open_pages(&pages, 1, 2);
    place_all(&pages, "222222");
    WANT(np_pages_mbind_strictly(&pages, BASE + 0x1000, 0x1000, TEXT("bind:2")),
         NP_TOO_MANY_RANGES);
    WANT(np_pages_mbind_strictly(&pages, BASE + 0x1000, 0x1000, TEXT("bind:1")), NP_ASTRAY);
    WANT(np_pages_set_weight(&pages, 0, 2), NP_OK);
    WANT(np_pages_mbind_strictly(&pages, BASE + 0x1000, 0x1000, TEXT("bind:1")),
         NP_COMMANDS_SPENT);
    np_pages_close(&pages);
}

/* A hole behind the second of two ranges: by the kernel's rules a page astray in the first is told
 * before it, by the documents' none is. */
static void strictly_over_a_hole(uint32_t rules, uint32_t told) {
    np_pages pages = {0};
    open_pages_by(&pages, 64, 99, rules);
    place_all(&pages, "222222");
    WANT(np_pages_mbind(&pages, BASE + 0x3000, 0x3000, TEXT("bind:2")), NP_OK);
    WANT(np_pages_mbind_strictly(&pages, BASE + 0x2000, 0x5000, TEXT("bind:1")), told);
    WANT(np_pages_mbind_strictly(&pages, BASE + 0x2000, 0x4000, TEXT("bind:1")), NP_ASTRAY);
    WANT(np_pages_mbind_strictly(&pages, BASE + 0x3000, 0x4000, TEXT("bind:1")), NP_HOLE);
    WANT(np_pages_mbind_strictly(&pages, BASE + 0x2000, 0x5000, TEXT("bind:2")), NP_HOLE);
    WANT(np_pages_mbind_strictly(&pages, BASE - 0x1000, 0x5000, TEXT("bind:1")), NP_HOLE);
    np_pages_close(&pages);
}

/* mbind(2) with MPOL_MF_MOVE: set, moved, left, and the error number, in digits. */
static unsigned moving(np_pages *pages, uint64_t length, const char *word, bool strict,
                       uint32_t cpu) {
    np_bound bound = {7, 7, 7};
    WANT(np_pages_mbind_moving(pages, BASE, length, TEXT(word), strict, 0, cpu, &bound), NP_OK);
    return (unsigned)(bound.moved * 100 + bound.left * 10 + bound.error);
}

static void rebound(void) {
    np_pages pages = {0};
    np_bound bound = {7, 7, 7};
    open_pages(&pages, 64, 99);
    place_all(&pages, "012309");
    /* what lies on a node of the list stays; the others go to the one next to the CPU */
    WANT(moving(&pages, 0x6000, "bind:0-1", true, 1), 200);
    WANT(nodes_of(&pages), 7011109);
    /* each where its own list finds room: 2 for the even pages, and then 0 */
    WANT(np_pages_set_room(&pages, 2, 1), NP_OK);
    WANT(moving(&pages, 0x6000, "interleave:2-3", false, 0), 400);
    WANT(nodes_of(&pages), 7230309);
    WANT(room_of(&pages, 2), 0);
    /* a page that leaves gives its room back */
    WANT(np_pages_place(&pages, BASE, 0x1000, 0), NP_OK);
    WANT(np_pages_set_room(&pages, 0, 0), NP_OK);
    WANT(moving(&pages, 0x5000, "bind:3", false, 0), 300);
    WANT(room_of(&pages, 0), 3);
    WANT(nodes_of(&pages), 7333339);
    /* no node of the list has room: left, and told by EIO where that was asked */
    WANT(np_pages_set_room(&pages, 1, 1), NP_OK);
    WANT(moving(&pages, 0x3000, "bind:1", true, 0), 125);
    WANT(moving(&pages, 0x3000, "bind:1", false, 0), 20);
    WANT(nodes_of(&pages), 7133339);
    /* "default" has no list, so all may go; the third to what the first left, the rest stay */
    for (uint32_t node = 0; node < 4; node++)
        WANT(np_pages_set_room(&pages, node, node == 0 ? 2 : 0), NP_OK);
    WANT(moving(&pages, 0x5000, "default", true, 0), 300);
    WANT(nodes_of(&pages), 7001339);
    WANT(room_of(&pages, 3), 2);
    /* all nodes are full; "default" drops the EIO */
    WANT(np_pages_set_room(&pages, 3, 0), NP_OK);
    WANT(moving(&pages, 0x5000, "default", true, 0), 50);
    WANT(moving(&pages, 0x5000, "local", true, 0), 55);
    /* refused: nothing is told */
    WANT(np_pages_mbind_moving(&pages, BASE, 0x7000, TEXT("bind:3"), true, 0, 0, &bound), NP_HOLE);
    WANT(np_pages_mbind_moving(&pages, BASE, 0, TEXT("bend"), true, 0, 0, &bound),
         NP_UNKNOWN_MODE);
    WANT(bound.moved + bound.left + bound.error, 21);
    np_pages_close(&pages);
    WANT(np_pages_mbind_moving(&pages, BASE, 0, TEXT("bind:0"), true, 0, 0, &bound), NP_CLOSED);
}

/* madvise(2) with MADV_POPULATE_WRITE: placed, exhausted, and the pages that went to nodes 0 to 3,
 * in digits. */
static unsigned populating(np_pages *pages, uint64_t start, uint64_t length, uint32_t task,
                           uint32_t cpu) {
    np_arrived told;
    uint64_t version = version_of(pages), others = 0;
    memset(&told, 9, sizeof told);
    WANT(np_pages_populate(pages, start, length, task, cpu, &told), NP_OK);
    WANT(version_of(pages), version);
    for (size_t node = 4; node < 256; node++)
        others += told.nodes[node];
    WANT(others, 0);
    return (unsigned)(told.placed * 100000 + told.exhausted * 10000 + told.nodes[0] * 1000 +
                      told.nodes[1] * 100 + told.nodes[2] * 10 + told.nodes[3]);
}

/* First touches: where a fault of the task would put each page. */
static void populated(void) {
    np_pages pages = {0};
    open_pages(&pages, 64, 99);
    WANT(np_pages_set_task(&pages, 1, TEXT("interleave:0-1")), NP_OK);
    /* one is there: it stays. Of the even pages two find room on node 0, and the third goes to 1 */
    WANT(np_pages_place(&pages, BASE + 0x1000, 0x1000, 3), NP_OK);
    WANT(np_pages_set_room(&pages, 0, 2), NP_OK);
    WANT(populating(&pages, BASE, 0x6000, 1, 0), 502300);
    WANT(nodes_of(&pages), 7030111);
    WANT(room_of(&pages, 0), 0);
    WANT(room_of(&pages, 1), NP_ENDLESS);
    /* all are there: nothing is to be touched, though there is no room */
    WANT(populating(&pages, BASE, 0x6000, 1, 0), 0);
    WANT(nodes_of(&pages), 7030111);
    /* one that is unmapped gives its room back, lies nowhere, and takes room anew */
    WANT(np_pages_unmap(&pages, BASE, 0x2000), NP_OK);
    WANT(room_of(&pages, 0), 1);
    WANT(np_pages_map(&pages, BASE, 0x2000, 0x10), NP_OK);
    WANT(nodes_of(&pages), 7990111);
    WANT(populating(&pages, BASE, 1, 7, 0), 101000); /* (a task without a policy; one page) */
    WANT(room_of(&pages, 0), 0);
    WANT(populating(&pages, BASE, 0x2000, 7, 4), 100100); /* (node 4 has a CPU, and no memory) */
    WANT(nodes_of(&pages), 7010111);
    /* one that finds no room stays nowhere, and the next go on: node 2 takes one of three */
    WANT(np_pages_unmap(&pages, BASE, 0x6000), NP_OK);
    WANT(room_of(&pages, 0), 2);
    WANT(np_pages_map(&pages, BASE, 0x6000, 0x10), NP_OK);
    WANT(np_pages_mbind(&pages, BASE, 0x3000, TEXT("bind:2")), NP_OK);
    WANT(np_pages_set_room(&pages, 2, 1), NP_OK);
    WANT(populating(&pages, BASE, 0x6000, 7, 3), 420013);
    WANT(nodes_of(&pages), 7299333);
    WANT(populating(&pages, BASE, 0x6000, 7, 3), 20000);
    WANT(room_of(&pages, 2), 0);
    WANT(np_pages_set_room(&pages, 2, NP_ENDLESS), NP_OK);
    WANT(populating(&pages, BASE + 0x1000, 0x5000, 7, 3), 200020);
    WANT(nodes_of(&pages), 7222333);
    /* they move as all others do, and a later statement counts */
    WANT(np_pages_move(&pages, BASE, 1), NP_OK);
    WANT(np_pages_place(&pages, BASE + 0x1000, 0x1000, 0), NP_OK);
    WANT(nodes_of(&pages), 7102333);
    WANT(room_of(&pages, 0), 1);
    np_pages_close(&pages);
}

/* First touches of 2,000 pages from page 4,096 on, of which one lies on node 3 already. */
static void populated_far(void) {
    const uint64_t start = UINT64_C(4096) * 4096, length = UINT64_C(2000) * 4096;
    static const uint32_t room[4] = {700, 1000, 100, 50};
    static const np_page_run wanted[6] = {{4096, 600, 0}, {4696, 1, 3},    {4697, 100, 0},
                                          {4797, 1000, 1}, {5797, 100, 2}, {5897, 50, 3}};
    np_pages pages = {0};
    np_page_run runs[6];
    np_arrived told;
    size_t count = 99;
    open_pages(&pages, 64, 99);
    WANT(np_pages_map(&pages, start, length, 4096), NP_OK);
    WANT(np_pages_place(&pages, start + 600 * 4096, 4096, 3), NP_OK);
    for (uint32_t node = 0; node < 4; node++)
        WANT(np_pages_set_room(&pages, node, room[node]), NP_OK);
    /* node after node fills, the nearest first, and the last 149 pages find no room */
    WANT(np_pages_populate(&pages, start, length, 7, 0, &told), NP_OK);
    WANT(told.placed, 1850);
    WANT(told.exhausted, 149);
    WANT(np_pages_runs(&pages, runs, 6, &count), NP_OK);
    WANT(count, 6);
    for (size_t k = 0; k < 6; k++) {
        WANT(runs[k].first, wanted[k].first);
        WANT(runs[k].pages, wanted[k].pages);
        WANT(runs[k].node, wanted[k].node);
    }
    for (uint32_t node = 0; node < 4; node++) {
        WANT(told.nodes[node], room[node]);
        WANT(room_of(&pages, node), 0);
    }
    /* all give their room back, and the one that was there before the rooms were said does too */
    WANT(np_pages_unmap(&pages, start, length), NP_OK);
    for (uint32_t node = 0; node < 4; node++)
        WANT(room_of(&pages, node), room[node] + (node == 3));
    /* page by page to two nodes, of which one fills: the pages of node 1 are then 1,300 */
    WANT(np_pages_map(&pages, start, length, 4096), NP_OK);
    WANT(np_pages_set_room(&pages, 1, NP_ENDLESS), NP_OK);
    WANT(np_pages_set_task(&pages, 1, TEXT("interleave:0-1")), NP_OK);
    WANT(np_pages_populate(&pages, start, length, 1, 3, &told), NP_OK);
    WANT(told.nodes[0], 700);
    WANT(told.nodes[1], 1300);
    WANT(told.placed * 10 + told.exhausted, 20000);
    WANT(node_of(&pages, 4096 + 1398), 0);
    WANT(node_of(&pages, 4096 + 1400), 1);
    np_pages_close(&pages);
}

/* Why pages aren't touched, in order; nothing has changed then, and nothing is told. */
static void unpopulated(void) {
    const uint64_t top = UINT64_C(1) << 47;
    np_pages pages = {0};
    np_arrived told;
    open_pages(&pages, 64, 99);
    WANT(np_pages_place(&pages, BASE, 0x1000, 1), NP_OK);
    memset(&told, 9, sizeof told);
    WANT(np_pages_populate(&pages, top + 1, 4096, 0, 5, &told), NP_UNALIGNED);
    WANT(np_pages_populate(&pages, BASE + 1, 4096, 0, 0, &told), NP_UNALIGNED);
    WANT(np_pages_populate(&pages, top, 4096, 0, 5, &told), NP_OUT_OF_SPACE);
    WANT(np_pages_populate(&pages, BASE, 0x7000, 0, 5, &told), NP_NO_SUCH_CPU);
    WANT(np_pages_populate(&pages, BASE, 0, 0, UINT32_MAX, &told), NP_NO_SUCH_CPU);
    WANT(np_pages_populate(&pages, BASE, 0x6001, 0, 0, &told), NP_SPAN_UNMAPPED);
    WANT(np_pages_populate(&pages, BASE - 0x1000, 0x2000, 0, 4, &told), NP_SPAN_UNMAPPED);
    WANT(np_pages_unmap(&pages, BASE + 0x2000, 0x1000), NP_OK);
    WANT(np_pages_populate(&pages, BASE, 0x6000, 0, 0, &told), NP_SPAN_UNMAPPED);
    WANT(nodes_of(&pages), 7199999);
    WANT(told.placed, UINT64_C(0x0909090909090909));
    WANT(told.nodes[255], UINT64_C(0x0909090909090909));
    WANT(populating(&pages, 0, 0, 0, 0), 0); /* (a span of no bytes has no page) */
    np_pages_close(&pages);
    WANT(np_pages_populate(&pages, BASE + 1, 0x1000, 0, 9, &told), NP_CLOSED);
    WANT(told.exhausted, UINT64_C(0x0909090909090909));
}

/* Pages that are unmapped lie nowhere any more. */
static void unmapped(void) {
    np_pages pages = {0};
    open_pages(&pages, 1, 99);
    place_all(&pages, "222222");
    WANT(np_pages_set_room(&pages, 2, 0), NP_OK);
    /* refused, since one range would become two: the pages are as they were */
    WANT(np_pages_unmap(&pages, BASE + 0x1000, 0x1000), NP_TOO_MANY_RANGES);
    WANT(np_pages_unmap(&pages, BASE + 1, 0x1000), NP_UNALIGNED);
    WANT(np_pages_unmap(&pages, BASE, UINT64_C(1) << 47), NP_OUT_OF_SPACE);
    WANT(nodes_of(&pages), 7222222);
    WANT(room_of(&pages, 2), 0);
    WANT(np_pages_unmap(&pages, BASE + 0x4000, 0x9000), NP_OK);
    WANT(nodes_of(&pages), 7222299);
    WANT(room_of(&pages, 2), 2);
    WANT(np_pages_map(&pages, BASE + 0x4000, 0x2000, 0x14), NP_OK);
    WANT(nodes_of(&pages), 7222299);
    WANT(np_pages_move(&pages, BASE + 0x4000, 2), NP_NOT_PLACED);
    WANT(version_of(&pages), 3);
    np_pages_close(&pages);
}

/* Copies, and the core. */
static void copies(void) {
    np_pages pages = {0}, copy = {0};
    np_core core = {0};
    np_plan plan = {0};
    np_moves moves;
    uint64_t accepted = 0, published = 99;
    uint8_t nodes[4];
    open_pages(&pages, 64, 99);
    place_all(&pages, "012301");
    WANT(np_pages_set_room(&pages, 1, 7), NP_OK);
    WANT(np_pages_copy(&pages, &copy), NP_OK);
    WANT(np_pages_copy(&pages, &copy), NP_OPEN);
    WANT(np_pages_move_mems(&copy, TEXT("1"), &moves), NP_OK);
    WANT(nodes_of(&copy), 7111111);
    WANT(room_of(&copy, 1), 3);
    WANT(nodes_of(&pages), 7012301);
    WANT(room_of(&pages, 1), 7);
    /* the core of the one and of the other */
    WANT(np_pages_core(&copy, &core), NP_OK);
    WANT(np_pages_core(&copy, &core), NP_OPEN);
    np_pages_close(&copy);
    WANT(np_core_versions(&core, &accepted, &published), NP_OK);
    WANT(accepted * 10 + published, 20);
    WANT(np_core_compile(&core, &plan), NP_OK);
    WANT(np_plan_fill(&plan, 1, 0, 16, nodes, 4), NP_OK);
    WANT(nodes[0] * 10 + nodes[3], 11);
    np_plan_close(&plan);
    /* what is done to it changes the pages' core as little */
    WANT(np_core_unmap(&core, BASE, 0x6000), NP_OK);
    WANT(nodes_of(&pages), 7012301);
    WANT(np_pages_move(&pages, BASE, 2), NP_OK);
    np_core_close(&core);
    np_pages_close(&pages);
    np_pages_close(&pages);
}

/* The other commands of the core. */
static void commands(void) {
    np_pages pages = {0};
    np_core core = {0};
    np_policy policy;
    open_pages(&pages, 64, 99);
    WANT(np_pages_set_task(&pages, 1, TEXT("bind:2")), NP_OK);
    WANT(np_pages_inherit(&pages, 2, 1), NP_OK);
    WANT(np_pages_mbind(&pages, BASE, 0x1000, TEXT("bind:1")), NP_OK);
    WANT(np_pages_set_home(&pages, BASE, 0x1000, 3), NP_OK);
    WANT(np_pages_set_weight(&pages, 0, 0), NP_BAD_WEIGHT);
    WANT(np_pages_set_weight(&pages, 0, 5), NP_OK);
    WANT(np_pages_inherit(&pages, 3, 1), NP_TOO_MANY_TASKS);
    WANT(np_pages_map(&pages, BASE, 0x1000, 0), NP_OVERLAP);
    WANT(np_pages_core(&pages, &core), NP_OK);
    WANT(np_core_task_policy(&core, 2, &policy), NP_OK);
    WANT(policy.nodes.words[0], 4);
    WANT(np_core_range_policy(&core, 0, &policy), NP_OK);
    WANT(policy.home * 10 + policy.nodes.words[0], 32);
    np_core_close(&core);
    np_pages_close(&pages);
}

static void closed(void) {
    np_pages pages = {0}, other = {0};
    np_core core = {0};
    np_moves moves;
    np_counts counts;
    np_page_run run;
    uint64_t number = 99;
    uint32_t node = 99;
    size_t count = 99;
    memset(&moves, 9, sizeof moves);
    WANT(np_pages_open(&pages, &core), NP_CLOSED);
    WANT(np_pages_copy(&pages, &other), NP_CLOSED);
    WANT(np_pages_core(&pages, &core), NP_CLOSED);
    WANT(np_pages_version(&pages, &number), NP_CLOSED);
    WANT(np_pages_room(&pages, 0, &number), NP_CLOSED);
    WANT(np_pages_node(&pages, 0, &node), NP_CLOSED);
    WANT(np_pages_counts(&pages, &counts), NP_CLOSED);
    WANT(np_pages_runs(&pages, &run, 1, &count), NP_CLOSED);
    WANT(np_pages_map(&pages, 0, 0, 0), NP_CLOSED);
    WANT(np_pages_place(&pages, 1, 0, 9), NP_CLOSED);
    WANT(np_pages_set_room(&pages, 9, 0), NP_CLOSED);
    WANT(np_pages_move(&pages, 0, 9), NP_CLOSED);
    WANT(np_pages_migrate(&pages, TEXT("0"), TEXT("1"), &moves), NP_CLOSED);
    WANT(np_pages_migrate(&pages, TEXT("0"), TEXT(""), &moves), NP_LIST_EMPTY);
    WANT(np_pages_move_mems(&pages, TEXT("0"), &moves), NP_CLOSED);
    WANT(np_pages_mbind_strictly(&pages, 1, 0, TEXT("bend")), NP_UNKNOWN_MODE);
    WANT(np_pages_mbind_strictly(&pages, 1, 0, TEXT("bind:0")), NP_CLOSED);
    WANT(number + node + count, 297);
    WANT(moves.to[255], 9);
    open_pages(&pages, 64, 99);
    WANT(np_pages_open(&pages, &core), NP_OPEN);
    np_pages_close(&pages);
}

/* The error numbers of the causes that only pages have (errno(3)), and their names. */
static void causes(void) {
    static const struct {
        uint32_t code, number;
        const char *name;
    } all[] = {
        {NP_TOO_MANY_RUNS, ENOMEM, "TooManyRuns"}, {NP_ASTRAY, EIO, "Astray"},
        {NP_NO_SUCH_TARGET, ENODEV, "NoSuchTarget"},
        {NP_TARGET_NOT_ALLOWED, EACCES, "TargetNotAllowed"},
        {NP_PAGE_UNMAPPED, EFAULT, "PageUnmapped"}, {NP_NOT_PLACED, ENOENT, "NotPlaced"},
        {NP_NODE_FULL, ENOMEM, "NodeFull"}, {NP_OCCUPIED, EEXIST, "Occupied"},
        {NP_NO_SUCH_CPU, EINVAL, "NoSuchCpu"}, {NP_SPAN_UNMAPPED, ENOMEM, "SpanUnmapped"},
        {NP_NO_SUCH_POOL, ENOENT, "NoSuchPool"}, {NP_UNSURE, 0, "Unsure"},
        {NP_NO_HUGE_PAGES, ENOMEM, "NoHugePages"}, {NP_NODES_FULL, 0, "NodesFull"},
        {NP_NO_PAGE_FREE, 0, "NoPageFree"},
    };
    uint32_t number = 99;
    for (size_t k = 0; k < sizeof all / sizeof *all; k++) {
        uint8_t name[32];
        size_t length = 0;
        WANT(np_answer_name(all[k].code, name, sizeof name, &length), NP_OK);
        WANT(length, strlen(all[k].name));
        WANT(memcmp(name, all[k].name, length), 0);
        WANT(np_answer_errno(all[k].code, &number), NP_OK);
        WANT(number, all[k].number);
    }
    WANT(np_answer_errno(119, &number), NP_UNKNOWN);
}

/* Commands by the system calls' own words do what those by text do; and an mbind of no bytes whose
 * mode, flag and nodes don't go together is refused by the documents alone, whatever way it is told. */
static void by_words(uint32_t rules) {
    static const np_nodes none = {{0, 0, 0, 0}}, one = {{2, 0, 0, 0}}, two = {{6, 0, 0, 0}};
    const uint32_t bind = 2, local = 4, relative = 0x4000;
    const uint32_t code = rules == NP_RULES_LINUX ? NP_OK : NP_FLAGS_FORBIDDEN;
    np_pages pages = {0};
    np_core core = {0};
    np_policy policy;
    np_bound bound = {9, 9, 9};
    WANT(np_pages_mbind_by(&pages, BASE, 0x1000, bind, &none), NP_NODES_MISSING);
    WANT(np_pages_home_by(&pages, BASE, 0x1000, 1, 2), NP_FLAGS_FORBIDDEN);
    WANT(np_pages_mbind_by(&pages, BASE, 0x1000, bind, &one), NP_CLOSED);
    open_pages_by(&pages, 64, 99, rules);
    place_all(&pages, "112299");
    WANT(np_pages_mbind_by(&pages, BASE, 0x4000, bind, &two), NP_OK);
    WANT(np_pages_mbind_strictly_by(&pages, BASE, 0x3000, bind, &one), NP_ASTRAY);
    WANT(np_pages_mbind_strictly_by(&pages, BASE, 0x3000, bind, &two), NP_OK);
    WANT(np_pages_mbind_moving_by(&pages, BASE, 0x3000, bind, &none, false, 1, 0, &bound),
         NP_NODES_MISSING);
    WANT(bound.moved, 9);
    WANT(np_pages_mbind_moving_by(&pages, BASE, 0x3000, bind, &one, false, 1, 0, &bound), NP_OK);
    WANT(bound.moved, 1);
    WANT(nodes_of(&pages), 7111299);
    WANT(np_pages_home_by(&pages, BASE, 0x3000, 1, 0), NP_OK);
    WANT(np_pages_set_task_by(&pages, 7, bind, &none), NP_NODES_MISSING);
    WANT(np_pages_set_task_by(&pages, 7, bind | relative, &one), NP_OK);
    WANT(np_pages_mbind(&pages, BASE, 0, TEXT("local=relative")), code);
    WANT(np_pages_mbind_by(&pages, BASE, 0, local | relative, &none), code);
    WANT(np_pages_mbind_strictly(&pages, BASE, 0, TEXT("local=relative")), code);
    WANT(np_pages_mbind_strictly_by(&pages, BASE, 0, local | relative, &none), code);
    WANT(np_pages_mbind_moving(&pages, BASE, 0, TEXT("local=relative"), true, 1, 0, &bound), code);
    WANT(np_pages_mbind_moving_by(&pages, BASE, 0, local | relative, &none, true, 1, 0, &bound),
         code);
    WANT(nodes_of(&pages), 7111299);
    WANT(np_pages_core(&pages, &core), NP_OK);
    WANT(np_core_range_policy(&core, 0, &policy), NP_OK);
    WANT(policy.mode, bind);
    WANT(policy.asked.words[0], 2);
    WANT(policy.home, 1);
    WANT(np_core_task_policy(&core, 7, &policy), NP_OK);
    WANT(policy.mode, bind | relative);
    np_core_close(&core);
    np_pages_close(&pages);
}

int main(void) {
    by_words(NP_RULES_DOCUMENT);
    by_words(NP_RULES_LINUX);
    statements();
    arrays();
    followed();
    migrated();
    rooms();
    ended();
    moved();
    strictly();
    strictly_over_a_hole(NP_RULES_DOCUMENT, NP_HOLE);
    strictly_over_a_hole(NP_RULES_LINUX, NP_ASTRAY);
    rebound();
    populated();
    populated_far();
    unpopulated();
    unmapped();
    copies();
    commands();
    closed();
    causes();
    return wrong;
}
