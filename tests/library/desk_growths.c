/* Desks of which each growth is refused in turn, through the library's three functions of memory: a
 * call that is refused so answers NP_NO_MEMORY, and the desk is as it was. A reader that enters, and
 * each question, takes no memory and gives none back. Not proved. */
#include "growths.h"
#include "numaplan.h"

#include <stdio.h>
#include <string.h>

enum { FIRST = 16, PAGES = 64, TASK = 1, TURNS = 40 };
#define TEXT(words) (const uint8_t *)(words), strlen(words)

static int failed;

static void check(bool held, const char *what) {
    if (!held) {
        printf("%s\n", what);
        failed = 1;
    }
}

/* What is seen of a desk. */
struct seen {
    uint64_t code, accepted, published; /* (of one width, so that no byte between them is compared) */
};

static struct seen see(np_desk *desk) {
    struct seen seen = {0, 0, 0};
    seen.code = np_desk_versions(desk, &seen.accepted, &seen.published);
    return seen;
}

/* Makes a call with the Nth growth refused; where that was so, nothing changed, and once more it is
 * done. Whether a growth was refused. */
#define MAKE(nth, call)                                                                            \
    do {                                                                                           \
        struct seen before = see(desk);                                                            \
        left = (nth);                                                                              \
        uint32_t code = (call);                                                                    \
        bool spent = left < 0;                                                                     \
        left = -1;                                                                                 \
        struct seen after = see(desk);                                                             \
        any = any || spent;                                                                        \
        if (code == NP_NO_MEMORY) {                                                                \
            check(spent, #call ": no growth was refused");                                         \
            check(memcmp(&before, &after, sizeof before) == 0, #call ": the desk changed");        \
            check((call) == NP_OK, #call ": it isn't done afterwards");                            \
        } else {                                                                                   \
            check(code == NP_OK, #call ": it isn't done");                                         \
        }                                                                                          \
    } while (0)

static uint32_t open_desk(np_desk *desk) {
    static const uint32_t frames[2] = {0, 0};
    static const uint8_t far[4] = {10, 20, 20, 10};
    static const np_limits limits = {1024, 64, UINT32_MAX};
    static const np_options documents;
    return np_desk_open(desk, TEXT("0-1"), frames, 2, far, 4, &limits, 2, &documents);
}

/* A desk's life, in each call of which the Nth growth is refused. Whether one was. */
static bool live(long nth) {
    np_desk kept = {0}, *desk = &kept;
    np_reader reader = {0};
    uint64_t version = 0;
    bool any = false;
    MAKE(nth, open_desk(desk));
    MAKE(nth, np_desk_map(desk, FIRST * 4096, PAGES * 4096, FIRST));
    MAKE(nth, np_desk_reader(desk, &reader));
    for (int k = 0; k < TURNS; k++) {
        MAKE(nth, np_desk_mbind(desk, (FIRST + k) * 4096, 4096, TEXT(k % 2 ? "bind:1" : "bind:0")));
        MAKE(nth, np_desk_set_task(desk, k, TEXT("interleave:0-1")));
        MAKE(nth, np_desk_publish(desk, &version));
        check(version == 3u + 2 * k, "the version of a publish");
    }
    np_desk_close(desk);
    np_reader_close(&reader);
    check(blocks == 0, "blocks are left over");
    return any;
}

/* A reader that enters at each version, beside one that stays behind. */
static void look(void) {
    np_desk desk = {0};
    np_reader readers[2] = {{0}, {0}};
    np_counts counts;
    uint64_t version = 0;
    uint8_t nodes[PAGES];
    size_t count = 0;
    uint32_t code = open_desk(&desk) || np_desk_map(&desk, FIRST * 4096, PAGES * 4096, FIRST) ||
                    np_desk_reader(&desk, &readers[0]) || np_desk_reader(&desk, &readers[1]);
    long early = 0;
    check(code == NP_OK, "a desk with two readers");
    for (int k = 0; k < TURNS; k++) {
        if (k == TURNS / 2)
            early = blocks;
        check(np_desk_mbind(&desk, FIRST * 4096, PAGES * 4096, TEXT(k % 2 ? "bind:1" : "bind:0")) ==
                      NP_OK && np_desk_publish(&desk, &version) == NP_OK, "a publish");
        long before = memory_calls;
        check(np_reader_enter(&readers[0], version, &version) == NP_OK, "an enter");
        check(np_reader_choice(&readers[0], TASK, FIRST, 0, nodes, PAGES, &count) == NP_OK, "a list");
        check(np_reader_fill(&readers[0], TASK, 0, FIRST, nodes, PAGES) == NP_OK, "a span");
        check(np_reader_counts(&readers[0], TASK, 0, FIRST, PAGES, &counts) == NP_OK, "counts");
        check(nodes[0] == k % 2 && counts.pages[k % 2] == PAGES, "the nodes of a version");
        check(memory_calls == before, "a look took or gave back memory");
    }
    check(blocks == early, "more and more plans are kept for a reader that stays behind");
    long before = memory_calls;
    check(np_reader_enter(&readers[1], version, &version) == NP_OK, "an enter from far behind");
    check(memory_calls == before, "an enter from far behind took or gave back memory");
    np_reader_close(&readers[0]);
    np_desk_close(&desk);
    np_reader_close(&readers[1]);
    check(blocks == 0, "blocks are left over");
}

int main(void) {
    long nth = 0;
    while (nth < 100 && live(nth))
        nth++;
    check(nth > 3 && nth < 100, "no life without a refused growth");
    look();
    return failed;
}
