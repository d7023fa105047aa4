/* Desks and their readers: refusals, versions, places, closing in any order, and four readers beside
 * a writer, whose lists are those of the versions that they saw. Prints what is wrong; not proved. */
#include <numaplan.h>

#include <pthread.h>
#include <sched.h>
#include <stdatomic.h>
#include <stdio.h>
#include <string.h>

enum { FIRST = 16, PAGES = 64, TASK = 1, READERS = 4, VERSIONS = 3000 };

static const uint32_t frames[2] = {0, 0};
static const uint8_t distances[4] = {10, 20, 20, 10};
static const np_limits limits = {64, 8, UINT32_MAX};
static const np_options documents;
static int failed;

#define CHECK(held) ((held) ? (void)0 : wrong(__LINE__, #held))

static void wrong(int line, const char *what) {
    printf("line %d: %s\n", line, what);
    failed = 1;
}

static uint32_t open_by(np_desk *desk, uint32_t readers, const np_options *options) {
    return np_desk_open(desk, (const uint8_t *)"0-1", 3, frames, 2, distances, 4, &limits, readers,
                        options);
}

static uint32_t open_desk(np_desk *desk, uint32_t readers) { return open_by(desk, readers, &documents); }

static uint32_t bind_all(np_desk *desk, const char *policy) {
    return np_desk_mbind(desk, FIRST * 4096, PAGES * 4096, (const uint8_t *)policy, strlen(policy));
}

/* The first node of the list of a page, or the answer above 255. */
static uint32_t first_node(const np_reader *reader, uint64_t page) {
    uint8_t nodes[2] = {9, 9};
    size_t count = 0;
    uint32_t code = np_reader_choice(reader, TASK, page, 0, nodes, 2, &count);
    return code ? 256 + code : nodes[0];
}

static void opening(void) {
    np_desk desk = {0};
    np_limits many = {65537, 8, 1};
    np_options rules = {7, 0, {{0}}}, orders = {0, 7, {{0}}};
    const uint8_t *memory = (const uint8_t *)"0-1";
    uint64_t version = 77, accepted = 77, published = 77;
    CHECK(open_desk(&desk, 0) == NP_BAD_READERS);
    CHECK(open_desk(&desk, 65) == NP_BAD_READERS);
    CHECK(np_desk_open(&desk, memory, 3, frames, 2, distances, 4, &many, 0, &documents) ==
          NP_BAD_LIMITS);
    CHECK(np_desk_open(&desk, memory, 3, frames, 2, distances, 4, &many, 0, &rules) == NP_BAD_RULES);
    CHECK(np_desk_open(&desk, memory, 3, frames, 2, distances, 4, &many, 0, &orders) ==
          NP_BAD_ORDERS);
    CHECK(np_desk_open(&desk, memory, 0, frames, 2, distances, 4, &many, 0, &documents) ==
          NP_LIST_EMPTY);
    CHECK(np_desk_publish(&desk, &version) == NP_CLOSED && version == 77);
    CHECK(np_desk_map(&desk, 0, 4096, 0) == NP_CLOSED);
    CHECK(np_desk_map_huge(&desk, 0, 1 << 21, 0) == NP_CLOSED);
    CHECK(np_desk_mbind(&desk, 0, 4096, (const uint8_t *)"x", 1) == NP_UNKNOWN_MODE);
    CHECK(np_desk_versions(&desk, &accepted, &published) == NP_CLOSED && accepted == 77);
    CHECK(open_desk(&desk, 64) == NP_OK && open_desk(&desk, 64) == NP_OPEN);
    np_desk_close(&desk);
    np_desk_close(&desk);
    CHECK(np_desk_versions(&desk, &accepted, &published) == NP_CLOSED && published == 77);
}

static void commands(void) {
    np_desk desk = {0};
    uint64_t accepted = 0, published = 0, version = 0;
    CHECK(open_desk(&desk, 1) == NP_OK);
    CHECK(np_desk_map(&desk, 4096, 8192, 1) == NP_OK);
    CHECK(np_desk_map(&desk, 4096, 8192, 1) == NP_OVERLAP);
    CHECK(np_desk_set_task(&desk, 1, (const uint8_t *)"bind:1", 6) == NP_OK);
    CHECK(np_desk_inherit(&desk, 2, 1) == NP_OK);
    CHECK(np_desk_mbind(&desk, 4096, 4096, (const uint8_t *)"many:0-1", 8) == NP_OK);
    CHECK(np_desk_set_home(&desk, 4096, 4096, 1) == NP_OK);
    CHECK(np_desk_set_weight(&desk, 1, 3) == NP_OK);
    CHECK(np_desk_set_weight(&desk, 2, 3) == NP_NO_SUCH_NODE);
    CHECK(np_desk_set_mems(&desk, (const uint8_t *)"1", 1) == NP_OK);
    CHECK(np_desk_unmap(&desk, 4096, 4096) == NP_OK);
    CHECK(np_desk_versions(&desk, &accepted, &published) == NP_OK && accepted == 8 && published == 0);
    CHECK(np_desk_publish(&desk, &version) == NP_OK && version == 8);
    CHECK(np_desk_publish(&desk, &version) == NP_OK && version == 8);
    CHECK(np_desk_versions(&desk, &accepted, &published) == NP_OK && accepted == 8 && published == 8);
    np_desk_close(&desk);
}

/* The same by the system calls' own words, and no bytes by each kind of rules. */
static void words(void) {
    enum { BIND = 2, STATIC = 0x8000 };
    static const np_options by_the_kernel = {.rules = NP_RULES_LINUX};
    np_desk desk = {0};
    np_nodes second, none;
    uint64_t accepted = 0, published = 0;
    unsigned long mask = 2;
    CHECK(np_nodes_of(&mask, 3, &second) == NP_OK && np_nodes_of(NULL, 0, &none) == NP_OK);
    CHECK(np_desk_mbind_by(&desk, 4096, 4096, 7, &second) == NP_UNKNOWN_MODE);
    CHECK(np_desk_set_task_by(&desk, 1, BIND, &none) == NP_NODES_MISSING);
    CHECK(np_desk_home_by(&desk, 4096, 4096, 1, 1) == NP_FLAGS_FORBIDDEN);
    CHECK(np_desk_home_by(&desk, 4096, 4096, 1, 0) == NP_CLOSED);
    CHECK(open_desk(&desk, 1) == NP_OK && np_desk_map(&desk, 4096, 8192, 1) == NP_OK);
    CHECK(np_desk_mbind_by(&desk, 4096, 4096, BIND | STATIC, &second) == NP_OK);
    CHECK(np_desk_set_task_by(&desk, 1, BIND, &second) == NP_OK);
    CHECK(np_desk_home_by(&desk, 4096, 4096, 1ull << 40, 0) == NP_NO_SUCH_NODE);
    CHECK(np_desk_home_by(&desk, 4096, 4096, 1, 0) == NP_OK);
    CHECK(np_desk_mbind(&desk, 4096, 0, (const uint8_t *)"bind", 4) == NP_NODES_MISSING);
    CHECK(np_desk_versions(&desk, &accepted, &published) == NP_OK && accepted == 4);
    np_desk_close(&desk);
    CHECK(open_by(&desk, 1, &by_the_kernel) == NP_OK);
    CHECK(np_desk_mbind(&desk, 4096, 0, (const uint8_t *)"bind", 4) == NP_OK);
    CHECK(np_desk_mbind_by(&desk, 4096, 0, BIND, &none) == NP_OK);
    CHECK(np_desk_mbind_by(&desk, 4096, 0, 7, &second) == NP_UNKNOWN_MODE);
    np_desk_close(&desk);
}

static void questions(void) {
    np_desk desk = {0};
    np_reader reader = {0}, second = {0};
    np_counts counts;
    uint8_t nodes[PAGES], small = 9;
    uint64_t version = 77;
    size_t count = 77;
    CHECK(np_reader_version(&reader, &version) == NP_CLOSED && version == 77);
    CHECK(np_reader_enter(&reader, 0, &version) == NP_CLOSED && version == 77);
    CHECK(first_node(&reader, FIRST) == 256 + NP_CLOSED);
    CHECK(np_desk_reader(&desk, &reader) == NP_CLOSED);
    CHECK(open_desk(&desk, 1) == NP_OK && np_desk_reader(&desk, &reader) == NP_OK);
    CHECK(np_desk_reader(&desk, &reader) == NP_OPEN);
    CHECK(np_desk_reader(&desk, &second) == NP_NO_PLACE);
    CHECK(np_reader_version(&reader, &version) == NP_OK && version == 0);
    CHECK(first_node(&reader, FIRST) == 256 + NP_UNMAPPED);
    CHECK(np_desk_map(&desk, FIRST * 4096, PAGES * 4096, FIRST) == NP_OK);
    CHECK(bind_all(&desk, "interleave:0-1") == NP_OK);
    CHECK(np_reader_enter(&reader, 0, &version) == NP_OK && version == 0);
    CHECK(np_desk_publish(&desk, &version) == NP_OK && version == 2);
    CHECK(np_reader_version(&reader, &version) == NP_OK && version == 0);
    CHECK(np_reader_enter(&reader, 3, &version) == NP_NOT_YET && version == 0);
    CHECK(np_reader_version(&reader, &version) == NP_OK && version == 0);
    CHECK(np_reader_enter(&reader, 2, &version) == NP_OK && version == 2);
    CHECK(np_reader_choice(&reader, TASK, FIRST, 0, &small, 1, &count) == NP_NO_ROOM && count == 2 &&
          small == 9);
    CHECK(np_reader_choice(&reader, TASK, FIRST, 2, nodes, 2, &count) == NP_BAD_CPU);
    CHECK(first_node(&reader, FIRST) == FIRST % 2 && first_node(&reader, FIRST + 1) == 1);
    CHECK(np_reader_fill(&reader, TASK, 0, FIRST, nodes, PAGES) == NP_OK && nodes[0] == 0 &&
          nodes[PAGES - 1] == 1);
    CHECK(np_reader_fill(&reader, TASK, 0, FIRST + 1, nodes, PAGES) == NP_UNMAPPED && nodes[0] == 0);
    CHECK(np_reader_counts(&reader, TASK, 0, FIRST, PAGES, &counts) == NP_OK &&
          counts.pages[0] == PAGES / 2 && counts.pages[1] == PAGES / 2);
    CHECK(np_reader_counts(&reader, TASK, 2, FIRST, PAGES, &counts) == NP_BAD_CPU);
    np_reader_close(&reader);
    CHECK(np_desk_reader(&desk, &second) == NP_OK && first_node(&second, FIRST + 1) == 1);
    np_desk_close(&desk); /* before its reader, which keeps what it has */
    CHECK(np_reader_enter(&second, 0, &version) == NP_ENDED);
    CHECK(np_reader_version(&second, &version) == NP_OK && version == 2);
    CHECK(first_node(&second, FIRST + 1) == 1);
    np_reader_close(&second);
    np_reader_close(&second);
    CHECK(np_reader_version(&second, &version) == NP_CLOSED);
}

/* All places, readers that stay far behind, and places that are given back. */
static void places(void) {
    static np_reader readers[65];
    np_desk desk = {0};
    uint64_t version = 0;
    CHECK(open_desk(&desk, 64) == NP_OK);
    CHECK(np_desk_map(&desk, FIRST * 4096, PAGES * 4096, FIRST) == NP_OK);
    for (int k = 0; k < 64; k++) {
        CHECK(bind_all(&desk, k % 2 ? "bind:1" : "bind:0") == NP_OK);
        CHECK(np_desk_publish(&desk, &version) == NP_OK && version == 2u + k);
        CHECK(np_desk_reader(&desk, &readers[k]) == NP_OK);
    }
    CHECK(np_desk_reader(&desk, &readers[64]) == NP_NO_PLACE);
    for (int turn = 0; turn < 1000; turn++) {
        CHECK(bind_all(&desk, turn % 2 ? "bind:1" : "bind:0") == NP_OK);
        CHECK(np_desk_publish(&desk, &version) == NP_OK && version == 66u + turn);
    }
    for (int k = 0; k < 64; k++) {
        CHECK(np_reader_version(&readers[k], &version) == NP_OK && version == 2u + k);
        CHECK(first_node(&readers[k], FIRST) == (uint32_t)k % 2);
    }
    for (int k = 0; k < 64; k += 2) {
        CHECK(np_reader_enter(&readers[k], 1065, &version) == NP_OK && version == 1065);
        CHECK(first_node(&readers[k], FIRST) == 1);
        np_reader_close(&readers[k]);
    }
    CHECK(np_desk_reader(&desk, &readers[64]) == NP_OK && first_node(&readers[64], FIRST) == 1);
    np_desk_close(&desk);
    for (int k = 0; k < 65; k++)
        np_reader_close(&readers[k]);
}

/* Version k + 2 binds all pages to the node of k's lowest bit. A reader sees whole versions, never
 * an older one than before, nor than it was told. */
static atomic_ullong told;
static atomic_int ready, over;

struct worker {
    pthread_t thread;
    np_reader reader;
    unsigned long looks, changes;
    int wrong;
};

static int look(struct worker *worker, uint64_t *seen) {
    uint64_t least = atomic_load(&told), version = 0;
    uint8_t nodes[PAGES];
    uint32_t code;
    while ((code = np_reader_enter(&worker->reader, least, &version)) == NP_NOT_YET)
        sched_yield();
    if (code || version < least || version < *seen ||
        np_reader_fill(&worker->reader, TASK, 0, FIRST, nodes, PAGES))
        return 0;
    for (int k = 0; k < PAGES; k++)
        if (nodes[k] != version % 2)
            return 0;
    worker->changes += version != *seen;
    worker->looks++;
    *seen = version;
    return 1;
}

static void *ask(void *argument) {
    struct worker *worker = argument;
    uint64_t seen = 0;
    atomic_fetch_add(&ready, 1);
    while (!worker->wrong && !(atomic_load(&over) && seen == atomic_load(&told)))
        worker->wrong = !look(worker, &seen);
    return NULL;
}

static void beside(void) {
    static struct worker workers[READERS];
    np_desk desk = {0};
    uint64_t version = 0;
    CHECK(open_desk(&desk, READERS) == NP_OK);
    CHECK(np_desk_map(&desk, FIRST * 4096, PAGES * 4096, FIRST) == NP_OK);
    CHECK(bind_all(&desk, "bind:0") == NP_OK && np_desk_publish(&desk, &version) == NP_OK);
    atomic_store(&told, version);
    for (int k = 0; k < READERS; k++) {
        CHECK(np_desk_reader(&desk, &workers[k].reader) == NP_OK);
        CHECK(pthread_create(&workers[k].thread, NULL, ask, &workers[k]) == 0);
    }
    while (atomic_load(&ready) < READERS)
        sched_yield();
    for (int k = 1; k < VERSIONS; k++) {
        CHECK(bind_all(&desk, k % 2 ? "bind:1" : "bind:0") == NP_OK);
        CHECK(np_desk_publish(&desk, &version) == NP_OK && version == 2u + k);
        atomic_store(&told, version);
        if (k % 16 == 0)
            sched_yield();
    }
    atomic_store(&over, 1);
    for (int k = 0; k < READERS; k++) {
        CHECK(pthread_join(workers[k].thread, NULL) == 0);
        CHECK(!workers[k].wrong && workers[k].looks > 0 && workers[k].changes > 0);
    }
    np_desk_close(&desk);
    for (int k = 0; k < READERS; k++)
        np_reader_close(&workers[k].reader);
}

int main(void) {
    opening();
    commands();
    words();
    questions();
    places();
    beside();
    return failed;
}
