/* Each growth of a report refused in turn, through the library's three functions of memory: the call
 * answers NP_NO_MEMORY and has changed nothing, or what it answers with memory, and no block is held.
 * Not proved. */
#include "growths.h"
#include "numaplan_reports.h"

#include <stdio.h>
#include <string.h>

#define TEXT NP_TEXT
#define HOST "machine 4 0-3 2 flat\nlimits 64 64 64\nmap 0x10000 0x8000 0x10\nmbend 1\n" \
    "mbind 0x10000 0x4000 weighted:0-2\nweight 1 3\ntask 1 interleave=static:0-3\nmap 1 1 1\n"
#define LINES "mems 0-1\nmems 9\n# \xff"
#define MOVES "mems 0-1\nmigrate 0 1\nmend 1\nmigrate 0 9\n"
#define AT "at 0x10000 0x3000 2\nat 0x13000 0x9000 0\nat 1 1 1\nat 1\n"
#define TRACE "# a trace\n1 0x10000 0\n2 0x10000 1 3\n1 0x17000 3\n"

/* What a call is told to write into, and what it wrote. */
static struct told {
    uint8_t text[1 << 16];
    np_report report;
    np_counts counts;
    np_explanation explanation;
    np_move moves[16];
    np_route routes[16];
    size_t count;
} told, wanted, before;

static np_core core, other;
static np_question asked = {1, 1, NP_RULES_DOCUMENT, NP_FORMAT_TEXT};
static const np_free two[2] = {{3, 1}, {1, 0}};

#define ROOM told.text, sizeof told.text, &told.report

static const np_access trace[] = {{1, 0x10, 0, 1}, {2, 0x10, 1, 3}, {1, 0x17, 3, 1}};

static uint32_t call(int which) {
    switch (which) {
    case 0: return np_check(TEXT(HOST LINES), &asked, ROOM);
    case 1: return np_predict(TEXT(HOST), TEXT(LINES), &asked, two, 2, ROOM);
    case 2: return np_diff(TEXT(HOST), TEXT(LINES), &asked, ROOM);
    case 3: return np_explain(TEXT(HOST), TEXT(LINES), &asked, 0x11, ROOM);
    case 4: return np_replay(TEXT(HOST), TEXT(LINES), TEXT(TRACE), &asked, ROOM);
    case 5: return np_predict_at(TEXT(HOST), TEXT(LINES), TEXT(AT), &asked, two, 2, ROOM);
    case 6: return np_moves_at(TEXT(HOST), TEXT(MOVES), TEXT(AT), &asked, two, 2, ROOM);
    case 7: return np_moves_touched(TEXT(HOST), TEXT(MOVES), &asked, two, 2, ROOM);
    case 8: return np_core_predict_text(&core, &asked, two, 2, ROOM);
    case 9: return np_core_diff_text(&core, &other, &asked, ROOM);
    case 10: return np_core_explain_text(&core, &asked, 0x11, ROOM);
    case 11: return np_core_replay_text(&core, TEXT(TRACE), &asked, ROOM);
    case 12: return np_explain_at(TEXT(HOST), TEXT(LINES), TEXT(AT), &asked, 0x11, ROOM);
    case 13: return np_core_predict(&core, 1, 1, &told.counts);
    case 14: return np_core_fill(&core, 1, 1, &told.counts);
    case 15: return np_core_explain(&core, 1, 0x11, 1, &told.explanation);
    case 16: return np_core_diff(&core, &other, 1, 1, told.moves, 16, &told.count);
    case 17: return np_core_replay(&core, trace, 3, told.routes, 16, &told.count);
    default: return NP_UNKNOWN;
    }
}
enum { CALLS = 18, WORDS = 13, FORMATS = 5 };

/* A core whose plan isn't made yet, and a copy with a command more. */
static bool opens(void) {
    static const uint32_t frames[4] = {2, 2, 2, 2};
    uint8_t distances[16];
    static const np_limits limits = {64, 8, 1000};
    for (int k = 0; k < 16; k++)
        distances[k] = k % 5 == 0 ? 10 : 20;
    uint32_t codes = np_core_open(&core, TEXT("0-3"), frames, 4, distances, 16, &limits, 1);
    codes |= np_core_map(&core, 0x10000, 0x8000, 0x10);
    codes |= np_core_set_weight(&core, 1, 3);
    codes |= np_core_mbind(&core, 0x10000, 0x4000, TEXT("weighted:0-2"));
    codes |= np_core_set_task(&core, 1, TEXT("interleave=static:0-3"));
    codes |= np_core_copy(&core, &other);
    codes |= np_core_set_mems(&other, TEXT("0-1"));
    return codes == NP_OK;
}

static void closes(void) {
    np_core_close(&core);
    np_core_close(&other);
}

/* Whether a core has so many commands, none of them published. */
static bool has(np_core *one, uint64_t commands) {
    uint64_t accepted = 0, published = 1;
    return np_core_versions(one, &accepted, &published) == NP_OK && accepted == commands &&
           published == 0;
}

static bool stands(void) { return has(&core, 4) && has(&other, 5); }

static void begin(void) {
    memset(&told, 0, sizeof told);
    told.counts.pages[0] = 5;
    told.counts.pages[2] = 1;
}

/* Writes what was told anew, without what lies between the fields of structs. */
static void tidy(void) {
    static struct told clean;
    memset(&clean, 0, sizeof clean);
    memcpy(clean.text, told.text, sizeof clean.text);
    clean.report = told.report;
    clean.counts = told.counts;
    clean.explanation.policy = told.explanation.policy;
    clean.explanation.index = told.explanation.index;
    clean.explanation.place = told.explanation.place;
    clean.explanation.places = told.explanation.places;
    clean.explanation.scope = told.explanation.scope;
    clean.explanation.rule = told.explanation.rule;
    clean.explanation.node = told.explanation.node;
    clean.count = told.count;
    for (int k = 0; k < 16; k++) {
        clean.moves[k].first = told.moves[k].first;
        clean.moves[k].pages = told.moves[k].pages;
        clean.moves[k].moved = told.moves[k].moved;
        clean.moves[k].from = told.moves[k].from;
        clean.moves[k].to = told.moves[k].to;
        clean.routes[k].accesses = told.routes[k].accesses;
        clean.routes[k].faults = told.routes[k].faults;
        clean.routes[k].task = told.routes[k].task;
        clean.routes[k].cpu = told.routes[k].cpu;
        clean.routes[k].node = told.routes[k].node;
    }
    memcpy(&told, &clean, sizeof told);
}

/* Makes a call of a script or of a new core with one growth refused; how many growths it let through
 * before, or -1 where it came to none that was refused, -2 where something is wrong. */
static long tries(int which, long growth) {
    core = other = (np_core){0};
    if (!opens())
        return -2;
    begin();
    memcpy(&before, &told, sizeof told);
    left = growth;
    uint32_t code = call(which);
    bool all = left >= 0;
    left = -1;
    tidy();
    bool well = stands();
    if (code == NP_NO_MEMORY)
        well = well && !all && memcmp(&told, &before, sizeof told) == 0;
    else
        well = well && code == NP_OK && memcmp(&told, &wanted, sizeof told) == 0;
    closes();
    return !well || blocks != 0 ? -2 : all ? -1 : growth;
}

int main(void) {
    long growths = 0;
    for (int which = 0; which < CALLS; which++)
        for (asked.format = 0; asked.format < (which < WORDS ? FORMATS : 1); asked.format++) {
            if (!opens())
                return 1;
            begin();
            uint32_t code = call(which);
            tidy();
            memcpy(&wanted, &told, sizeof told);
            closes();
            long growth = 0, got = 0;
            while (code == NP_OK && got >= 0)
                got = tries(which, growth++);
            if (code != NP_OK || got != -1) {
                printf("call %d, format %u: %u, growth %ld: %ld, %ld blocks are held\n", which,
                       asked.format, code, growth - 1, got, blocks);
                return 1;
            }
            growths += growth - 1;
        }
    printf("%ld growths\n", growths);
    return growths < 500;
}
