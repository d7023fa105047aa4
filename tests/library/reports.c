/* Reports from C: scripts that are asked about, with just enough room, with less and with none; their
 * causes; and the same of cores. What the words print is compared by reports.py. Prints what is wrong;
 * not proved. */
#include "numaplan_reports.h"
#include "want.h"

#include <stdio.h>
#include <stdlib.h>
#include <string.h>

#define TEXT NP_TEXT

/* four interleaved pages, of which a line moves two */
#define HOST "machine 2 0-1 8 flat\nmap 0x10000 0x4000 0x10\ntask 1 interleave:0-1\n"

static const np_question asked = {1, 0, NP_RULES_DOCUMENT, NP_FORMAT_TEXT};
static const np_free none[1];
static uint8_t room[4096];
static np_report told;

/* Whether the answer and the messages are these, and nothing stands behind them. */
static bool is_told(const char *answer, const char *messages) {
    size_t length = strlen(answer);
    return told.answer == length && told.messages == strlen(messages) &&
           memcmp(room, answer, length) == 0 &&
           memcmp(room + length, messages, told.messages) == 0 && room[length + told.messages] == '#';
}

static void forget(void) {
    memset(room, '#', sizeof room);
    told = (np_report){77, 77, 77};
}

static bool is_untouched(void) {
    for (size_t k = 0; k < sizeof room; k++)
        if (room[k] != '#')
            return false;
    return true;
}

static void words(void) {
    forget();
    WANT(np_check(TEXT("machine 1 0 0 flat\nmap 1 2 3\n"), &asked, room, sizeof room, &told), NP_OK);
    WANT(memcmp(room, "-:2: refused Unaligned EINVAL: ", 31), 0);
    WANT(told.messages, 0);
    WANT(told.faulty, 1);
    forget();
    WANT(np_check(TEXT(HOST), &asked, room, sizeof room, &told), NP_OK);
    WANT(is_told("", ""), 1);
    WANT(told.faulty, 0);
    forget();
    WANT(np_predict(TEXT(HOST), TEXT(""), &asked, none, 0, room, sizeof room, &told), NP_OK);
    /* as numa_maps has it (numa(7)) */
    WANT(is_told("00010000-00014000 interleave:0-1 anon=4 N0=2 N1=2 kernelpagesize_kB=4\n"
                 "total anon=4 N0=2 N1=2 kernelpagesize_kB=4\n",
                 ""),
         1);
    forget();
    WANT(np_diff(TEXT(HOST), TEXT("mems 0\nmems 7"), &asked, room, sizeof room, &told), NP_OK);
    WANT(told.faulty, 1);
    WANT(memcmp(room + told.answer - 25, "total differs=2 N1->N0=2\n", 25), 0);
    WANT(memcmp(room + told.answer, "--then:2: refused", 17), 0);
    forget();
    WANT(np_explain(TEXT(HOST), TEXT(""), &asked, 0x11, room, sizeof room, &told), NP_OK);
    WANT(memcmp(room, "page ", 5), 0);
    WANT(told.messages, 0);
    forget();
    WANT(np_replay(TEXT(HOST), TEXT(""), TEXT("1 0x10000 0\n1 0x10000 1 3\n"), &asked, room,
                   sizeof room, &told),
         NP_OK);
    WANT(memcmp(room, "task 1 accesses=4 N0=4 D10=1 D20=3 placed=1", 43), 0);
}

/* Four interleaved pages, of which three lie on node 1, two by the text and one by a line of the
 * script (docs/SCRIPT.md, at); a fifth that is stated isn't mapped. */
#define THERE HOST "at 0x10000 0x1000 1\n"
#define AT "at 0x11000 0x2000 1\nat 0x14000 0x1000 0\n# no line\n"

static void there(void) {
    np_free two = {2, 0};
    forget();
    WANT(np_predict_at(TEXT(THERE), TEXT(""), TEXT(AT), &asked, none, 0, room, sizeof room, &told),
         NP_OK);
    /* the fourth page goes to node 1, since its index is odd */
    WANT(is_told("00010000-00014000 interleave:0-1 anon=4 N1=4 kernelpagesize_kB=4\n"
                 "total anon=4 N1=4 kernelpagesize_kB=4\n",
                 ""),
         1);
    forget();
    /* lines `at` may stand among the lines, too; np_predict takes none as pages that are there */
    WANT(np_predict_at(TEXT(HOST), TEXT("at 0x10000 0x4000 0"), TEXT(""), &asked, none, 0, room,
                       sizeof room, &told),
         NP_OK);
    WANT(is_told("00010000-00014000 interleave:0-1 anon=4 N0=4 kernelpagesize_kB=4\n"
                 "total anon=4 N0=4 kernelpagesize_kB=4\n",
                 ""),
         1);
    forget();
    /* the second page, by the text, and the first, by a line behind the script's */
    WANT(np_explain_at(TEXT(THERE), TEXT(""), TEXT(AT), &asked, 0x11, room, sizeof room, &told), NP_OK);
    WANT(memcmp(room, "page 0x11000 is resident on node 1\n", 35), 0);
    forget();
    WANT(np_explain_at(TEXT(THERE), TEXT("at 0x10000 0x1000 0"), TEXT(""), &asked, 0x10, room,
                       sizeof room, &told),
         NP_OK);
    WANT(memcmp(room, "page 0x10000 is resident on node 0\n", 35), 0);
    WANT(np_explain_at(TEXT(THERE), TEXT(""), TEXT(AT), &asked, 0x14, room, sizeof room, &told),
         NP_UNMAPPED);
    forget();
    WANT(np_moves_at(TEXT(THERE), TEXT("migrate 1 0\nmems 0\n"), TEXT(AT), &asked, &two, 1, room,
                  sizeof room, &told),
         NP_OK);
    /* node 0 takes two of the three, the lowest first; the third finds no room, then as before */
    WANT(is_told("then migrate 1 0\n"
                 "00010000-00014000 placed=3 moved=2 N1->N0=2 noroom=1 N1=1\n"
                 "total placed=3 moved=2 N1->N0=2 noroom=1 N1=1\nleft N0=0\n"
                 "then mems 0\n"
                 "00010000-00014000 placed=3 moved=0 stays=2 N0=2 noroom=1 N1=1\n"
                 "total placed=3 moved=0 stays=2 N0=2 noroom=1 N1=1\nleft N0=0\n",
                 ""),
         1);
    WANT(told.faulty, 0);
    forget();
    WANT(np_moves_touched(TEXT(THERE), TEXT("mems 1"), &asked, none, 0, room, sizeof room, &told),
         NP_OK);
    WANT(is_told("00010000-00014000 placed=4 moved=2 N0->N1=2 stays=2 N1=2\n"
                 "total placed=4 moved=2 N0->N1=2 stays=2 N1=2\n",
                 ""),
         1);
    forget();
    WANT(np_moves_at(TEXT(THERE), TEXT(""), TEXT(""), &asked, none, 0, room, sizeof room, &told), NP_OK);
    WANT(is_told("", ""), 1);
    /* what is wrong with lines of each text: the script's, of which one comes too early, those of
     * `at`, and those to be played */
    forget();
    WANT(np_moves_at(TEXT("at 0x10000 0x1000 0\n" HOST "bend 1\nat 0x10000"), TEXT("mems 7\ntask 1 bind:0"),
                  TEXT("at 1 1 1\n\nat 1\n"), &asked, none, 0, room, sizeof room, &told),
         NP_OK);
    WANT(told.faulty, 1);
    WANT(memcmp(room, "then mems 7\ntotal placed=0 moved=0\n", 35), 0);
    room[told.answer + told.messages] = 0;
    const char *said = (const char *)room + told.answer;
    static const char *const each[] = {
        "-:5:1: bad words: ", "\n-:6:12: bad words: too few words; at wants START LENGTH NODE",
        "\nat:1: refused Unaligned EINVAL: ", "\nat:3:6: bad words: too few words; at wants",
        "\n--then:2: moves takes lines mems", "\n--then:1: refused NoSuchNode",
        "\nnot judged, since no machine was ready: 1\n"};
    for (size_t k = 0; k < sizeof each / sizeof each[0]; k++) {
        const char *found = strstr(said, each[k]);
        if (found == NULL)
            printf("not told, or not in order: %s in %s\n", each[k], said);
        WANT(found != NULL, 1);
        said = found == NULL ? said : found;
    }
}

/* Two processes of a group, each with a page on node 1 by the script, one with another by the text; node
 * 0 takes one more. */
#define TWO                                                                                        \
    "machine 2 0-1 0 flat\nhost\ncgroup 1 0\nprocess 1 1\nprocess 2 1\nin 1 map 0x10000 0x2000 0\n"  \
    "in 2 map 0x10000 0x2000 0\nroom 0 1\nin 2 at 0x10000 0x1000 1\nin 1 at 0x10000 0x1000 1\n"

static void hosts(void) {
    forget();
    WANT(np_moves_at(TEXT(TWO), TEXT("cgroup-mems 1 0"), TEXT("in 1 at 0x11000 0x1000 1\n"), &asked,
                     none, 0, room, sizeof room, &told),
         NP_OK);
    /* the first that came takes the room of both */
    WANT(is_told("process 1\n00010000-00012000 placed=2 moved=1 N1->N0=1 noroom=1 N1=1\n"
                 "total placed=2 moved=1 N1->N0=1 noroom=1 N1=1\n"
                 "process 2\n00010000-00012000 placed=1 moved=0 noroom=1 N1=1\n"
                 "total placed=1 moved=0 noroom=1 N1=1\n"
                 "all processes\ntotal placed=3 moved=1 N1->N0=1 noroom=2 N1=2\nleft N0=0\n",
                 ""),
         1);
}

/* With just enough room, with a byte less, with none; messages count too. */
static void rooms(void) {
    for (int size = 0; size <= 2; size++) {
        forget();
        np_report whole;
        np_predict(TEXT(HOST "task 1 bend:0\n"), TEXT(""), &asked, none, 0, room, sizeof room, &whole);
        size_t needed = whole.answer + whole.messages;
        WANT(whole.messages > 10, 1);
        forget();
        size_t here = size == 0 ? needed : size == 1 ? needed - 1 : 0;
        WANT(np_predict(TEXT(HOST "task 1 bend:0\n"), TEXT(""), &asked, none, 0, room, here, &told),
             size == 0 ? NP_OK : NP_NO_ROOM);
        WANT(told.answer, whole.answer);
        WANT(told.messages, whole.messages);
        WANT(told.faulty, 1);
        WANT(size == 0 || is_untouched(), 1);
    }
}

static void causes(void) {
    np_question other = asked;
    np_free lacking = {5, 2};
    other.rules = 2;
    other.format = 9;
    forget();
    WANT(np_check(TEXT(HOST), &other, room, sizeof room, &told), NP_BAD_RULES);
    WANT(np_predict(TEXT(HOST), TEXT(""), &other, none, 0, room, sizeof room, &told), NP_BAD_RULES);
    other.rules = 1;
    WANT(np_predict(TEXT(HOST), TEXT(""), &other, none, 0, room, sizeof room, &told), NP_BAD_FORMAT);
    WANT(np_replay(TEXT(HOST), TEXT(""), TEXT(""), &other, room, sizeof room, &told), NP_BAD_FORMAT);
    WANT(np_diff(TEXT(HOST), TEXT(""), &other, room, sizeof room, &told), NP_BAD_FORMAT);
    WANT(np_explain(TEXT(HOST), TEXT(""), &other, 0, room, sizeof room, &told), NP_BAD_FORMAT);
    WANT(np_explain_at(TEXT(HOST), TEXT(""), TEXT(""), &other, 0, room, sizeof room, &told),
         NP_BAD_FORMAT);
    WANT(np_moves_at(TEXT(HOST), TEXT(""), TEXT(""), &other, none, 0, room, sizeof room, &told),
         NP_BAD_FORMAT);
    WANT(np_predict_at(TEXT(HOST), TEXT(""), TEXT(""), &other, none, 0, room, sizeof room, &told),
         NP_BAD_FORMAT);
    other.rules = 2;
    WANT(np_moves_touched(TEXT(HOST), TEXT(""), &other, none, 0, room, sizeof room, &told),
         NP_BAD_RULES);
    WANT(told.answer == 77 && told.faulty == 77 && is_untouched(), 1);
    other = asked;
    other.format = NP_FORMAT_SVG;
    WANT(np_moves_at(TEXT("machine 1 0 0 flat\nhost\n"), TEXT("mems 0"), TEXT(""), &other, none, 0, room,
                  sizeof room, &told),
         NP_MANY_PROCESSES);
    other = asked;
    other.cpu = 2;
    WANT(np_moves_at(TEXT("limits 1 1 1"), TEXT("mems 0"), TEXT(""), &asked, none, 0, room, sizeof room,
                  &told),
         NP_NO_MACHINE);
    WANT(np_moves_at(TEXT(HOST), TEXT("mems 0"), TEXT(""), &asked, &lacking, 1, room, sizeof room, &told),
         NP_NO_SUCH_NODE);
    WANT(np_moves_at(TEXT(HOST), TEXT("mems 0"), TEXT(""), &other, none, 0, room, sizeof room, &told),
         NP_OK); /* where the node doesn't count */
    WANT(np_moves_touched(TEXT(HOST), TEXT("mems 0"), &other, none, 0, room, sizeof room, &told),
         NP_BAD_CPU);
    WANT(np_predict_at(TEXT(HOST), TEXT(""), TEXT(""), &other, none, 0, room, sizeof room, &told),
         NP_BAD_CPU);
    forget();
    WANT(np_predict(TEXT("limits 1 1 1"), TEXT(""), &asked, none, 0, room, sizeof room, &told),
         NP_NO_MACHINE);
    WANT(told.answer + told.messages, 0);
    WANT(np_predict(TEXT(HOST), TEXT("x"), &other, none, 0, room, sizeof room, &told), NP_BAD_CPU);
    WANT(memcmp(room, "--then:1:1: bad words", 21), 0); /* messages, where there is no answer */
    WANT(told.answer, 0);
    WANT(np_diff(TEXT(HOST), TEXT(""), &other, room, sizeof room, &told), NP_BAD_CPU);
    WANT(np_explain(TEXT(HOST), TEXT(""), &other, 0x10, room, sizeof room, &told), NP_BAD_CPU);
    WANT(np_explain(TEXT(HOST), TEXT(""), &asked, 0xf, room, sizeof room, &told), NP_UNMAPPED);
    WANT(np_predict(TEXT(HOST), TEXT(""), &asked, &lacking, 1, room, sizeof room, &told),
         NP_NO_SUCH_NODE);
    forget();
    WANT(np_replay(TEXT(HOST), TEXT(""), TEXT("1 0x10000 0\n\n1 2 3 4 5"), &asked, room,
                   sizeof room, &told),
         NP_BAD_ACCESS);
    WANT(is_told("", "trace:3: bad words: a line of a trace is [in P] TASK ADDRESS CPU [COUNT], "
                 "or mark TEXT\n"), 1);
    /* bytes that are no UTF-8 are told as faulty, or are a comment's */
    forget();
    WANT(np_diff(TEXT(HOST), TEXT("# \xff\n\xff\nmems 0"), &asked, room, sizeof room, &told), NP_OK);
    WANT(memcmp(room + told.answer, "--then:2:1: bad words", 21), 0);
}

static void cores(void) {
    const uint8_t distances[] = {10, 20, 20, 10};
    const uint32_t frames[] = {8, 8};
    const np_limits limits = {64, 8, 1000};
    np_core core = {0}, zero = {0};
    np_counts counts = {{7}}, left;
    np_explanation said = {0};
    WANT(np_core_predict(&core, 1, 0, &counts), NP_CLOSED);
    WANT(np_core_fill(&core, 1, 0, &counts), NP_CLOSED);
    WANT(np_core_explain(&core, 1, 0x10, 0, &said), NP_CLOSED);
    WANT(counts.pages[0], 7);
    WANT(memcmp(&core, &zero, sizeof core) == 0, 1);
    WANT(np_core_open(&core, TEXT("0-1"), frames, 2, distances, 4, &limits, 1), NP_OK);
    WANT(np_core_map(&core, 0x10000, 0x5000, 0x10), NP_OK);
    WANT(np_core_set_task(&core, 1, TEXT("interleave:0-1")), NP_OK);
    WANT(np_core_mbind(&core, 0x14000, 0x1000, TEXT("bind=static:1")), NP_OK);
    WANT(np_core_predict(&core, 1, 2, &counts), NP_BAD_CPU);
    WANT(counts.pages[0], 7);
    WANT(np_core_predict(&core, 1, 0, &counts), NP_OK);
    WANT(counts.pages[0], 2);
    WANT(counts.pages[1], 3);
    WANT(counts.pages[2], 0);
    /* of the pages 0x10, 0x12 to node 0, 0x11, 0x13, and 0x14 alone to node 1: where node 1 has one free
     * page and node 0 three, 0x13 goes to node 0, and 0x14 nowhere */
    left = (np_counts){{3, 1}};
    WANT(np_core_fill(&core, 1, 2, &left), NP_BAD_CPU);
    WANT(left.pages[0], 3);
    WANT(np_core_fill(&core, 1, 0, &left), NP_OK);
    WANT(left.pages[0], 0);
    WANT(left.pages[1], 0);
    WANT(np_core_explain(&core, 1, 0x10, 2, &said), NP_BAD_CPU);
    WANT(np_core_explain(&core, 1, 0xf, 0, &said), NP_UNMAPPED);
    WANT(said.places, 0);
    WANT(np_core_explain(&core, 1, 0x13, 0, &said), NP_OK);
    WANT(said.scope, NP_SCOPE_TASK);
    WANT(said.rule, NP_RULE_INTERLEAVE);
    WANT(said.index, 0x13);
    WANT(said.place, 1);
    WANT(said.places, 2);
    WANT(said.node, 1);
    WANT(said.policy.mode, 3); /* MPOL_INTERLEAVE */
    WANT(np_core_explain(&core, 1, 0x14, 0, &said), NP_OK);
    WANT(said.scope, NP_SCOPE_RANGE);
    WANT(said.rule, NP_RULE_BIND);
    WANT(said.policy.mode, 0x8002); /* MPOL_BIND, MPOL_F_STATIC_NODES */
    WANT(said.policy.nodes.words[0], 2);
    WANT(said.places, 0);
    WANT(np_core_explain(&core, 2, 0x10, 1, &said), NP_OK);
    WANT(said.scope, NP_SCOPE_SYSTEM);
    WANT(said.rule, NP_RULE_LOCAL);
    WANT(said.node, 1);
    WANT(said.policy.mode, 0);
    np_core_close(&core);
}

/* Opens a core of four pages, interleaved over two nodes for task 1, and a copy where node 0 alone is
 * allowed. */
static void open_two(np_core *core, np_core *after) {
    const uint8_t distances[] = {10, 20, 20, 10};
    const uint32_t frames[] = {1, 8};
    const np_limits limits = {64, 8, 1000};
    WANT(np_core_open(core, TEXT("0-1"), frames, 2, distances, 4, &limits, 1), NP_OK);
    WANT(np_core_map(core, 0x10000, 0x4000, 0x10), NP_OK);
    WANT(np_core_set_task(core, 1, TEXT("interleave:0-1")), NP_OK);
    WANT(np_core_copy(core, after), NP_OK);
    WANT(np_core_set_mems(after, TEXT("0")), NP_OK);
}

static void differences(void) {
    np_core core = {0}, after = {0}, closed = {0};
    np_move moves[3] = {{7, 7, 7, 7, 7}};
    size_t count = 77;
    open_two(&core, &after);
    WANT(np_core_diff(&core, &closed, 1, 0, moves, 3, &count), NP_CLOSED);
    WANT(np_core_diff(&closed, &core, 1, 0, moves, 3, &count), NP_CLOSED);
    WANT(np_core_diff(&core, &after, 1, 2, moves, 3, &count), NP_BAD_CPU);
    WANT(count == 77 && moves[0].first == 7, 1);
    /* one span: the pages 0x11 and 0x13 leave node 1 */
    WANT(np_core_diff(&core, &after, 1, 0, moves, 0, &count), NP_NO_ROOM);
    WANT(count == 1 && moves[0].first == 7, 1);
    WANT(np_core_diff(&core, &after, 1, 0, moves, 3, &count), NP_OK);
    WANT(count, 1);
    WANT(moves[0].first == 0x10 && moves[0].pages == 4 && moves[0].moved == 2, 1);
    WANT(moves[0].from == 1 && moves[0].to == 0, 1);
    /* pages that are mapped on one side alone aren't compared */
    WANT(np_core_unmap(&after, 0x10000, 0x2000), NP_OK);
    WANT(np_core_diff(&core, &after, 1, 0, moves, 3, &count), NP_OK);
    WANT(count == 1 && moves[0].first == 0x12 && moves[0].pages == 2 && moves[0].moved == 1, 1);
    WANT(np_core_diff(&after, &core, 1, 0, moves, 3, &count), NP_OK);
    WANT(count == 1 && moves[0].moved == 1 && moves[0].from == 0 && moves[0].to == 1, 1);
    np_core_close(&core);
    np_core_close(&after);
}

static void replays(void) {
    /* page 0x10 takes the one frame of node 0; 0x12, whose turn is node 0's, goes to node 1 */
    static const np_access trace[] = {{1, 0x10, 0, 5}, {1, 0x12, 0, 2}, {2, 0x10, 1, 1}};
    np_access bad[3];
    np_core core = {0}, after = {0}, closed = {0};
    np_route routes[4] = {{7, 7, 7, 7, 7}};
    size_t count = 77;
    open_two(&core, &after);
    WANT(np_core_replay(&closed, trace, 3, routes, 4, &count), NP_CLOSED);
    WANT(count, 77);
    WANT(np_core_replay(&core, trace, 3, routes, 2, &count), NP_NO_ROOM);
    WANT(count == 3 && routes[0].faults == 7, 1);
    WANT(np_core_replay(&core, trace, 3, routes, 4, &count), NP_OK);
    WANT(count, 3);
    WANT(routes[0].task == 1 && routes[0].cpu == 0 && routes[0].node == 0, 1);
    WANT(routes[0].accesses == 5 && routes[0].faults == 1, 1);
    WANT(routes[1].node == 1 && routes[1].accesses == 2 && routes[1].faults == 1, 1);
    WANT(routes[2].task == 2 && routes[2].cpu == 1 && routes[2].node == 0, 1);
    WANT(routes[2].accesses == 1 && routes[2].faults == 0, 1);
    /* by the nodes of mems 0 the second page finds no frame */
    WANT(np_core_replay(&after, trace, 3, routes, 4, &count), NP_OK);
    WANT(count == 3 && routes[0].node == NP_NO_FRAME && routes[0].accesses == 2, 1);
    for (int way = 0; way < 2; way++) {
        memcpy(bad, trace, sizeof trace);
        if (way == 0)
            bad[1].page = 9;
        else
            bad[1].cpu = 2;
        WANT(np_core_replay(&core, bad, 3, routes, 4, &count), NP_BAD_ACCESS);
        WANT(count, 1);
    }
    WANT(np_core_replay(&core, trace, 0, routes, 0, &count), NP_OK);
    WANT(count, 0);
    np_core_close(&core);
    np_core_close(&after);
}

/* The texts of cores are those of the words, which reports.py compares; here their causes. */
static void texts(void) {
    np_core core = {0}, after = {0}, closed = {0};
    np_question other = asked;
    np_free lacking = {5, 2};
    open_two(&core, &after);
    forget();
    WANT(np_core_predict_text(&closed, &asked, none, 0, room, sizeof room, &told), NP_CLOSED);
    WANT(np_core_diff_text(&core, &closed, &asked, room, sizeof room, &told), NP_CLOSED);
    WANT(np_core_diff_text(&closed, &core, &asked, room, sizeof room, &told), NP_CLOSED);
    WANT(np_core_explain_text(&closed, &asked, 0x10, room, sizeof room, &told), NP_CLOSED);
    WANT(np_core_replay_text(&closed, TEXT(""), &asked, room, sizeof room, &told), NP_CLOSED);
    other.format = 9;
    WANT(np_core_predict_text(&core, &other, none, 0, room, sizeof room, &told), NP_BAD_FORMAT);
    WANT(np_core_diff_text(&core, &after, &other, room, sizeof room, &told), NP_BAD_FORMAT);
    WANT(np_core_explain_text(&core, &other, 0x10, room, sizeof room, &told), NP_BAD_FORMAT);
    WANT(np_core_replay_text(&core, TEXT(""), &other, room, sizeof room, &told), NP_BAD_FORMAT);
    WANT(told.answer == 77 && told.faulty == 77 && is_untouched(), 1);
    other = asked;
    other.cpu = 2;
    WANT(np_core_predict_text(&core, &other, none, 0, room, sizeof room, &told), NP_BAD_CPU);
    WANT(np_core_diff_text(&core, &after, &other, room, sizeof room, &told), NP_BAD_CPU);
    WANT(np_core_explain_text(&core, &other, 0x10, room, sizeof room, &told), NP_BAD_CPU);
    WANT(np_core_explain_text(&core, &asked, 9, room, sizeof room, &told), NP_UNMAPPED);
    WANT(np_core_predict_text(&core, &asked, &lacking, 1, room, sizeof room, &told),
         NP_NO_SUCH_NODE);
    WANT(told.answer + told.messages + told.faulty, 0);
    other.cpu = 0;
    other.rules = 99; /* which doesn't count */
    forget();
    WANT(np_core_diff_text(&core, &after, &other, room, sizeof room, &told), NP_OK);
    WANT(is_told("00010000-00014000 differs=2 N1->N0=2\ntotal differs=2 N1->N0=2\n", ""), 1);
    forget();
    WANT(np_core_diff_text(&core, &after, &other, room, 4, &told), NP_NO_ROOM);
    WANT(told.answer == 62 && is_untouched(), 1);
    forget();
    WANT(np_core_replay_text(&core, TEXT("1 0x10000 0\n\n1 2 3 4 5"), &asked, room, sizeof room,
                             &told),
         NP_BAD_ACCESS);
    WANT(is_told("", "trace:3: bad words: a line of a trace is [in P] TASK ADDRESS CPU [COUNT], "
                 "or mark TEXT\n"), 1);
    np_core_close(&core);
    np_core_close(&after);
}

int main(void) {
    words();
    there();
    hosts();
    rooms();
    causes();
    cores();
    differences();
    replays();
    texts();
    return wrong;
}
