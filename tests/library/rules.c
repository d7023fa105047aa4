/* Cores and scripts by the documents' rules and by those of the running kernel, a kernel's orders,
 * policies as they stand, and the range of an address. The values come from set_mempolicy(2),
 * mbind(2), cpusets(7) and linux/mempolicy.h, from what kernels answered (docs/KERNEL.md), and from
 * mm/page_alloc.c of the kernel. Prints what is wrong; not proved. */
#include "numaplan.h"
#include "want.h"

#include <stdio.h>
#include <string.h>

#define TEXT NP_TEXT

/* MPOL_* of linux/mempolicy.h */
enum { DEFAULT, PREFERRED, BIND, INTERLEAVE, LOCAL, PREFERRED_MANY, WEIGHTED };
enum { STATIC = 0x8000, RELATIVE = 0x4000 };

static const uint32_t frames[4] = {8, 8, 8, 8};
static const uint8_t flat[16] = {10, 20, 20, 20, 20, 10, 20, 20, 20, 20, 10, 20, 20, 20, 20, 10};
static const np_limits limits = {65536, 1024, UINT32_MAX};

/* Four nodes, 20 apart, and four mapped pages. */
static void open_by(np_core *core, uint32_t rules) {
    np_options options = {0};
    options.rules = rules;
    WANT(np_core_open_by(core, TEXT("0-3"), frames, 4, flat, 16, &limits, 1, &options), NP_OK);
    WANT(np_core_map(core, 0x10000, 0x4000, 16), NP_OK);
}

/* A policy that is wanted; the sets are below 64. */
static void want_policy(int line, const np_policy *policy, uint32_t mode, uint32_t home,
                        uint64_t asked, uint64_t nodes) {
    int before = wrong;
    WANT(policy->mode, mode);
    WANT(policy->home, home);
    WANT(policy->asked.words[0], asked);
    WANT(policy->nodes.words[0], nodes);
    for (int k = 1; k < 4; k++)
        WANT(policy->asked.words[k] | policy->nodes.words[k], 0);
    if (wrong > before)
        printf("line %d: this policy\n", line);
}

#define WANT_POLICY(policy, mode, home, asked, nodes)                                              \
    want_policy(__LINE__, policy, mode, home, asked, nodes)

/* `prefer` once the allowed nodes changed: in the documents node 1, the second of 0 to 3, becomes
 * the second of 2 and 3; a kernel leaves it, and takes what is allowed of the list of node 1. */
static void prefers(uint32_t rules, uint64_t task_nodes, uint8_t first) {
    np_core core = {0}, copy = {0};
    np_plan plan = {0};
    np_policy policy;
    uint8_t nodes[4];
    size_t count = 0;
    open_by(&core, rules);
    WANT(np_core_set_task(&core, 5, TEXT("prefer:1")), NP_OK);
    WANT(np_core_mbind(&core, 0x10000, 0x1000, TEXT("prefer:1")), NP_OK);
    WANT(np_core_task_policy(&core, 5, &policy), NP_OK);
    WANT_POLICY(&policy, PREFERRED, NP_NO_HOME, 2, 2);
    /* a copy goes by the same rules */
    WANT(np_core_copy(&core, &copy), NP_OK);
    np_core_close(&core);
    WANT(np_core_set_mems(&copy, TEXT("2-3")), NP_OK);
    WANT(np_core_task_policy(&copy, 5, &policy), NP_OK);
    WANT_POLICY(&policy, PREFERRED, NP_NO_HOME, 2, task_nodes);
    WANT(np_core_range_policy(&copy, 0, &policy), NP_OK);
    WANT_POLICY(&policy, PREFERRED, NP_NO_HOME, 2, task_nodes);
    WANT(np_core_compile(&copy, &plan), NP_OK);
    WANT(np_plan_choice(&plan, 5, 17, 0, nodes, 4, &count), NP_OK);
    WANT(count, 2);
    WANT(nodes[0], first);
    np_plan_close(&plan);
    np_core_close(&copy);
}

/* Refusals that differ: a weight of 0 puts back 1 in a kernel, and a home where no page has a
 * policy is ENOENT there; as is what such a call answered above the last page (6.18.44). */
static void refusals(void) {
    np_core document = {0}, kernel = {0};
    open_by(&document, NP_RULES_DOCUMENT);
    open_by(&kernel, NP_RULES_LINUX);
    WANT(np_core_set_weight(&document, 0, 0), NP_BAD_WEIGHT);
    WANT(np_core_set_weight(&kernel, 0, 0), NP_OK);
    WANT(np_core_set_home(&document, 0x10000, 0x1000, 0), NP_OK);
    WANT(np_core_set_home(&kernel, 0x10000, 0x1000, 0), NP_NO_POLICY_THERE);
    WANT(np_core_unmap(&document, 0x7ffffffff000, 0x1000), NP_OK);
    WANT(np_core_unmap(&kernel, 0x7ffffffff000, 0x1000), NP_BAD_SPAN);
    WANT(np_core_mbind(&document, 0x800000001000, 0, TEXT("bind:0")), NP_OUT_OF_SPACE);
    WANT(np_core_mbind(&kernel, 0x800000001000, 0, TEXT("bind:0")), NP_OK);
    WANT(np_core_mbind(&kernel, 0x800000001000, 0x1000, TEXT("bind:0")), NP_HOLE);
    WANT(np_core_mbind(&kernel, 0xfffffffffffff000, 0x1000, TEXT("bind:0")), NP_BAD_SPAN);
    WANT(np_core_set_home(&kernel, 0x800000001000, 0x1000, 0), NP_NO_POLICY_THERE);
    np_core_close(&document);
    np_core_close(&kernel);
}

/* An mbind of no bytes whose mode, flag and nodes don't go together: a kernel returns before it looks
 * at them together, but judges each by itself before that. A faulty policy of a closed handle is
 * told by no kernel's rules. */
static void empty_binds(void) {
    static const np_nodes none = {{0, 0, 0, 0}}, two = {{2, 0, 0, 0}};
    static const struct {
        const char *policy;
        uint32_t mode, code, kernels;
        const np_nodes *nodes;
    } asked[] = {
        {"local=relative", LOCAL | RELATIVE, NP_FLAGS_FORBIDDEN, NP_OK, &none},
        {"local:1", LOCAL, NP_NODES_FORBIDDEN, NP_OK, &two},
        {"bind", BIND, NP_NODES_MISSING, NP_OK, &none},
        {"bind=static=relative:1", BIND | STATIC | RELATIVE, NP_BOTH_FLAGS, NP_BOTH_FLAGS, &two},
        {"bend:1", 7, NP_UNKNOWN_MODE, NP_UNKNOWN_MODE, &two},
    };
    np_core document = {0}, kernel = {0}, closed = {0};
    uint64_t accepted, published;
    open_by(&document, NP_RULES_DOCUMENT);
    open_by(&kernel, NP_RULES_LINUX);
    for (size_t k = 0; k < sizeof asked / sizeof *asked; k++) {
        const uint8_t *policy = (const uint8_t *)asked[k].policy;
        const size_t length = strlen(asked[k].policy);
        const uint32_t mode = asked[k].mode, code = asked[k].code, kernels = asked[k].kernels;
        const np_nodes *nodes = asked[k].nodes;
        WANT(np_core_mbind(&document, 0x10000, 0, policy, length), code);
        WANT(np_core_mbind_by(&document, 0x10000, 0, mode, nodes), code);
        WANT(np_core_mbind(&closed, 0x10000, 0, policy, length), code);
        WANT(np_core_mbind_by(&closed, 0x10000, 0, mode, nodes), code);
        WANT(np_core_mbind(&kernel, 0x10000, 0, policy, length), kernels);
        WANT(np_core_mbind_by(&kernel, 0x10000, 0, mode, nodes), kernels);
        WANT(np_core_mbind(&kernel, 0x10000, 1, policy, length), code);
        WANT(np_core_mbind_by(&kernel, 0x10000, 1, mode, nodes), code);
        WANT(np_core_mbind(&kernel, 0x10001, 0, policy, length), kernels ? kernels : NP_UNALIGNED);
    }
    WANT(np_core_mbind(&kernel, 0x10000, 0, TEXT("bind:x")), NP_LIST_BAD_DIGIT);
    WANT(np_core_versions(&kernel, &accepted, &published), NP_OK);
    WANT(accepted, 7); /* (the map, and six of no bytes) */
    WANT(np_core_versions(&document, &accepted, &published), NP_OK);
    WANT(accepted, 1);
    np_core_close(&document);
    np_core_close(&kernel);
}

/* Numbers that the header lacks, and in which order causes are told. */
static void options(void) {
    np_core core = {0};
    np_options rules = {2, 0, {{0, 0, 0, 0}}}, orders = {0, 9, {{0, 0, 0, 0}}};
    np_nodes nodes = {{7, 7, 7, 7}};
    WANT(np_core_open_by(&core, TEXT("x"), frames, 4, flat, 16, &limits, 0, &rules), NP_BAD_RULES);
    WANT(np_core_open_by(&core, TEXT("x"), frames, 4, flat, 16, &limits, 0, &orders),
         NP_BAD_ORDERS);
    rules.orders = 9;
    WANT(np_core_open_by(&core, TEXT("0"), frames, 4, flat, 16, &limits, 1, &rules), NP_BAD_RULES);
    rules.rules = rules.orders = 0;
    WANT(np_core_open_by(&core, TEXT("x"), frames, 4, flat, 16, &limits, 0, &rules),
         NP_LIST_BAD_DIGIT);
    WANT(np_core_open_by(&core, TEXT("0"), frames, 4, flat, 16, &limits, 0, &rules),
         NP_BAD_WORKERS);
    WANT(np_core_publish(&core), NP_CLOSED);
    WANT(np_policy_rebind_by(2, TEXT("bend"), TEXT("0"), TEXT("1"), &nodes), NP_BAD_RULES);
    WANT(nodes.words[0] & nodes.words[3], 7);
}

/* The nodes of a policy word once the allowed nodes have changed, by rules. */
static uint64_t rebound(uint32_t rules, const char *policy, const char *old, const char *new) {
    np_nodes nodes = {{~(uint64_t)0, 0, 0, 0}};
    WANT(np_policy_rebind_by(rules, TEXT(policy), TEXT(old), TEXT(new), &nodes), NP_OK);
    return nodes.words[0];
}

static void words(void) {
    np_nodes nodes = {{0, 0, 0, 0}};
    WANT(rebound(NP_RULES_DOCUMENT, "prefer:1", "0-3", "2-3"), 0x8);
    WANT(rebound(NP_RULES_LINUX, "prefer:1", "0-3", "2-3"), 0x2);
    WANT(rebound(NP_RULES_DOCUMENT, "many:0-1", "0-3", "2-3"), 0xc);
    WANT(rebound(NP_RULES_LINUX, "many:0-1", "0-3", "2-3"), 0x3);
    /* node 0 of =static goes: the documents leave no node, a kernel takes all new ones */
    WANT(rebound(NP_RULES_DOCUMENT, "bind=static:0", "0-1", "1"), 0);
    WANT(rebound(NP_RULES_LINUX, "bind=static:0", "0-1", "1"), 0x2);
    WANT(rebound(NP_RULES_LINUX, "bind:2", "0-3", "4-7"), 0x40);
    WANT(np_policy_rebind_by(NP_RULES_LINUX, TEXT("default"), TEXT("0"), TEXT("1"), &nodes),
         NP_NO_POLICY);
}

/* The order of each node, as the list of a page without a policy. */
static void want_orders(int line, const np_options *options, size_t count, const uint8_t *distances,
                        const char *const *wanted) {
    np_core core = {0}, copy = {0};
    np_plan plan = {0};
    uint32_t eight[8] = {8, 8, 8, 8, 8, 8, 8, 8};
    uint8_t nodes[8];
    char memory[4] = "0-x", text[9];
    size_t length = 0;
    memory[2] = (char)('0' + count - 1);
    WANT(np_core_open_by(&core, TEXT(memory), eight, count, distances, count * count, &limits, 1,
                         options), NP_OK);
    WANT(np_core_map(&core, 0x10000, 0x1000, 16), NP_OK);
    WANT(np_core_copy(&core, &copy), NP_OK);
    np_core_close(&core);
    WANT(np_core_compile(&copy, &plan), NP_OK);
    for (uint32_t from = 0; from < count; from++) {
        WANT(np_plan_choice(&plan, 1, 16, from, nodes, 8, &length), NP_OK);
        for (size_t k = 0; k < length; k++)
            text[k] = (char)('0' + nodes[k]);
        text[length] = 0;
        if (strcmp(text, wanted[from]) != 0) {
            printf("line %d: the order of node %u is %s, not %s\n", line, from, text, wanted[from]);
            wrong = 1;
        }
    }
    np_plan_close(&plan);
    np_core_close(&copy);
}

#define WANT_ORDERS(options, count, distances, wanted)                                             \
    want_orders(__LINE__, options, count, distances, wanted)

/* Orders nearest first and as a kernel makes them: of two sockets of four nodes, 12 apart in a
 * socket and 21 across, where all nodes have CPUs or none; and of four nodes 20 apart, where node 1
 * alone has. */
static void orders(void) {
    static const char *const sockets[] = {"01234567", "12305674", "23016745", "30127456",
                                          "45670123", "56741230", "67452301", "74563012"};
    static const char *const turns[] = {"0123", "1230", "2301", "3012"};
    static const char *const one[] = {"0231", "1320", "2301", "3021"};
    static const char *const nearest[] = {"0123", "1023", "2013", "3012"};
    np_options options = {NP_RULES_DOCUMENT, NP_ORDERS_KERNEL, {{0, 0, 0, 0}}};
    np_core core = {0};
    uint8_t across[64];
    for (size_t a = 0; a < 8; a++)
        for (size_t b = 0; b < 8; b++)
            across[8 * a + b] = a == b ? 10 : a / 4 == b / 4 ? 12 : 21;
    WANT_ORDERS(&options, 8, across, sockets);
    WANT_ORDERS(&options, 4, flat, turns);
    options.cpus.words[0] = 0xff;
    WANT_ORDERS(&options, 8, across, sockets);
    options.cpus.words[0] = 0x2;
    options.rules = NP_RULES_LINUX;
    WANT_ORDERS(&options, 4, flat, one);
    /* node 8 is none of these; it is judged before the distances, and not for other orders */
    options.cpus.words[0] = 0x100;
    WANT(np_core_open_by(&core, TEXT("0-3"), frames, 4, across, 16, &limits, 1, &options),
         NP_BAD_NODE_COUNT);
    WANT(np_core_open_by(&core, TEXT("0-3"), frames, 4, across, 16, &limits, 0, &options),
         NP_BAD_WORKERS);
    options.orders = NP_ORDERS_NEAREST;
    WANT(np_core_open_by(&core, TEXT("0-3"), frames, 4, across, 16, &limits, 1, &options),
         NP_BAD_DISTANCE);
    WANT_ORDERS(&options, 4, flat, nearest);
}

/* The answer to a script's last line. */
static void want_said(int line, np_script *script, const char *said, const char *wanted) {
    uint8_t answer[64];
    size_t length = 0;
    WANT(np_script_line(script, TEXT(said), &length), NP_OK);
    WANT(np_script_answer(script, answer, sizeof answer, &length), NP_OK);
    if (length != strlen(wanted) || memcmp(answer, wanted, length) != 0) {
        printf("line %d: %s is answered %.*s\n", line, said, (int)length, (const char *)answer);
        wrong = 1;
    }
}

/* Scripts by both kinds of rules; a line `rules` gives others. */
static void scripts(void) {
    static const char *const wanted[] = {"v3: 3 2\n", "v3: 2 3\n"};
    np_script script = {0};
    WANT(np_script_open_by(&script, 2), NP_BAD_RULES);
    for (uint32_t opened = 0; opened < 2; opened++)
        for (uint32_t given = 0; given < 2; given++) {
            uint32_t rules = given ? NP_RULES_DOCUMENT : opened;
            WANT(np_script_open_by(&script, opened), NP_OK);
            WANT(np_script_open_by(&script, 2), NP_OPEN);
            if (given)
                want_said(__LINE__, &script, "rules document", "rules ok\n");
            want_said(__LINE__, &script, "machine 4 0-3 8 flat", "ready\n");
            want_said(__LINE__, &script, "map 0x10000 0x1000 0x10", "ok 1\n");
            want_said(__LINE__, &script, "task 1 prefer:1", "ok 2\n");
            want_said(__LINE__, &script, "mems 2-3", "ok 3\n");
            want_said(__LINE__, &script, "place 1 0x10000 0", wanted[rules]);
            np_script_close(&script);
        }
}

/* Policies as they were asked for and as they stand, of ranges and of a task. */
static void standing(void) {
    np_core core = {0};
    np_policy policy = {9, 9, {{9, 9, 9, 9}}, {{9, 9, 9, 9}}};
    open_by(&core, NP_RULES_DOCUMENT);
    WANT(np_core_set_mems(&core, TEXT("0-2")), NP_OK);
    WANT(np_core_range_policy(&core, 1, &policy), NP_NO_RANGE);
    WANT(policy.home, 9);
    WANT(np_core_range_policy(&core, 0, &policy), NP_OK);
    WANT_POLICY(&policy, DEFAULT, NP_NO_HOME, 0, 0);
    WANT(np_core_task_policy(&core, 5, &policy), NP_OK);
    WANT_POLICY(&policy, DEFAULT, NP_NO_HOME, 0, 0);
    WANT(np_core_set_task(&core, 5, TEXT("interleave=relative:1,4")), NP_OK);
    WANT(np_core_task_policy(&core, 5, &policy), NP_OK);
    WANT_POLICY(&policy, INTERLEAVE | RELATIVE, NP_NO_HOME, 0x12, 0x2); /* 4 mod 3 is 1 */
    WANT(np_core_set_task(&core, 5, TEXT("local")), NP_OK);
    WANT(np_core_task_policy(&core, 5, &policy), NP_OK);
    WANT_POLICY(&policy, LOCAL, NP_NO_HOME, 0, 0);
    WANT(np_core_mbind(&core, 0x10000, 0x1000, TEXT("bind=static:1-3")), NP_OK);
    WANT(np_core_mbind(&core, 0x11000, 0x1000, TEXT("many:0")), NP_OK);
    WANT(np_core_mbind(&core, 0x12000, 0x1000, TEXT("weighted:0,2")), NP_OK);
    WANT(np_core_set_home(&core, 0x10000, 0x2000, 3), NP_OK);
    WANT(np_core_range_policy(&core, 0, &policy), NP_OK);
    WANT_POLICY(&policy, BIND | STATIC, 3, 0xe, 0x6);
    WANT(np_core_range_policy(&core, 1, &policy), NP_OK);
    WANT_POLICY(&policy, PREFERRED_MANY, 3, 0x1, 0x1);
    WANT(np_core_range_policy(&core, 2, &policy), NP_OK);
    WANT_POLICY(&policy, WEIGHTED, NP_NO_HOME, 0x5, 0x5);
    np_core_close(&core);
    policy.mode = 9;
    WANT(np_core_range_policy(&core, 0, &policy), NP_CLOSED);
    WANT(np_core_task_policy(&core, 5, &policy), NP_CLOSED);
    WANT(policy.mode, 9);
}

/* The place of an address, as a look at each range finds it. */
static size_t place_of(np_core *core, size_t count, uint64_t address) {
    np_range range;
    size_t place = 0, length;
    uint8_t policy[64];
    while (place < count && np_core_range(core, place, &range, policy, 64, &length) == NP_OK &&
           range.start + range.length <= address)
        place++;
    return place;
}

static void addresses(void) {
    static const uint64_t rows[][2] = {
        {0, 0},       {0xffff, 0},  {0x10000, 0}, {0x10fff, 0}, {0x11000, 1},
        {0x13fff, 1}, {0x14000, 2}, {0x20000, 2}, {0x20fff, 2}, {0x21000, 3},
    };
    np_core core = {0};
    size_t place = 99;
    WANT(np_core_range_at(&core, 0, &place), NP_CLOSED);
    WANT(place, 99);
    open_by(&core, NP_RULES_LINUX);
    WANT(np_core_mbind(&core, 0x11000, 0x3000, TEXT("bind:1")), NP_OK);
    WANT(np_core_map(&core, 0x20000, 0x1000, 0), NP_OK);
    for (size_t k = 0; k < sizeof rows / sizeof rows[0]; k++) {
        WANT(np_core_range_at(&core, rows[k][0], &place), NP_OK);
        WANT(place, rows[k][1]);
    }
    WANT(np_core_range_at(&core, UINT64_MAX, &place), NP_OK);
    WANT(place, 3);
    /* 300 more, of one to three pages, with and without a page between them */
    for (uint64_t k = 0, page = 0x100; k < 300; k++, page += k % 3 + 1 + k % 2)
        WANT(np_core_map(&core, page << 12, (k + 1) % 3 * 4096 + 1, 7 * k), NP_OK);
    for (uint64_t page = 0xf0; page < 0x500; page++) {
        WANT(np_core_range_at(&core, (page << 12) + page, &place), NP_OK);
        WANT(place, place_of(&core, 303, (page << 12) + page));
    }
    np_core_close(&core);
}

int main(void) {
    prefers(NP_RULES_DOCUMENT, 0x8, 3);
    prefers(NP_RULES_LINUX, 0x2, 2);
    refusals();
    empty_binds();
    options();
    orders();
    scripts();
    words();
    standing();
    addresses();
    return wrong;
}
