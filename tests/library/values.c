/* Sets of nodes, policy words and names of answers from C. The values come from set_mempolicy(2),
 * mbind(2), proc_pid_numa_maps(5), the kernel's comments on bitmap_remap and bitmap_fold, and the
 * header, whose names and numbers are in the file that the first argument names. Not proved. */
#include "numaplan.h"
#include "want.h"

#include <errno.h>
#include <stdio.h>
#include <string.h>

#define TEXT NP_TEXT

static bool is_set(const np_nodes *nodes, uint64_t a, uint64_t b, uint64_t c, uint64_t d) {
    return nodes->words[0] == a && nodes->words[1] == b && nodes->words[2] == c &&
           nodes->words[3] == d;
}

/* Lists that are read, and those that are refused, which leave the set as it was. */
static void reading(void) {
    np_nodes nodes = {{7, 7, 7, 7}};
    WANT(np_nodes_read(TEXT(""), &nodes), NP_LIST_EMPTY);
    WANT(np_nodes_read(TEXT("0,,1"), &nodes), NP_LIST_EMPTY);
    WANT(np_nodes_read(TEXT("0-x"), &nodes), NP_LIST_BAD_DIGIT);
    WANT(np_nodes_read(TEXT("3-1"), &nodes), NP_LIST_BACKWARDS);
    WANT(np_nodes_read(TEXT("256"), &nodes), NP_LIST_TOO_HIGH);
    WANT(is_set(&nodes, 7, 7, 7, 7), true);
    WANT(np_nodes_read(TEXT("0-2,5"), &nodes), NP_OK);
    WANT(is_set(&nodes, 0x27, 0, 0, 0), true);
    WANT(np_nodes_read(TEXT("255,63-64,128,63"), &nodes), NP_OK);
    WANT(is_set(&nodes, (uint64_t)1 << 63, 1, 1, (uint64_t)1 << 63), true);
    WANT(np_nodes_read(TEXT("0-255"), &nodes), NP_OK);
    WANT(is_set(&nodes, UINT64_MAX, UINT64_MAX, UINT64_MAX, UINT64_MAX), true);
}

/* Whether a set is written so: in room enough, in just enough, and in a byte less. */
static bool writes(np_nodes nodes, const char *wanted) {
    uint8_t text[1024] = {0};
    size_t needed = strlen(wanted), length = 9999;
    if (np_nodes_write(&nodes, text, sizeof text, &length) || length != needed ||
        memcmp(text, wanted, needed))
        return false;
    memset(text, '#', sizeof text);
    if (np_nodes_write(&nodes, text, needed, &length) || text[needed] != '#')
        return false;
    memset(text, '#', sizeof text);
    length = 0;
    return needed == 0 ||
           (np_nodes_write(&nodes, text, needed - 1, &length) == NP_NO_ROOM && length == needed &&
            text[0] == '#');
}

static void writing(void) {
    WANT(writes((np_nodes){{0, 0, 0, 0}}, ""), true);
    WANT(writes((np_nodes){{0x27, 0, 0, 0}}, "0-2,5"), true);
    WANT(writes((np_nodes){{(uint64_t)1 << 63, 1, 0, (uint64_t)1 << 63}}, "63-64,255"), true);
    WANT(writes((np_nodes){{UINT64_MAX, UINT64_MAX, UINT64_MAX, UINT64_MAX}}, "0-255"), true);
}

/* The effective set of a policy, as the lowest word; a refusal leaves the set as it was. */
static uint64_t effective(const char *policy, const char *allowed, uint32_t *code) {
    np_nodes nodes = {{~(uint64_t)0, 7, 7, 7}};
    *code = np_policy_effective(TEXT(policy), TEXT(allowed), &nodes);
    if (*code == NP_OK ? !is_set(&nodes, nodes.words[0], 0, 0, 0) : nodes.words[1] != 7)
        *code = 9999;
    return nodes.words[0];
}

#define EFFECTIVE(policy, allowed, wanted)                                                         \
    do {                                                                                           \
        uint32_t code;                                                                             \
        WANT(effective(policy, allowed, &code), wanted);                                           \
        WANT(code, NP_OK);                                                                         \
    } while (0)

#define REFUSED(policy, allowed, wanted)                                                           \
    do {                                                                                           \
        uint32_t code;                                                                             \
        WANT(effective(policy, allowed, &code), ~(uint64_t)0);                                     \
        WANT(code, wanted);                                                                        \
    } while (0)

static void policies(void) {
    EFFECTIVE("bind:1-2", "0-1", 0x2);
    EFFECTIVE("interleave:0-3", "0-3", 0xf);
    EFFECTIVE("prefer:2-3", "0-3", 0x4);           /* the lowest alone */
    EFFECTIVE("many=static:0,3", "1-3", 0x8);
    EFFECTIVE("bind=relative:0-1", "2-3,7", 0xc);  /* the first and the second of 2, 3, 7 */
    EFFECTIVE("bind=relative:5", "1-4", 0x4);      /* 5 mod 4 is 1: the second of 1 to 4 */
    EFFECTIVE("local", "0-1", 0);
    EFFECTIVE("prefer", "0-1", 0);
    REFUSED("default", "0-1", NP_NO_POLICY);
    REFUSED("bind:2", "0-1", NP_NODES_NOT_ALLOWED);
    REFUSED("bend:2", "0-1", NP_UNKNOWN_MODE);
    REFUSED("bind=static=relative:0", "0-1", NP_BOTH_FLAGS);
    REFUSED("default:0", "0-1", NP_NODES_FORBIDDEN);
    REFUSED("local=static", "0-1", NP_FLAGS_FORBIDDEN);
    REFUSED("weighted", "0-1", NP_NODES_MISSING);
    REFUSED("bind:0-", "0-1", NP_LIST_BAD_DIGIT);
    REFUSED("bind:0", "1-0", NP_LIST_BACKWARDS);
    REFUSED("bind:0", "", NP_LIST_EMPTY);
}

/* Sets after the allowed nodes changed. */
static void rebinding(void) {
    np_nodes nodes = {{7, 0, 0, 0}};
    WANT(np_policy_rebind(TEXT("default"), TEXT("0"), TEXT("1"), &nodes), NP_NO_POLICY);
    WANT(np_policy_rebind(TEXT("bind:1"), TEXT("0"), TEXT("1"), &nodes), NP_NODES_NOT_ALLOWED);
    WANT(np_policy_rebind(TEXT("bind:0"), TEXT("0"), TEXT("y"), &nodes), NP_LIST_BAD_DIGIT);
    WANT(is_set(&nodes, 7, 0, 0, 0), true);
    /* without a flag by place: 0 to 3 become 1, 3, 1, 3; and 2 of 0 to 3 becomes 6 of 4 to 7 */
    WANT(np_policy_rebind(TEXT("interleave:0-3"), TEXT("0-3"), TEXT("1,3"), &nodes), NP_OK);
    WANT(is_set(&nodes, 0xa, 0, 0, 0), true);
    WANT(np_policy_rebind(TEXT("bind:2"), TEXT("0-3"), TEXT("4-7"), &nodes), NP_OK);
    WANT(is_set(&nodes, 0x40, 0, 0, 0), true);
    /* with a flag from the nodes that were asked for */
    WANT(np_policy_rebind(TEXT("bind=static:0,2"), TEXT("0-1"), TEXT("1-2"), &nodes), NP_OK);
    WANT(is_set(&nodes, 0x4, 0, 0, 0), true);
    WANT(np_policy_rebind(TEXT("bind=relative:0-1"), TEXT("0-3"), TEXT("4-7"), &nodes), NP_OK);
    WANT(is_set(&nodes, 0x30, 0, 0, 0), true);
    WANT(np_policy_rebind(TEXT("bind=static:0"), TEXT("0-1"), TEXT("1"), &nodes), NP_OK);
    WANT(is_set(&nodes, 0, 0, 0, 0), true);
}

static bool shows(const char *policy, const char *wanted) {
    uint8_t text[64];
    size_t length = 0;
    return np_policy_text(TEXT(policy), TEXT("0-1"), text, sizeof text, &length) == NP_OK &&
           length == strlen(wanted) && memcmp(text, wanted, length) == 0 &&
           np_policy_text(TEXT(policy), TEXT("0-1"), text, length - 1, &length) == NP_NO_ROOM &&
           length == strlen(wanted);
}

static void texts(void) {
    uint8_t text[8];
    size_t length = 5;
    WANT(shows("weighted:0-1", "weighted interleave:0-1"), true);
    WANT(shows("many=static:0", "prefer (many)=static:0"), true);
    WANT(shows("prefer", "local"), true);
    WANT(shows("prefer:0-1", "prefer:0"), true);
    WANT(shows("bind=relative:3", "bind=relative:1"), true);
    WANT(np_policy_text(TEXT("default"), TEXT("0-1"), text, 8, &length), NP_NO_POLICY);
    WANT(length, 5);
}

/* errno(3) of refusals: mmap(2), mbind(2), set_mempolicy(2), set_mempolicy_home_node(2). */
static void errors(void) {
    static const uint32_t rows[][2] = {
        {NP_OK, 0}, {NP_NO_MEMORY, ENOMEM}, {NP_COMMANDS_SPENT, ENOSPC}, {NP_UNALIGNED, EINVAL},
        {NP_OUT_OF_SPACE, ENOMEM}, {NP_EMPTY_LENGTH, EINVAL}, {NP_BAD_OFFSET, EINVAL},
        {NP_OVERLAP, EEXIST}, {NP_HOLE, EFAULT}, {NP_NO_SUCH_NODE, EINVAL}, {NP_BAD_WEIGHT, EINVAL},
        {NP_NODES_NOT_ALLOWED, EINVAL}, {NP_NOT_SUPPORTED, EOPNOTSUPP}, {NP_TOO_MANY_TASKS, ENOMEM},
        {NP_TOO_MANY_RANGES, ENOMEM}, {NP_UNKNOWN_MODE, EINVAL}, {NP_BOTH_FLAGS, EINVAL},
        {NP_NODES_FORBIDDEN, EINVAL}, {NP_FLAGS_FORBIDDEN, EINVAL}, {NP_NODES_MISSING, EINVAL},
        {NP_NO_POLICY_THERE, ENOENT}, {NP_BAD_SPAN, EINVAL}, {NP_NO_NODES, ENOSPC},
        {NP_NO_POLICY, 0}, {NP_BUSY, 0}, {NP_LIST_EMPTY, 0},
    };
    uint32_t number = 0;
    for (size_t k = 0; k < sizeof rows / sizeof rows[0]; k++) {
        WANT(np_answer_errno(rows[k][0], &number), NP_OK);
        WANT(number, rows[k][1]);
    }
    number = 7;
    WANT(np_answer_errno(26, &number), NP_UNKNOWN);
    WANT(np_answer_errno(UINT32_MAX, &number), NP_UNKNOWN);
    WANT(number, 7);
}

/* NP_BAD_CPU is BadCpu. */
static void as_words(const char *constant, char *name) {
    bool is_first = true;
    for (constant += 3; *constant; constant++) {
        if (*constant == '_') {
            is_first = true;
            continue;
        }
        *name++ = (char)(is_first ? *constant : *constant - 'A' + 'a');
        is_first = false;
    }
    *name = 0;
}

/* The words of an answer: some where it has a name, and in no room that is too small. */
static void words_of(uint32_t number, bool known) {
    static const char unmap[] = "a page of the span is mapped already; unmap it first";
    uint8_t words[160];
    size_t length = 999, needed;
    memset(words, '?', sizeof words);
    WANT(np_answer_words(number, words, sizeof words, &length), known ? NP_OK : NP_UNKNOWN);
    if (!known) {
        WANT(length, 999);
        WANT(words[0], '?');
        return;
    }
    WANT(length > 5 && length <= sizeof words && words[length - 1] != '.', true);
    needed = length;
    memset(words, '?', sizeof words);
    WANT(np_answer_words(number, words, needed - 1, &length), NP_NO_ROOM);
    WANT(length, needed);
    WANT(words[0], '?');
    if (number == NP_OVERLAP) {
        WANT(np_answer_words(number, words, needed, &length), NP_OK);
        WANT(needed == strlen(unmap) && memcmp(words, unmap, needed) == 0, true);
    }
}

/* Each name and number of the header, and no other number below 200. */
static void names(const char *path) {
    char constant[64], wanted[64], known[200][64] = {{0}};
    unsigned number, count = 0;
    FILE *file = fopen(path, "r");
    while (file && fscanf(file, "%63s %u", constant, &number) == 2 && number < 200) {
        as_words(constant, known[number]);
        count++;
    }
    WANT(count > 40, true);
    for (number = 0; number < 200; number++) {
        uint8_t name[32];
        size_t length = 0, needed = strlen(known[number]);
        uint32_t code = np_answer_name(number, name, sizeof name, &length);
        memcpy(wanted, known[number], sizeof wanted);
        if (code != (needed ? NP_OK : NP_UNKNOWN) || length != needed ||
            memcmp(name, wanted, needed)) {
            printf("answer %u is not called %s\n", number, wanted);
            wrong = 1;
        }
        if (needed)
            WANT(np_answer_name(number, name, needed - 1, &length), NP_NO_ROOM);
        words_of(number, needed != 0);
    }
    if (file)
        fclose(file);
}

int main(int count, char **words) {
    reading();
    writing();
    policies();
    rebinding();
    texts();
    errors();
    names(count > 1 ? words[1] : "");
    return wrong;
}
