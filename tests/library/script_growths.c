/* Each growth of a script refused in turn, through the library's three functions of memory: the call
 * tells it by its number or in the line's answer, and the same line is then served. Not proved. */
#include "growths.h"
#include "numaplan.h"

#include <stdio.h>
#include <string.h>

static int seen[NP_ANSWER_LOST + 1]; /* how often each number was answered */

/* Pages that are interleaved over two nodes: 3,000 of them have an answer of 6,004 bytes. Then pages of
 * 2 MiB: the pools have one on each node, that of node 0 goes to the other, and one is unmapped. */
static const char *const lines[][2] = {
    {"machine 2 0-1 8 flat", "ready\n"},
    {"map 0x10000000 0xbb8000 0", "ok 1\n"},
    {"mbind 0x10000000 0xbb8000 interleave:0-1", "ok 2\n"},
    {"publish", "published 2\n"},
    {"span 1 0x10000000 3000 0", "v2: 0 1 0 1 0 1"},
    {"touch 0 1 0x10001000 0", "won v2 node 1 frame 0 rank 0\n"},
    {"pool 2", "pool N0=1/1 N1=1/1 reserved 0\n"},
    {"map 0x40000000 0x400000 0 huge 1", "ok 3\n"},
    {"fault 1 0x40000000 0", "node 0\n"},
    {"populate 0x40000000 0x400000 1 0", "v3: placed 0 exhausted 0 huge placed 1 exhausted 0 N1=1\n"},
    {"move 0x40000000 1", "node 1\n"},
    {"unmap 0x40200000 0x200000", "ok 4\n"},
    {"pool", "pool N0=0/0 N1=1/2 reserved 0\n"},
};

/* Serves a line, and once more where memory was refused; then it has its answer. */
static bool serves(np_script *script, const char *line, const char *wanted) {
    static uint8_t room[8192];
    for (int turn = 0; turn < 2; turn++) {
        size_t needed = 0, length = 0;
        uint32_t code = np_script_line(script, (const uint8_t *)line, strlen(line), &needed);
        if (code > NP_ANSWER_LOST)
            return false;
        seen[code]++;
        if (np_script_answer(script, room, sizeof room - 1, &length) != NP_OK)
            return false;
        room[length] = 0;
        if (code == NP_ANSWER_LOST && length != 0)
            return false;
        if (code == NP_OK && strncmp((char *)room, wanted, strlen(wanted)) == 0)
            return true;
        if (code == NP_OK && strstr((char *)room, "NoMemory") == NULL)
            return false;
    }
    return false;
}

/* The answers to a whole script, where memory was refused once at most. */
static bool runs(void) {
    static const char script[] = "machine 1 0 8 flat\nmap 0x10000 0x1000 0x10\n";
    uint8_t room[64];
    for (int turn = 0; turn < 2; turn++) {
        size_t length = 0;
        uint32_t code =
            np_script_run((const uint8_t *)script, strlen(script), room, sizeof room, &length);
        if (code == NP_OK && length == 11 && memcmp(room, "ready\nok 1\n", 11) == 0)
            return true;
        if (code != NP_OK && code != NP_NO_MEMORY)
            return false;
    }
    return false;
}

static bool round_of(np_script *script) {
    uint32_t code = np_script_open(script);
    if (code == NP_NO_MEMORY)
        code = np_script_open(script);
    if (code != NP_OK)
        return false;
    for (size_t k = 0; k < sizeof lines / sizeof lines[0]; k++)
        if (!serves(script, lines[k][0], lines[k][1]))
            return false;
    return runs();
}

int main(void) {
    for (long growth = 0;; growth++) {
        np_script script = {0};
        left = growth;
        bool well = round_of(&script), all = left >= 0;
        left = -1;
        np_script_close(&script);
        if (!well || blocks != 0) {
            printf("growth %ld: %s, %ld blocks are held\n", growth, well ? "well" : "not well", blocks);
            return 1;
        }
        if (all) {
            printf("%ld growths, %d lines not served, %d answers lost\n", growth, seen[NP_NO_MEMORY],
                   seen[NP_ANSWER_LOST]);
            return seen[NP_NO_MEMORY] == 0 || seen[NP_ANSWER_LOST] == 0;
        }
    }
}
