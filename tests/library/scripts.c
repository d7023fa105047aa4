/* Scripts from C: each pair of files (a script, and the answers to it) as a whole and line by line, and
 * handles that are closed and opened. Prints what is wrong; not proved. */
#include "numaplan.h"
#include "want.h"

#include <stdio.h>
#include <stdlib.h>
#include <string.h>

#define TEXT NP_TEXT

struct text {
    uint8_t *bytes;
    size_t length;
};

static struct text file_at(const char *path) {
    struct text text = {malloc(1 << 22), 0};
    FILE *file = fopen(path, "rb");
    if (!file || !text.bytes) {
        printf("%s can't be read\n", path);
        exit(2);
    }
    text.length = fread(text.bytes, 1, 1 << 22, file);
    fclose(file);
    return text;
}

/* The whole script in one call: with just enough room, and with a byte less. */
static bool whole(struct text script, struct text wanted) {
    uint8_t *room = malloc(wanted.length + 1);
    size_t length = 0;
    bool same = np_script_run(script.bytes, script.length, room, wanted.length, &length) == NP_OK &&
                length == wanted.length && memcmp(room, wanted.bytes, length) == 0;
    if (same && wanted.length > 0) {
        room[0] = '#';
        length = 0;
        same = np_script_run(script.bytes, script.length, room, wanted.length - 1, &length) ==
                   NP_NO_ROOM &&
               length == wanted.length && room[0] == '#';
    }
    free(room);
    return same;
}

/* The same line by line: each answer is the next part of what is wanted, and is kept. */
static bool by_lines(struct text script, struct text wanted) {
    np_script running = {0};
    size_t at = 0, told = 0, needed, length;
    uint8_t *room = malloc(wanted.length + 1);
    bool same = np_script_open(&running) == NP_OK;
    while (same && at < script.length) {
        const uint8_t *line = script.bytes + at, *end = memchr(line, '\n', script.length - at);
        size_t bytes = end ? (size_t)(end - line) : script.length - at;
        same = np_script_line(&running, line, bytes, &needed) == NP_OK &&
               needed <= wanted.length - told &&
               (needed == 0 ||
                (np_script_answer(&running, room, needed - 1, &length) == NP_NO_ROOM &&
                 length == needed)) &&
               np_script_answer(&running, room, wanted.length + 1, &length) == NP_OK &&
               length == needed && memcmp(room, wanted.bytes + told, needed) == 0;
        told += needed;
        at += bytes + 1;
    }
    np_script_close(&running);
    free(room);
    return same && told == wanted.length;
}

static void handles(void) {
    np_script script = {0}, zero = {0};
    uint8_t room[16] = "################";
    size_t length = 7;
    np_script_close(&script);
    WANT(np_script_line(&script, TEXT("publish"), &length), NP_CLOSED);
    WANT(np_script_answer(&script, room, 16, &length), NP_CLOSED);
    WANT(length, 7);
    WANT(room[0], '#');
    WANT(memcmp(&script, &zero, sizeof script) == 0, 1);
    WANT(np_script_open(&script), NP_OK);
    WANT(np_script_open(&script), NP_OPEN);
    WANT(np_script_answer(&script, room, 0, &length), NP_OK); /* before the first line: none */
    WANT(length, 0);
    WANT(np_script_line(&script, TEXT("publish"), &length), NP_OK);
    WANT(length, 10);
    WANT(np_script_answer(&script, room, 16, &length), NP_OK);
    WANT(memcmp(room, "bad state\n######", 16) == 0, 1);
    WANT(np_script_line(&script, TEXT("machine 2 0-1 8 flat"), &length), NP_OK);
    WANT(np_script_line(&script, TEXT("map 0x10000 0x1000 0x10"), &length), NP_OK);
    WANT(np_script_line(&script, TEXT("# a comment"), &length), NP_OK);
    WANT(length, 0);
    WANT(np_script_line(&script, TEXT("publish"), &length), NP_OK);
    WANT(np_script_answer(&script, room, 16, &length), NP_OK);
    WANT(memcmp(room, "published 1\n", 12) == 0, 1);
    np_script_close(&script);
    np_script_close(&script);
    WANT(np_script_line(&script, TEXT("publish"), &length), NP_CLOSED);
}

int main(int count, char **words) {
    handles();
    for (int k = 1; k + 1 < count; k += 2) {
        struct text script = file_at(words[k]), wanted = file_at(words[k + 1]);
        if (!whole(script, wanted) || !by_lines(script, wanted)) {
            printf("%s is answered otherwise\n", words[k]);
            wrong = 1;
        }
        free(script.bytes);
        free(wanted.bytes);
    }
    return wrong;
}
