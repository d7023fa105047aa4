/* The library's three functions of memory, of which one growth is refused, for the tests of what
 * becomes of a call then. Not proved. */
#ifndef GROWTHS_H
#define GROWTHS_H

#include "numaplan_memory.h"

#include <stdlib.h>

static long left = -1;    /* how many growths are let through before one is refused; -1: all */
static long blocks;       /* how many are held */
static long memory_calls; /* of the three functions */

static np_tried tried(void *at) {
    static char nothing[16];
    np_tried got = {at != NULL, at ? at : nothing};
    return got;
}

static bool refused(void) { return left >= 0 && left-- == 0; }

np_tried rattle_alloc(size_t length, size_t align) {
    void *at = refused() ? NULL : malloc(length ? length : align);
    blocks += at != NULL;
    memory_calls++;
    return tried(at);
}

np_tried rattle_realloc(void *at, size_t kept, size_t length, size_t align) {
    (void)kept;
    memory_calls++;
    return tried(refused() ? NULL : realloc(at, length ? length : align));
}

void rattle_dealloc(void *at) {
    blocks--;
    memory_calls++;
    free(at);
}

#endif
