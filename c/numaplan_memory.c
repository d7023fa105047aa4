/* numaplan_memory.c: the library's memory, by the functions that np_config names or else malloc, realloc
 * and free. ./numaplan library compiles it into libnumaplan.a and libnumaplan.so. Not proved. */
#include "numaplan.h"
#include "numaplan_memory.h"

#include <stdatomic.h>
#include <stdlib.h>

static void *get(void *context, size_t length) {
    (void)context;
    return malloc(length);
}

static void *change(void *context, void *at, size_t length) {
    (void)context;
    return realloc(at, length);
}

static void give_back(void *context, void *at) {
    (void)context;
    free(at);
}

static np_memory memory = {get, change, give_back, NULL};
static atomic_bool was_asked; /* whether memory was ever wanted */
static char nothing[16];

static np_tried tried(void *at) {
    np_tried got = {at != NULL, at ? at : nothing};
    return got;
}

np_tried rattle_alloc(size_t length, size_t align) {
    if (!atomic_load_explicit(&was_asked, memory_order_relaxed))
        atomic_store_explicit(&was_asked, true, memory_order_relaxed);
    return tried(memory.alloc(memory.context, length ? length : align));
}

np_tried rattle_realloc(void *at, size_t kept, size_t length, size_t align) {
    (void)kept;
    return tried(memory.realloc(memory.context, at, length ? length : align));
}

void rattle_dealloc(void *at) { memory.free(memory.context, at); }

uint32_t np_config(const np_memory *given) {
    if (atomic_load_explicit(&was_asked, memory_order_relaxed))
        return NP_OPEN;
    memory = *given;
    return NP_OK;
}
