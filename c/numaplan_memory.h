/* numaplan_memory.h: the three functions by which the library gets memory and gives it back, for C99
 * and C++. It has them over those of np_config, or malloc, realloc and free. A program that is linked
 * with libnumaplan.a, never calls np_config and defines all three has its own in their place;
 * libnumaplan.so keeps the library's.
 *
 * `align` is 1, 2, 4, 8 or 16, and a length is below 2^63. Threads call them at once, since the
 * library has no lock. Where one refuses, the call of the library that wanted memory answers
 * NP_NO_MEMORY, and every handle is as it was. */
#ifndef NUMAPLAN_MEMORY_H
#define NUMAPLAN_MEMORY_H

#include <stdbool.h>
#include <stddef.h>

#ifdef __cplusplus
extern "C" {
#endif

/* Whether there is memory, and where; `at` isn't null, not even where there is none. */
typedef struct np_tried {
    bool is_there;
    void *at;
} np_tried;

/* Gets `length` bytes, which may be 0, at a multiple of `align`; what is in them doesn't count. */
np_tried rattle_alloc(size_t length, size_t align);

/* Makes what is at `at` as long as `length` says. Its first `kept` bytes stay as they were, wherever
 * it then is. Refused, it stays as it was, where it was. */
np_tried rattle_realloc(void *at, size_t kept, size_t length, size_t align);

/* Gives back what the others gave. */
void rattle_dealloc(void *at);

#ifdef __cplusplus
}
#endif

#endif
