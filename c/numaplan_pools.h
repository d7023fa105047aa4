/* numaplan_pools.h: pools of frames, for C99 and C++. numaplan.h includes this file, and its first
 * page applies here too. */
#ifndef NUMAPLAN_POOLS_H
#define NUMAPLAN_POOLS_H

#include "numaplan.h"

#ifdef __cplusplus
extern "C" {
#endif

/* ---- pools of frames, which threads share without a lock: each has a seat of its own. Every frame
 * is free at first, and held by one seat from where that takes it until that gives it back. A call
 * waits for no other. Pools are separate from the frames of any core. */

/* A seat at pools of frames: what one thread takes frames with, and the frames that it holds. */
typedef struct np_seat {
    bool is_open_;
    void *at_;
} np_seat;

/* A frame: its node, and its number among the node's frames, from 0. */
typedef struct np_frame {
    uint8_t node;
    uint16_t number;
} np_frame;

#if defined(__cplusplus) && __cplusplus >= 201103L
static_assert(sizeof(np_seat) == 16 && sizeof(np_frame) == 4, "a seat, a frame");
#elif defined(__STDC_VERSION__) && __STDC_VERSION__ >= 201112L
_Static_assert(sizeof(np_seat) == 16 && sizeof(np_frame) == 4, "a seat, a frame");
#endif

/* Opens pools of the frames of a machine, described as for np_core_open, with a first seat
 * that holds nothing. They need 512 bytes for each node, and as much again for each seat. They
 * are freed with the last of their seats. NP_OPEN; 60 to 63; 50 to 53; NP_NO_MEMORY. */
uint32_t np_seat_open(np_seat *seat, const uint8_t *memory, size_t memory_length,
                      const uint32_t *frames, size_t nodes, const uint8_t *distances,
                      size_t distances_count);

/* Makes a seat at the same pools, which holds nothing, in `other`: for another thread. NP_OPEN
 * where `other` keeps one, NP_CLOSED where `seat` keeps none, NP_NO_MEMORY. */
uint32_t np_seat_split(np_seat *seat, np_seat *other);

/* Takes a free frame of the first of the listed nodes that has one. `nodes` is a list as
 * np_plan_choice writes it; a node that the machine lacks has no frame. `frame` gets the
 * frame, and `rank` the node's place in the list, from 0. NP_ALL_TAKEN where each frame of
 * each listed node was found taken at some time during this call, also for an empty list: the
 * call took none, and `frame` and `rank` are as they were. Needs no memory. NP_CLOSED. */
uint32_t np_seat_take(np_seat *seat, const uint8_t *nodes, size_t count, np_frame *frame,
                      size_t *rank);

/* Gives back a frame that the seat holds. NP_NOT_OWNED where the seat doesn't hold it: it is
 * free, or another seat's, or no frame of the machine. Needs no memory. NP_CLOSED. */
uint32_t np_seat_give(np_seat *seat, uint8_t node, uint16_t number);

/* Exchanges a frame that the seat holds for one of the node `to`, as for a page that moves there:
 * takes a free frame of that node, copied to `frame`, and then gives back the old one. Another
 * thread may take that as soon as it is given back: where contents have to be copied, call
 * np_seat_take, copy, and call np_seat_give. NP_NOT_OWNED where the seat doesn't hold the frame;
 * NP_ALL_TAKEN where each frame of `to` was found taken at some time during this call, also where
 * it has none. Then the seat holds what it held, and `frame` is as it was. A frame of `to` itself
 * is exchanged for another. Needs no memory. NP_CLOSED. */
uint32_t np_seat_migrate(np_seat *seat, uint8_t node, uint16_t number, uint8_t to,
                         np_frame *frame);

/* Gives all frames that `other` holds to `seat`, and closes `other`. Both have to be seats at the
 * same pools, from one np_seat_open by np_seat_split: the caller has to see to that, since no call
 * can check it. Needs no memory. NP_CLOSED where either keeps none, and then both are as before. */
uint32_t np_seat_join(np_seat *seat, np_seat *other);

/* Lets go of the seat. Frames that it still holds stay taken as long as the pools last, so
 * give them back first, or join the seat to another. */
void np_seat_close(np_seat *seat);

#ifdef __cplusplus
}
#endif
#endif
