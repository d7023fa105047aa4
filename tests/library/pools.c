/* Pools of frames from C: which frames can be taken, by counting them by hand; refused calls and closed
 * handles; and four threads that share the frames of a node. Prints what is wrong; not proved. */
#include "numaplan.h"
#include "want.h"

#include <pthread.h>
#include <string.h>

enum { THREADS = 4, MOST = 4096 };

#define TEXT NP_TEXT

static const uint8_t distances[4] = {10, 20, 20, 10};

static uint32_t open_seat(np_seat *seat, uint32_t first, uint32_t second) {
    const uint32_t frames[2] = {first, second};
    return np_seat_open(seat, TEXT("0-1"), frames, 2, distances, 4);
}

/* A handle that keeps nothing answers so, and stays as it was; so does what it was to write. */
static void closed(void) {
    np_seat seat = {0}, other = {0}, zero = {0};
    const uint8_t nodes[2] = {1, 0};
    np_frame frame = {7, 8};
    size_t rank = 9;
    np_seat_close(&seat);
    WANT(np_seat_take(&seat, nodes, 2, &frame, &rank), NP_CLOSED);
    WANT(frame.node, 7);
    WANT(frame.number, 8);
    WANT(rank, 9);
    WANT(np_seat_give(&seat, 0, 0), NP_CLOSED);
    WANT(np_seat_split(&seat, &other), NP_CLOSED);
    WANT(np_seat_join(&seat, &other), NP_CLOSED);
    WANT(memcmp(&seat, &zero, sizeof seat) == 0, 1);
    WANT(memcmp(&other, &zero, sizeof other) == 0, 1);
}

/* Descriptions that are refused, as np_core_open refuses them. */
static void machines(void) {
    np_seat seat = {0};
    const uint32_t frames[2] = {3, 5}, none[2] = {3, 0};
    const uint8_t bent[4] = {11, 20, 20, 10};
    WANT(np_seat_open(&seat, TEXT("1-0"), frames, 2, distances, 4), NP_LIST_BACKWARDS);
    WANT(np_seat_open(&seat, TEXT("0-1"), frames, 2, distances, 3), NP_BAD_NODE_COUNT);
    WANT(np_seat_open(&seat, TEXT("0-2"), frames, 2, distances, 4), NP_NO_MEMORY_NODE);
    WANT(np_seat_open(&seat, TEXT("0-1"), frames, 2, bent, 4), NP_BAD_DISTANCE);
    WANT(np_seat_open(&seat, TEXT("0"), frames, 2, distances, 4), NP_TOO_MANY_FRAMES);
    WANT(open_seat(&seat, 4097, 5), NP_TOO_MANY_FRAMES);
    WANT(np_seat_give(&seat, 0, 0), NP_CLOSED);
    WANT(np_seat_open(&seat, TEXT("0"), none, 2, distances, 4), NP_OK);
    WANT(open_seat(&seat, 3, 5), NP_OPEN);
    np_seat_close(&seat);
}

/* 3 frames of node 0 and 5 of node 1: of eight takes along "1, 0" the first five are on node 1, at rank
 * 0, the other three on node 0, at rank 1; no frame twice; the ninth finds none. */
static void takes(void) {
    np_seat seat = {0};
    const uint8_t nodes[2] = {1, 0}, absent[2] = {2, 255};
    const uint32_t counts[2] = {3, 5};
    int taken[2][5] = {{0}};
    np_frame frame = {9, 9};
    size_t rank = 9;
    WANT(open_seat(&seat, counts[0], counts[1]), NP_OK);
    WANT(np_seat_take(&seat, nodes, 0, &frame, &rank), NP_ALL_TAKEN);
    WANT(np_seat_take(&seat, absent, 2, &frame, &rank), NP_ALL_TAKEN);
    WANT(frame.node, 9);
    for (int turn = 0; turn < 8; turn++) {
        WANT(np_seat_take(&seat, nodes, 2, &frame, &rank), NP_OK);
        WANT(rank, turn < 5 ? 0 : 1);
        WANT(frame.node, turn < 5 ? 1 : 0);
        WANT(frame.number < counts[frame.node], 1);
        WANT(taken[frame.node][frame.number]++, 0);
    }
    frame.node = 9;
    WANT(np_seat_take(&seat, nodes, 2, &frame, &rank), NP_ALL_TAKEN);
    WANT(frame.node, 9);
    WANT(np_seat_give(&seat, 1, 3), NP_OK);
    WANT(np_seat_give(&seat, 1, 3), NP_NOT_OWNED);
    WANT(np_seat_give(&seat, 0, 3), NP_NOT_OWNED);
    WANT(np_seat_give(&seat, 1, 4096), NP_NOT_OWNED);
    WANT(np_seat_give(&seat, 2, 0), NP_NOT_OWNED);
    WANT(np_seat_take(&seat, nodes + 1, 1, &frame, &rank), NP_ALL_TAKEN);
    WANT(np_seat_take(&seat, nodes, 2, &frame, &rank), NP_OK);
    WANT(frame.node, 1);
    WANT(frame.number, 3);
    WANT(rank, 0);
    np_seat_close(&seat);
    WANT(np_seat_take(&seat, nodes, 2, &frame, &rank), NP_CLOSED);
}

/* 2 frames of node 0 and 2 of node 1: a frame moves to node 1, where then one is free, and is given back
 * on node 0, so that it can be taken there; a node that is full, has no frames or isn't there keeps the
 * frame where it is, as does one that the seat doesn't hold. */
static void migrates(void) {
    np_seat seat = {0}, other = {0};
    const uint8_t nodes[2] = {0, 1};
    np_frame first = {9, 9}, second = {9, 9}, frame = {9, 9};
    size_t rank = 9;
    WANT(np_seat_migrate(&seat, 0, 0, 1, &frame), NP_CLOSED);
    WANT(open_seat(&seat, 2, 2), NP_OK);
    WANT(np_seat_split(&seat, &other), NP_OK);
    WANT(np_seat_migrate(&seat, 0, 0, 1, &frame), NP_NOT_OWNED);
    WANT(np_seat_take(&seat, nodes, 1, &first, &rank), NP_OK);
    WANT(np_seat_take(&other, nodes, 1, &second, &rank), NP_OK);
    WANT(np_seat_migrate(&seat, second.node, second.number, 1, &frame), NP_NOT_OWNED);
    WANT(np_seat_migrate(&seat, first.node, first.number, 0, &frame), NP_ALL_TAKEN);
    WANT(np_seat_migrate(&seat, first.node, first.number, 2, &frame), NP_ALL_TAKEN);
    WANT(np_seat_migrate(&seat, first.node, first.number, 255, &frame), NP_ALL_TAKEN);
    WANT(frame.node, 9);
    WANT(np_seat_migrate(&seat, first.node, first.number, 1, &frame), NP_OK);
    WANT(frame.node, 1);
    WANT(frame.number < 2, 1);
    WANT(np_seat_give(&seat, first.node, first.number), NP_NOT_OWNED);
    WANT(np_seat_take(&other, nodes, 2, &first, &rank), NP_OK);
    WANT(first.node, 0);
    WANT(first.number != second.number, 1);
    second = frame;
    WANT(np_seat_migrate(&seat, second.node, second.number, 1, &frame), NP_OK);
    WANT(frame.node, 1);
    WANT(frame.number != second.number, 1);
    WANT(np_seat_give(&seat, second.node, second.number), NP_NOT_OWNED);
    WANT(np_seat_give(&seat, frame.node, frame.number), NP_OK);
    np_seat_close(&seat);
    np_seat_close(&other);
}

/* As many frames as end before, at and behind a word of 64, and as many as a node may have: one thread
 * takes them in rising order, and again each that it gives back while no other is free. */
static void borders(void) {
    static const uint32_t counts[] = {1, 63, 64, 65, 130, 4096};
    static const uint16_t numbers[] = {0, 62, 63, 64, 127, 128, 129, 4095};
    const uint8_t nodes[2] = {0, 1};
    for (size_t c = 0; c < sizeof counts / sizeof *counts; c++) {
        np_seat seat = {0};
        np_frame frame = {9, 9};
        size_t rank = 9;
        WANT(open_seat(&seat, counts[c], 1), NP_OK);
        for (uint32_t k = 0; k < counts[c]; k++) {
            WANT(np_seat_take(&seat, nodes, 1, &frame, &rank), NP_OK);
            WANT(frame.node, 0);
            WANT(frame.number, k);
        }
        WANT(np_seat_take(&seat, nodes, 1, &frame, &rank), NP_ALL_TAKEN);
        WANT(np_seat_take(&seat, nodes, 2, &frame, &rank), NP_OK);
        WANT(rank, 1);
        for (size_t k = 0; k < sizeof numbers / sizeof *numbers; k++) {
            bool is_there = numbers[k] < counts[c];
            WANT(np_seat_give(&seat, 0, numbers[k]), is_there ? NP_OK : NP_NOT_OWNED);
            WANT(np_seat_take(&seat, nodes, 2, &frame, &rank), is_there ? NP_OK : NP_ALL_TAKEN);
            WANT(is_there && frame.number != numbers[k], false);
        }
        np_seat_close(&seat);
    }
}

/* Two seats at one frame: only the one that took it gives it back, until they are joined; what a closed
 * seat holds stays taken. */
static void seats(void) {
    np_seat first = {0}, second = {0}, third = {0};
    const uint8_t nodes[1] = {0};
    np_frame frame = {9, 9};
    size_t rank = 9;
    WANT(open_seat(&first, 1, 0), NP_OK);
    WANT(np_seat_split(&first, &second), NP_OK);
    WANT(np_seat_split(&first, &second), NP_OPEN);
    WANT(np_seat_split(&third, &second), NP_OPEN);
    WANT(np_seat_take(&second, nodes, 1, &frame, &rank), NP_OK);
    WANT(frame.number, 0);
    WANT(np_seat_take(&first, nodes, 1, &frame, &rank), NP_ALL_TAKEN);
    WANT(np_seat_give(&first, 0, 0), NP_NOT_OWNED);
    WANT(np_seat_join(&first, &third), NP_CLOSED);
    WANT(np_seat_join(&third, &second), NP_CLOSED);
    WANT(np_seat_join(&first, &second), NP_OK);
    WANT(np_seat_give(&second, 0, 0), NP_CLOSED);
    WANT(np_seat_give(&first, 0, 0), NP_OK);
    WANT(np_seat_split(&first, &third), NP_OK);
    WANT(np_seat_take(&third, nodes, 1, &frame, &rank), NP_OK);
    np_seat_close(&third);
    WANT(np_seat_take(&first, nodes, 1, &frame, &rank), NP_ALL_TAKEN);
    np_seat_close(&first);
}

struct taker {
    pthread_t thread;
    np_seat seat;
    int count;
    uint16_t frames[MOST];
};

/* Takes what it finds, and gives each third frame back once, until no frame is left. */
static void *take_all(void *argument) {
    struct taker *taker = argument;
    const uint8_t nodes[1] = {1};
    np_frame frame;
    size_t rank;
    int turn = 0;
    while (np_seat_take(&taker->seat, nodes, 1, &frame, &rank) == NP_OK)
        if (turn++ % 3 == 0 && turn < MOST) {
            if (np_seat_give(&taker->seat, frame.node, frame.number))
                return taker;
        } else
            taker->frames[taker->count++] = frame.number;
    return NULL;
}

/* Four threads take all 4,096 frames of a node, none of them twice. (Which finds that none is left may
 * end before another has given its last one back: what is then left is taken at the end.) */
static void threads(void) {
    static struct taker takers[THREADS];
    static int taken[MOST];
    int count = 0;
    WANT(open_seat(&takers[0].seat, 0, MOST), NP_OK);
    for (int k = 1; k < THREADS; k++)
        WANT(np_seat_split(&takers[0].seat, &takers[k].seat), NP_OK);
    for (int k = 0; k < THREADS; k++)
        WANT(pthread_create(&takers[k].thread, NULL, take_all, &takers[k]), 0);
    for (int k = 0; k < THREADS; k++) {
        void *failed;
        WANT(pthread_join(takers[k].thread, &failed), 0);
        WANT(failed == NULL, 1);
    }
    WANT(take_all(&takers[0]) == NULL, 1);
    for (int k = 0; k < THREADS; k++) {
        count += takers[k].count;
        for (int j = 0; j < takers[k].count; j++)
            WANT(taken[takers[k].frames[j]]++, 0);
        if (k > 0)
            WANT(np_seat_join(&takers[0].seat, &takers[k].seat), NP_OK);
    }
    WANT(count, MOST);
    for (int j = 0; j < MOST; j++)
        WANT(np_seat_give(&takers[0].seat, 1, j), NP_OK);
    np_seat_close(&takers[0].seat);
}

int main(void) {
    closed();
    machines();
    takes();
    migrates();
    borders();
    seats();
    threads();
    return wrong;
}
