/* A fault path: four threads ask for the nodes of each page that they touch, while the manager
 * changes the policy and publishes it. A fault takes no lock and no memory, and waits for nobody:
 * it looks whether there is a newer plan, which costs a load where there is none, and asks the one
 * that it has. Nor does the manager wait for a thread that is slow, or sleeps.
 *
 *     cc readers.c $(pkg-config --cflags --libs numaplan) -lpthread
 */
#include <numaplan.h>

#include <pthread.h>
#include <stdio.h>

enum { THREADS = 4, FAULTS = 100000, FIRST = 16, PAGES = 1000, TASK = 1 };

struct worker {
    pthread_t thread;
    np_reader reader;
    long faults;
};

static void *serve(void *argument) {
    struct worker *worker = argument;
    uint64_t version;
    uint8_t nodes[2]; /* a list has no more nodes than the machine */
    size_t count;
    for (uint64_t k = 0; k < FAULTS; k++) {
        if (np_reader_enter(&worker->reader, 0, &version) ||
            np_reader_choice(&worker->reader, TASK, FIRST + k % PAGES, k % 2, nodes, 2, &count))
            break;
        worker->faults++; /* (here a frame of nodes[0] would be taken, or of the next one) */
    }
    return NULL;
}

/* Gives the pages a policy, and publishes that. */
static uint32_t change(np_desk *desk, const char *policy, uint64_t *version) {
    uint32_t code = np_desk_mbind(desk, FIRST * 4096, PAGES * 4096, NP_TEXT(policy));
    return code ? code : np_desk_publish(desk, version);
}

int main(void) {
    static const char *policies[] = {"bind:1", "interleave:0-1", "local"};
    static const uint32_t frames[] = {0, 0};
    static const uint8_t distances[] = {10, 20, 20, 10};
    static const np_limits limits = {65536, 1024, UINT32_MAX};
    static const np_options documents; /* all zeros: the documents' rules */
    static struct worker workers[THREADS];
    np_desk desk = {0};
    uint64_t version = 0;
    long faults = 0;

    if (np_desk_open(&desk, NP_TEXT("0-1"), frames, 2, distances, 4, &limits, THREADS,
                     &documents) ||
        np_desk_map(&desk, FIRST * 4096, PAGES * 4096, FIRST) ||
        change(&desk, policies[0], &version))
        return 1;
    for (int k = 0; k < THREADS; k++)
        if (np_desk_reader(&desk, &workers[k].reader) ||
            pthread_create(&workers[k].thread, NULL, serve, &workers[k]))
            return 1;
    for (int turn = 1; turn < 300; turn++)
        if (change(&desk, policies[turn % 3], &version))
            return 1;
    for (int k = 0; k < THREADS; k++) {
        pthread_join(workers[k].thread, NULL);
        np_reader_close(&workers[k].reader);
        faults += workers[k].faults;
    }
    printf("%ld faults, version %llu\n", faults, (unsigned long long)version);
    np_desk_close(&desk);
    return faults != (long)THREADS * FAULTS;
}
