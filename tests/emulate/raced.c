/* The commonest test of placement: four threads, each on a CPU of its node, touch pages of one area at once, in
 * turns or in parts; between them no call tells when. raced PAGES HOW: each thread touches so many pages. HOW:
 * parts, turns, read (read(2) touches them, in the kernel), both (in parts, and as many pages of another area), or
 * one (all threads touch all pages, and each has to be on one node). The
 * area is named "table" (PR_SET_VMA_ANON_NAME). With `itself` behind that the program asks where its pages are, and the
 * status is 0 where each one is on the node of who touched it first (it runs with --cpus 2, so thread k is on node k).
 * With `exec` it does so once it was started anew, by a thread of its own; with `fork` in a child. Not proved. */
#define _GNU_SOURCE
#include <errno.h>
#include <fcntl.h>
#include <pthread.h>
#include <sched.h>
#include <stdio.h>
#include <stdlib.h>
#include <string.h>
#include <sys/mman.h>
#include <sys/prctl.h>
#include <sys/syscall.h>
#include <sys/wait.h>
#include <unistd.h>

#define MUST(what)                                                                                 \
    do {                                                                                           \
        if (!(what)) {                                                                             \
            printf("line %d: %s (%s)\n", __LINE__, #what, strerror(errno));                        \
            exit(1);                                                                               \
        }                                                                                          \
    } while (0)

enum { PAGE = 4096, THREADS = 4, AREA = 0x53564d41 };
static char *table;
static int pages, in_turns, by_reading, all_touch, has_other;
static char *other;
static pthread_barrier_t all;

static char *page_of(int thread, int k) {
    return table + (size_t)(in_turns ? k * THREADS + thread : thread * pages + k) * PAGE;
}

static void *touches(void *mine) {
    int thread = (int)(long)mine, zeros = open("/dev/zero", O_RDONLY);
    cpu_set_t set;
    CPU_ZERO(&set);
    CPU_SET(2 * thread, &set);
    MUST(sched_setaffinity(0, sizeof set, &set) == 0 && zeros >= 0);
    pthread_barrier_wait(&all);
    for (int k = 0; k < pages * (all_touch ? THREADS : 1); k++)
        if (all_touch)
            table[(size_t)k * PAGE] += 1;
        else if (by_reading)
            MUST(read(zeros, page_of(thread, k), 1) == 1);
        else
            *page_of(thread, k) = 1, has_other && (other[page_of(thread, k) - table] = 1);
    pthread_barrier_wait(&all);
    return NULL;
}

static void *starts_anew(void *words) {
    execv(((char **)words)[0], words);
    return NULL;
}

int main(int count, char **words) {
    pthread_t threads[THREADS];
    if (count == 4 && !strcmp(words[3], "exec")) {
        words[3] = "itself";
        MUST(pthread_create(threads, NULL, starts_anew, words) == 0 && pthread_join(threads[0], NULL) == 0);
        return 1;
    }
    pid_t child = count == 4 && !strcmp(words[3], "fork") ? fork() : 0;
    if (child != 0) {
        int status = -1;
        MUST(waitpid(child, &status, 0) == child);
        return status != 0;
    }
    MUST(count >= 3 && (pages = atoi(words[1])) > 0);
    in_turns = !strcmp(words[2], "turns"), all_touch = !strcmp(words[2], "one");
    has_other = !strcmp(words[2], "both"), by_reading = !strcmp(words[2], "read");
    table = mmap(NULL, (size_t)THREADS * pages * PAGE, PROT_READ | PROT_WRITE, MAP_PRIVATE | MAP_ANONYMOUS, -1, 0);
    other = mmap(NULL, (size_t)THREADS * pages * PAGE, PROT_READ | PROT_WRITE, MAP_PRIVATE | MAP_ANONYMOUS, -1, 0);
    MUST(table != MAP_FAILED && other != MAP_FAILED && pthread_barrier_init(&all, NULL, THREADS) == 0);
    prctl(AREA, 0L, table, (size_t)THREADS * pages * PAGE, "table");
    for (long k = 0; k < THREADS; k++)
        MUST(pthread_create(&threads[k], NULL, touches, (void *)k) == 0);
    for (int k = 0; k < THREADS; k++)
        MUST(pthread_join(threads[k], NULL) == 0);
    if (count == 3)
        return 0;
    int wrong = 0;
    for (int thread = 0; thread < THREADS; thread++)
        for (int k = 0; k < pages; k++) {
            void *at = page_of(thread, k);
            int status = -99;
            MUST(syscall(SYS_move_pages, 0L, 1L, &at, NULL, &status, 0L) == 0);
            wrong += all_touch ? status < 0 || status >= THREADS : status != thread;
        }
    if (wrong)
        printf("%d pages are on other nodes\n", wrong);
    return wrong != 0;
}
