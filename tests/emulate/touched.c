/* First touches by threads that have policies of their own, between two calls that matter: numaplan-emulate --exact
 * tells which thread made each. It runs on a machine of three nodes or more; the status is 0 where each page is where
 * the policy of the thread that touched it first puts it (set_mempolicy(2)). Not proved. */
#define _GNU_SOURCE
#include <errno.h>
#include <pthread.h>
#include <semaphore.h>
#include <stdio.h>
#include <stdlib.h>
#include <string.h>
#include <sys/mman.h>
#include <sys/syscall.h>
#include <sys/wait.h>
#include <unistd.h>

#define MUST(what)                                                                                 \
    do {                                                                                           \
        if (!(what)) {                                                                             \
            printf("line %d: %s (%s)\n", __LINE__, #what, strerror(errno));                        \
            exit(1);                                                                               \
        }                                                                                          \
    } while (0)

enum { PAGE = 4096, BIND = 2, PAGES = 40 };
static int pipe_ends[2];

static int node_of(void *at) {
    int status = -99;
    MUST(syscall(SYS_move_pages, 0L, 1L, &at, NULL, &status, 0L) == 0);
    return status;
}

static char *some_pages(int pages) {
    char *at = mmap(NULL, (size_t)pages * PAGE, PROT_READ | PROT_WRITE, MAP_PRIVATE | MAP_ANONYMOUS, -1, 0);
    MUST(at != MAP_FAILED);
    return at;
}

/* Two threads, bound to nodes 1 and 2, do what they are told to. */
static struct worker {
    sem_t asked, done;
    void (*job)(volatile char *);
    char *at;
    int node;
} workers[2];

static void *work(void *mine) {
    struct worker *worker = mine;
    unsigned long mask = 1UL << worker->node;
    MUST(syscall(SYS_set_mempolicy, (long)BIND, &mask, 65L) == 0);
    for (;;) {
        sem_post(&worker->done);
        sem_wait(&worker->asked);
        worker->job(worker->at);
    }
    return NULL;
}

static void begin(void) {
    for (int k = 0; k < 2; k++) {
        pthread_t thread;
        workers[k].node = k + 1;
        MUST(sem_init(&workers[k].asked, 0, 0) == 0 && sem_init(&workers[k].done, 0, 0) == 0);
        MUST(pthread_create(&thread, NULL, work, &workers[k]) == 0);
        sem_wait(&workers[k].done);
    }
}

static void by(int which, void (*job)(volatile char *), char *at) {
    workers[which].job = job, workers[which].at = at;
    sem_post(&workers[which].asked);
    sem_wait(&workers[which].done);
}

static void writes(volatile char *at) { *at += 1; }
static void sets(volatile char *at) { *at = 7; }
static void reads(volatile char *at) { (void)*at; }
static void receives(volatile char *at) { MUST(read(pipe_ends[0], (char *)at, 1) == 1); }

/* Each second page is touched by each thread. */
static void in_turns(char *at, int pages, void (*job)(volatile char *)) {
    for (int k = 0; k < pages; k++)
        by(k % 2, job, at + k * PAGE);
    for (int k = 0; k < pages; k++)
        MUST(node_of(at + k * PAGE) == k % 2 + 1);
}

static void areas(void) {
    char *at = some_pages(PAGES), *room = some_pages(2 * PAGES);
    in_turns(at, PAGES, sets);
    MUST(madvise(at, PAGES * PAGE, MADV_DONTNEED) == 0);
    in_turns(at, PAGES, writes);
    MUST(mremap(at, PAGES * PAGE, 2 * PAGES * PAGE, MREMAP_MAYMOVE | MREMAP_FIXED, room) == room);
    in_turns(room + PAGES * PAGE, PAGES, sets);
    in_turns((char *)(((unsigned long)sbrk(10 * PAGE) + PAGE - 1) & -PAGE), 8, sets);
    at = mmap(NULL, PAGES * PAGE, PROT_READ | PROT_WRITE, MAP_SHARED | MAP_ANONYMOUS, -1, 0);
    MUST(at != MAP_FAILED);
    in_turns(at, PAGES, sets);
}

/* A page that is read alone goes where who writes to it first puts it; also where the kernel writes for a thread. */
static void kinds(void) {
    char *at = some_pages(PAGES);
    for (int k = 0; k < PAGES; k++)
        by((k + 1) % 2, reads, at + k * PAGE);
    in_turns(at, PAGES, sets);
    at = some_pages(PAGES);
    MUST(pipe(pipe_ends) == 0);
    for (int k = 0; k < PAGES; k++)
        MUST(write(pipe_ends[1], "x", 1) == 1);
    in_turns(at, PAGES, receives);
}

/* After a fork a page belongs to both; who writes to it gets one of its own, and the other one keeps it. */
static void after_fork(void) {
    char *at = some_pages(PAGES), byte = 0;
    int go[2], status = -1;
    pid_t child;
    in_turns(at, PAGES, sets);
    MUST(pipe(go) == 0 && (child = fork()) >= 0);
    if (child == 0) {
        MUST(read(go[0], &byte, 1) == 1);
        for (int k = 0; k < PAGES; k++) {
            at[k * PAGE] += 1;
            MUST(node_of(at + k * PAGE) == k % 2 + 1 && at[k * PAGE] == 8);
        }
        exit(5);
    }
    for (int k = 0; k < PAGES; k++)
        by((k + 1) % 2, writes, at + k * PAGE);
    for (int k = 0; k < PAGES; k++)
        MUST(node_of(at + k * PAGE) == (k + 1) % 2 + 1);
    MUST(write(go[1], "x", 1) == 1 && waitpid(child, &status, 0) == child && status == 5 << 8);
}

/* Two threads fork at once, again and again: the faults of each child are told. */
static void *forks(void *unused) {
    for (int k = 0; k < 20; k++) {
        int status = -1;
        pid_t child = fork();
        if (child == 0) {
            char *at = some_pages(4);
            at[0] = at[PAGE] = 1;
            _exit(node_of(at) + node_of(at + PAGE));
        }
        MUST(waitpid(child, &status, 0) == child && status == (int)(long)unused << 8);
    }
    return unused;
}

static void many_forks(void) {
    unsigned long mask = 1 << 2;
    pthread_t threads[4];
    MUST(syscall(SYS_set_mempolicy, (long)BIND, &mask, 65L) == 0);
    for (int k = 0; k < 4; k++)
        MUST(pthread_create(&threads[k], NULL, forks, (void *)4) == 0);
    for (int k = 0; k < 4; k++)
        MUST(pthread_join(threads[k], NULL) == 0);
}

/* A thread ends with a lock that tells so to the next (pthread_mutexattr_setrobust(3)). The lock's page is one that a
 * fork left in common, when the kernel writes to it. */
static void *locks(void *lock) {
    int status = -1;
    pid_t child;
    MUST(pthread_mutex_lock(lock) == 0 && (child = fork()) >= 0);
    if (child == 0)
        _exit(6);
    MUST(waitpid(child, &status, 0) == child && status == 6 << 8);
    return NULL;
}

static void robust_locks(void) {
    pthread_mutex_t *lock = (void *)some_pages(1);
    pthread_mutexattr_t kind;
    pthread_t thread;
    MUST(pthread_mutexattr_init(&kind) == 0 && pthread_mutexattr_setrobust(&kind, PTHREAD_MUTEX_ROBUST) == 0);
    MUST(pthread_mutex_init(lock, &kind) == 0 && pthread_create(&thread, NULL, locks, lock) == 0);
    MUST(pthread_join(thread, NULL) == 0 && pthread_mutex_trylock(lock) == EOWNERDEAD);
    MUST(pthread_mutex_consistent(lock) == 0 && pthread_mutex_unlock(lock) == 0);
}

int main(int count, char **words) {
    begin();
    areas();
    kinds();
    after_fork();
    many_forks();
    robust_locks();
    if (count == 1) {
        pid_t child = vfork();
        int status = -1;
        if (child == 0) {
            execl(words[0], words[0], "again", NULL);
            _exit(9);
        }
        MUST(waitpid(child, &status, 0) == child && status == 0);
    }
    return 0;
}
