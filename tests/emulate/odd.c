/* Programs that do odd things: odd WHAT, run by numaplan-emulate on a machine of two nodes or more. The status is
 * 0 where all went as the man pages of the calls say. Not proved. */
#define _GNU_SOURCE
#include <errno.h>
#include <fcntl.h>
#include <pthread.h>
#include <sched.h>
#include <signal.h>
#include <stdio.h>
#include <stdlib.h>
#include <string.h>
#include <sys/mman.h>
#include <sys/ptrace.h>
#include <sys/syscall.h>
#include <sys/time.h>
#include <sys/wait.h>
#include <unistd.h>

enum { BIND = 2, INTERLEAVE = 3 };
static char *self;

#define MUST(what)                                                                                 \
    do {                                                                                           \
        if (!(what)) {                                                                             \
            printf("line %d: %s (%s)\n", __LINE__, #what, strerror(errno));                        \
            exit(1);                                                                               \
        }                                                                                          \
    } while (0)

static long bind_to(void *at, long length, unsigned long mask) {
    return syscall(SYS_mbind, at, length, (long)BIND, &mask, 65L, 0L);
}

static int node_of(void *at) {
    int status = -99;
    MUST(syscall(SYS_move_pages, 0L, 1L, &at, NULL, &status, 0L) == 0);
    return status;
}

static char *some_pages(int pages) {
    char *at = mmap(NULL, pages * 4096L, PROT_READ | PROT_WRITE, MAP_PRIVATE | MAP_ANONYMOUS, -1, 0);
    MUST(at != MAP_FAILED);
    return at;
}

static int status_of(pid_t child) {
    int status = -1;
    MUST(waitpid(child, &status, 0) == child);
    return status;
}

/* Whether the task's policy is to bind to node 1, as a program that was run has to find. */
static void after_exec(void) {
    unsigned long mask[16] = {0};
    int mode = -1;
    MUST(syscall(SYS_get_mempolicy, &mode, mask, 1024L, NULL, 0L) == 0);
    MUST(mode == BIND && mask[0] == 2);
}

static void set_task(void) {
    unsigned long mask = 2;
    MUST(syscall(SYS_set_mempolicy, (long)BIND, &mask, 65L) == 0);
}

static void by_vfork(void) {
    set_task();
    for (int k = 0; k < 20; k++) {
        pid_t child = vfork();
        if (child == 0) {
            execl(self, self, "after-exec", NULL);
            _exit(9);
        }
        MUST(status_of(child) == 0);
    }
}

static void *run_again(void *unused) {
    set_task();
    execl(self, self, "after-exec", NULL);
    return unused;
}

static void *sleeps(void *unused) {
    pause();
    return unused;
}

static void exec_from_thread(void) {
    pthread_t one;
    for (int k = 0; k < 8; k++)
        MUST(pthread_create(&one, NULL, sleeps, NULL) == 0);
    MUST(pthread_create(&one, NULL, run_again, NULL) == 0);
    pause();
}

static volatile int ticks;
static void tick(int number) { ticks += number == SIGALRM; }

/* Calls that are answered, followed or redirected, while signals come. */
static void signals(void) {
    struct sigaction action = {.sa_handler = tick, .sa_flags = SA_RESTART};
    struct itimerval often = {{0, 700}, {0, 700}};
    MUST(sigaction(SIGALRM, &action, NULL) == 0 && setitimer(ITIMER_REAL, &often, NULL) == 0);
    for (int k = 0; k < 300; k++) {
        char *at = some_pages(4), text[32] = "";
        int file = open("/sys/devices/system/node/node1/distance", O_RDONLY);
        MUST(file >= 0 && read(file, text, sizeof text - 1) > 0 && strstr(text, "10"));
        close(file);
        MUST(bind_to(at, 4 * 4096, 1 << k % 2) == 0);
        at[4096] = 1;
        MUST(node_of(at + 4096) == k % 2);
        MUST(munmap(at, 4 * 4096) == 0);
    }
    MUST(ticks > 10);
}

static void *maps_and_ends(void *unused) {
    char *at = some_pages(2);
    MUST(bind_to(at, 8192, 2) == 0);
    *at = 1;
    MUST(node_of(at) == 1);
    munmap(at, 8192);
    return unused;
}

static void threads(void) {
    for (int k = 0; k < 60; k++) {
        pthread_t some[8];
        for (int n = 0; n < 8; n++)
            MUST(pthread_create(&some[n], NULL, maps_and_ends, NULL) == 0);
        for (int n = 0; n < 8; n++)
            MUST(pthread_join(some[n], NULL) == 0);
    }
}

static void children(void) {
    for (int k = 0; k < 200; k++) {
        pid_t some[5];
        for (int n = 0; n < 5; n++)
            if ((some[n] = fork()) == 0)
                _exit(n);
        for (int n = 0; n < 5; n++)
            MUST(status_of(some[n]) == n << 8);
    }
}

static void killed(void) {
    pid_t child = fork();
    if (child == 0)
        for (;;)
            close(open("/sys/devices/system/node/online", O_RDONLY));
    usleep(100000);
    MUST(kill(child, SIGKILL) == 0 && status_of(child) == SIGKILL);
    for (int k = 0; k < 40; k++) {
        if ((child = fork()) == 0)
            for (;;)
                maps_and_ends(NULL);
        usleep(3000);
        MUST(kill(child, SIGKILL) == 0 && status_of(child) == SIGKILL);
    }
}

/* More areas than a process mostly has: each second page can be read alone. */
static void areas(void) {
    char *at = some_pages(60000);
    for (int k = 0; k < 60000; k += 2)
        MUST(mprotect(at + k * 4096L, 4096, PROT_READ) == 0);
    MUST(bind_to(at, 60000 * 4096L, 2) == 0);
    for (int k = 1; k < 20; k += 2)
        MUST(bind_to(at + k * 4096L, 4096, 1) == 0);
    at[4096] = at[21 * 4096] = 1;
    MUST(node_of(at + 4096) == 0 && node_of(at + 21 * 4096) == 1);
}

/* Many areas, each bound, touched and given back by itself: a call costs the same however many there are. */
static void apart(void) {
    const int count = 4000;
    char *at = mmap(NULL, count * 8192L, PROT_NONE, MAP_PRIVATE | MAP_ANONYMOUS | MAP_NORESERVE, -1, 0);
    MUST(at != MAP_FAILED && munmap(at, count * 8192L) == 0);
    for (int k = 0; k < count; k++) {
        char *one = at + k * 8192L;
        MUST(mmap(one, 4096, PROT_READ | PROT_WRITE, MAP_PRIVATE | MAP_ANONYMOUS | MAP_FIXED_NOREPLACE, -1, 0) == one);
        MUST(bind_to(one, 4096, 1 << k % 2) == 0);
        *one = 1;
    }
    for (int k = 0; k < count; k += 99)
        MUST(node_of(at + k * 8192L) == k % 2);
    for (int k = 0; k < count; k++)
        MUST(munmap(at + k * 8192L, 4096) == 0);
}

/* A page that was touched is there also while nobody may touch it. */
static void closed(void) {
    char *at = some_pages(1);
    MUST(bind_to(at, 4096, 2) == 0);
    *at = 1;
    MUST(mprotect(at, 4096, PROT_NONE) == 0);
    MUST(bind_to(at, 4096, 1) == 0 && node_of(at) == 1);
    MUST(mprotect(at, 4096, PROT_READ | PROT_WRITE) == 0);
    MUST(*at == 1 && node_of(at) == 1);
}

/* mremap(2) keeps a policy as it was asked for, with its home. */
static void moved(void) {
    enum { PREFER_STATIC = 0x8001, MANY_STATIC = 0x8005 };
    unsigned long mask = 3, got[16];
    for (int node = 0; node < 2; node++)
        for (int mode = PREFER_STATIC; mode <= MANY_STATIC; mode += 4) {
            char *at = some_pages(1), *room = some_pages(1);
            int told = -1;
            MUST(syscall(SYS_mbind, at, 4096L, (long)mode, &mask, 65L, 0L) == 0);
            MUST(mode == PREFER_STATIC || syscall(450L, at, 4096L, (long)node, 0L) == 0);
            MUST(mremap(at, 4096, 4096, MREMAP_MAYMOVE | MREMAP_FIXED, room) == room);
            MUST(syscall(SYS_get_mempolicy, &told, got, 1024L, room, 2L) == 0);
            MUST(told == mode && got[0] == 3);
            *room = 1;
            MUST(mode == PREFER_STATIC || node_of(room) == node);
        }
}

/* Private memory that was read alone isn't placed: move_pages(2) answers EFAULT, and a write goes by the policy. (On
 * Linux before 6.7 it counts as touched.) */
static void only_read(void) {
    volatile char *at = some_pages(2);
    char *all = (char *)at;
    int node = -1;
    MUST(bind_to(all, 8192, 2) == 0 && at[0] == 0);
    MUST(node_of(all) == -EFAULT || node_of(all) == 1);
    MUST(syscall(SYS_get_mempolicy, &node, NULL, 0L, all + 4096, 3L) == 0 && (node == 0 || node == 1));
    at[0] = at[4096] = 1;
    MUST(node_of(all) == 1 && node_of(all + 4096) == 1);
}

/* Memory that processes share is where the first that touches it puts it, and moves for all. */
static void shared(void) {
    int file = memfd_create("shared", 0), node = 0;
    char *at;
    pid_t child;
    MUST(file >= 0 && ftruncate(file, 8192) == 0);
    if ((child = fork()) == 0) {
        at = mmap(NULL, 8192, PROT_READ | PROT_WRITE, MAP_SHARED, file, 0);
        MUST(at != MAP_FAILED && bind_to(at, 8192, 2) == 0);
        at[0] = 1;
        MUST(node_of(at) == 1 && munmap(at, 8192) == 0);
        exit(3);
    }
    MUST(status_of(child) == 3 << 8);
    at = mmap(NULL, 8192, PROT_READ | PROT_WRITE, MAP_SHARED, file, 0);
    MUST(at != MAP_FAILED && bind_to(at, 8192, 1) == 0 && at[0] == 1);
    at[4096] = 1;
    MUST(node_of(at) == 1 && node_of(at + 4096) == 0);
    MUST(syscall(SYS_move_pages, 0L, 1L, &at, &node, &node, 2L) == 0 && node == 0);
    if ((child = fork()) == 0) {
        char *again = mmap(NULL, 8192, PROT_READ, MAP_SHARED, file, 0);
        MUST(again != MAP_FAILED && again != at && again[0] + at[4096] == 2);
        exit(node_of(again) * 10 + node_of(at + 4096));
    }
    MUST(status_of(child) == 0);
}

static int mode_at(void *at, unsigned long *mask) {
    int mode = -1;
    MUST(syscall(SYS_get_mempolicy, &mode, mask, 1024L, at, 2L) == 0);
    return mode;
}

/* Shared memory keeps its policies for all processes, also those that have mapped it before ("Shared Policy" of
 * NUMA Memory Policy). */
static void for_all(void) {
    int file = memfd_create("for-all", 0), to[2], from[2];
    unsigned long mask[16];
    char byte = 0, *at;
    pid_t child;
    MUST(file >= 0 && ftruncate(file, 16384) == 0 && pipe(to) == 0 && pipe(from) == 0);
    if ((child = fork()) == 0) {
        at = mmap(NULL, 16384, PROT_READ | PROT_WRITE, MAP_SHARED, file, 0);
        MUST(at != MAP_FAILED && bind_to(at + 12288, 4096, 1) == 0 && write(from[1], "x", 1) == 1);
        MUST(read(to[0], &byte, 1) == 1 && mode_at(at, mask) == BIND && mask[0] == 2);
        at[0] = at[4096] = 1;
        MUST(node_of(at) == 1 && node_of(at + 4096) == 1 && mode_at(at + 8192, mask) == 0);
        exit(3);
    }
    MUST(read(from[0], &byte, 1) == 1);
    at = mmap(NULL, 8192, PROT_READ | PROT_WRITE, MAP_SHARED, file, 0);
    MUST(at != MAP_FAILED && bind_to(at, 8192, 2) == 0 && munmap(at, 8192) == 0);
    MUST(write(to[1], "x", 1) == 1 && status_of(child) == 3 << 8);
    at = mmap(NULL, 8192, PROT_READ | PROT_WRITE, MAP_SHARED, file, 8192);
    MUST(at != MAP_FAILED && mode_at(at, mask) == 0 && mode_at(at + 4096, mask) == BIND && mask[0] == 1);
    at[4096] = 1;
    MUST(node_of(at + 4096) == 0);
}

static int shares_memory(void *at) {
    *(char *)at = 1;
    return 5;
}

/* A process that shares the memory of its parent, and one that wants to be traced. */
static void processes(void) {
    char *stack = some_pages(16), *at = some_pages(1);
    pid_t child;
    MUST(bind_to(at, 4096, 2) == 0);
    child = clone(shares_memory, stack + 16 * 4096, CLONE_VM | SIGCHLD, at);
    MUST(status_of(child) == 5 << 8 && *at == 1 && node_of(at) == 1);
    if ((child = fork()) == 0)
        _exit(ptrace(PTRACE_TRACEME, 0, NULL, NULL) == -1 ? 7 : 8);
    MUST(status_of(child) == 7 << 8);
}

/* After a fork both have pages in common. Who writes to one gets a new page, by its own policy, and the other keeps the
 * old one, also when it writes later. */
static void copied(void) {
    char *at = some_pages(10), byte = 0;
    int go[2];
    unsigned long mask = 2;
    pid_t child;
    MUST(syscall(SYS_set_mempolicy, (long)BIND, &mask, 65L) == 0 && pipe(go) == 0);
    for (int k = 0; k < 10; k++)
        at[k * 4096] = 1;
    if ((child = fork()) == 0) {
        mask = 8;
        MUST(syscall(SYS_set_mempolicy, (long)BIND, &mask, 65L) == 0 && read(go[0], &byte, 1) == 1);
        for (int k = 0; k < 10; k++)
            at[k * 4096] = 2;
        for (int k = 0; k < 10; k++)
            MUST(node_of(at + k * 4096) == (k < 5 ? 1 : 3));
        exit(4);
    }
    mask = 4;
    MUST(syscall(SYS_set_mempolicy, (long)BIND, &mask, 65L) == 0);
    for (int k = 0; k < 5; k++)
        at[k * 4096] = 3;
    MUST(write(go[1], "x", 1) == 1 && status_of(child) == 4 << 8);
    for (int k = 0; k < 10; k++)
        MUST(node_of(at + k * 4096) == (k < 5 ? 2 : 1));
}

/* Rights that can't be had: setuid programs run without. */
static void rights(void) {
    char *words[] = {"su", "-c", "true", "nobody", NULL};
    pid_t child = fork();
    if (child == 0) {
        MUST(setgid(65534) == 0 && setuid(65534) == 0);
        close(0), close(1), close(2);
        execvp(words[0], words);
        _exit(127);
    }
    MUST(WIFEXITED(status_of(child)));
}

int main(int count, char **words) {
    static const struct {
        const char *name;
        void (*run)(void);
    } rows[] = {{"after-exec", after_exec}, {"vfork", by_vfork}, {"exec-from-thread", exec_from_thread},
                {"signals", signals}, {"threads", threads}, {"children", children}, {"killed", killed},
                {"areas", areas}, {"apart", apart}, {"closed", closed}, {"moved", moved}, {"read", only_read},
                {"processes", processes}, {"rights", rights}, {"shared", shared}, {"for-all", for_all},
                {"copied", copied}};
    self = words[0];
    for (size_t k = 0; k < sizeof rows / sizeof rows[0]; k++)
        if (count == 2 && !strcmp(rows[k].name, words[1])) {
            rows[k].run();
            return 0;
        }
    return 2;
}
