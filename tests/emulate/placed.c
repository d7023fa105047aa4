/* Where pages go, and what calls answer, on the machine of four.numaplan: run by numaplan-emulate. The
 * values are worked out by hand from set_mempolicy(2), mbind(2), get_mempolicy(2), move_pages(2),
 * migrate_pages(2), set_mempolicy_home_node(2) and "NUMA Memory Policy"; where a kernel does otherwise than these say
 * (docs/KERNEL.md has a table), as a kernel does. Page k of BASE has the index 2^18 + k: 2^18 is 1 modulo 3.
 * Node 0 is 12 from node 2, and 20 from 1 and 3. Not proved. */
#define _GNU_SOURCE
#include <errno.h>
#include <pthread.h>
#include <sched.h>
#include <stdio.h>
#include <string.h>
#include <sys/mman.h>
#include <sys/syscall.h>
#include <sys/wait.h>
#include <unistd.h>

enum { DEFAULT, PREFER, BIND, INTERLEAVE, LOCAL, MANY, WEIGHTED };
enum { STATIC = 0x8000, RELATIVE = 0x4000, STRICT = 1, MOVE = 2 };

static char *const BASE = (char *)0x40000000;
static int wrong;

#define WANT(got, wanted)                                                                          \
    do {                                                                                           \
        long got_ = (got), wanted_ = (wanted);                                                     \
        if (got_ != wanted_) {                                                                     \
            printf("line %d: %s is %ld, not %ld\n", __LINE__, #got, got_, wanted_);                \
            wrong = 1;                                                                             \
        }                                                                                          \
    } while (0)

#define NODES(pages, wanted)                                                                       \
    do {                                                                                           \
        const char *got_ = nodes(pages);                                                           \
        if (strcmp(got_, wanted)) {                                                                \
            printf("line %d: nodes '%s', not '%s'\n", __LINE__, got_, wanted);                     \
            wrong = 1;                                                                             \
        }                                                                                          \
    } while (0)

/* 0, or the error number below 0. */
static long told(long answer) { return answer < 0 ? -errno : answer; }

static long bind_pages(int first, int pages, int mode, unsigned long mask, int flags) {
    return told(syscall(SYS_mbind, BASE + first * 4096, pages * 4096L, (long)mode, mask ? &mask : NULL, 65L, (long)flags));
}

static long set_task(int mode, unsigned long mask) {
    return told(syscall(SYS_set_mempolicy, (long)mode, mask ? &mask : NULL, 65L));
}

/* Six fresh pages. */
static void begin(void) {
    void *got = mmap(BASE, 6 * 4096, PROT_READ | PROT_WRITE, MAP_PRIVATE | MAP_ANONYMOUS | MAP_FIXED, -1, 0);
    WANT(got == BASE, 1);
}

static void touch(int first, int pages) {
    for (int k = first; k < first + pages; k++)
        *(volatile char *)(BASE + k * 4096) = 1;
}

/* The nodes of the first pages, or the error numbers, as move_pages tells them. */
static const char *nodes(int pages) {
    static char text[200];
    void *at[16];
    int status[16];
    for (int k = 0; k < pages; k++)
        at[k] = BASE + k * 4096, status[k] = 99;
    WANT(told(syscall(SYS_move_pages, 0L, (long)pages, at, NULL, status, 0L)), 0);
    text[0] = 0;
    for (int k = 0; k < pages; k++)
        sprintf(text + strlen(text), k ? " %d" : "%d", status[k]);
    return text;
}

static int policy(unsigned long *mask, void *at, int flags) {
    int mode = -1;
    unsigned long got[16] = {0};
    long answer = told(syscall(SYS_get_mempolicy, &mode, got, 1024L, at, (long)flags));
    *mask = got[0];
    return answer < 0 ? (int)answer : mode;
}

/* Goes to a CPU of a node; whether it has one. */
static int go_to(int node) {
    char path[99];
    int cpu = -1;
    unsigned now = 9999;
    cpu_set_t set;
    sprintf(path, "/sys/devices/system/node/node%d/cpulist", node);
    FILE *file = fopen(path, "r");
    if (!file || fscanf(file, "%d", &cpu) != 1)
        cpu = -1;
    if (file)
        fclose(file);
    if (cpu < 0)
        return 0;
    CPU_ZERO(&set);
    CPU_SET(cpu, &set);
    WANT(sched_setaffinity(0, sizeof set, &set), 0);
    WANT(syscall(SYS_getcpu, NULL, &now, NULL), 0);
    WANT(now, node);
    return 1;
}

static void modes(void) {
    static const struct { int mode; unsigned long mask; const char *wanted; } rows[] = {
        {DEFAULT, 0, "0 0 0 0 0 0"},
        {LOCAL, 0, "0 0 0 0 0 0"},
        {PREFER, 0, "0 0 0 0 0 0"},
        {PREFER, 0x6, "1 1 1 1 1 1"},     /* the lowest */
        {BIND, 0x6, "2 2 2 2 2 2"},       /* the nearest */
        {MANY, 0x6, "2 2 2 2 2 2"},
        {INTERLEAVE, 0xb, "1 3 0 1 3 0"}, /* of 0, 1, 3 by index */
        {WEIGHTED, 0x3, "0 1 0 0 1 0"},   /* of 0, 0, 1 by index: node 0 has the weight 2 */
        {BIND | STATIC, 0xa, "1 1 1 1 1 1"},
        {INTERLEAVE | RELATIVE, 0x60, "1 2 1 2 1 2"}, /* places 5 and 6 of four are 1 and 2 */
    };
    for (size_t k = 0; k < sizeof rows / sizeof rows[0]; k++) {
        begin();
        WANT(bind_pages(0, 6, rows[k].mode, rows[k].mask, 0), 0);
        touch(0, 6);
        NODES(6, rows[k].wanted);
        begin();
        WANT(set_task(rows[k].mode, rows[k].mask), 0);
        touch(0, 6);
        NODES(6, rows[k].wanted);
        WANT(set_task(DEFAULT, 0), 0);
    }
}

static void scopes(void) {
    unsigned long mask;
    begin();
    WANT(set_task(INTERLEAVE, 0xc), 0);
    WANT(bind_pages(2, 2, BIND, 0x2, 0), 0);
    touch(0, 6);
    NODES(6, "2 3 1 1 2 3");
    WANT(policy(&mask, NULL, 0), INTERLEAVE);
    WANT(mask, 0xc);
    WANT(policy(&mask, BASE + 2 * 4096, 2), BIND);
    WANT(mask, 0x2);
    WANT(policy(&mask, BASE + 2 * 4096, 3), 1); /* the node of the page */
    WANT(policy(&mask, BASE, 2), DEFAULT);      /* no policy of its own */
    WANT(policy(&mask, NULL, 4), 0);
    WANT(mask, 0xf);
    begin();
    WANT(bind_pages(0, 6, BIND | STATIC, 0xe, 0), 0);
    WANT(policy(&mask, BASE, 2), BIND | STATIC);
    WANT(syscall(SYS_set_mempolicy_home_node, BASE, 2 * 4096L, 3L, 0L), 0);
    touch(0, 6);
    NODES(6, "3 3 2 2 2 2");
    WANT(set_task(DEFAULT, 0), 0);
}

static void moves(void) {
    unsigned long from = 0x2, to = 0x8;
    void *at[3] = {BASE, BASE + 5 * 4096, BASE + 6 * 4096};
    int targets[3] = {3, 3, 3}, status[3];
    begin();
    munmap(BASE + 6 * 4096, 6 * 4096);
    WANT(bind_pages(0, 6, BIND, 0x2, 0), 0);
    touch(0, 2);
    WANT(bind_pages(0, 6, BIND, 0x4, 0), 0); /* (what is placed stays) */
    touch(2, 2);
    NODES(7, "1 1 2 2 -2 -2 -14");
    WANT(bind_pages(0, 6, BIND, 0x4, STRICT), -EIO);
    WANT(bind_pages(0, 1, BIND, 0x4, MOVE), 0);
    NODES(4, "2 1 2 2");
    WANT(told(syscall(SYS_migrate_pages, 0L, 65L, &from, &to)), 0);
    NODES(4, "2 3 2 2");
    WANT(told(syscall(SYS_move_pages, 0L, 3L, at, targets, status, (long)MOVE)), 0);
    WANT(status[0], 3);
    WANT(status[1], -ENOENT);
    WANT(status[2], -EFAULT);
    targets[0] = 4;
    WANT(told(syscall(SYS_move_pages, 0L, 1L, at, targets, status, (long)MOVE)), -ENODEV);
    WANT(madvise(BASE, 2 * 4096, MADV_DONTNEED), 0);
    WANT(bind_pages(0, 2, BIND, 0x2, 0), 0);
    touch(0, 2);
    NODES(4, "1 1 2 2");
    WANT(mremap(BASE, 4 * 4096, 5 * 4096, MREMAP_MAYMOVE | MREMAP_FIXED, BASE + 8 * 4096) == BASE + 8 * 4096, 1);
    touch(12, 1);
    NODES(13, "-14 -14 -14 -14 -2 -2 -14 -14 1 1 2 2 2");
    munmap(BASE + 8 * 4096, 5 * 4096);
    begin();
    touch(0, 6);
    NODES(6, "0 0 0 0 0 0"); /* (a policy goes with its pages) */
}

static void refusals(void) {
    unsigned long mask;
    begin();
    munmap(BASE + 6 * 4096, 4096);
    WANT(bind_pages(0, 6, BIND, 0, 0), -EINVAL);
    WANT(bind_pages(0, 6, BIND, 0x10, 0), -EINVAL);
    WANT(bind_pages(0, 6, DEFAULT, 0x1, 0), -EINVAL);
    WANT(bind_pages(0, 6, LOCAL, 0x1, 0), -EINVAL);
    WANT(bind_pages(0, 6, BIND | STATIC | RELATIVE, 0x1, 0), -EINVAL);
    WANT(bind_pages(0, 6, 99, 0x1, 0), -EINVAL);
    WANT(bind_pages(0, 6, BIND, 0x1, 8), -EINVAL);
    WANT(bind_pages(0, 7, BIND, 0x1, 0), -EFAULT);
    WANT(bind_pages(0, 7, BIND, 0x10, 0), -EINVAL); /* (a kernel looks at the nodes before the hole, */
    WANT(bind_pages(0, 7, DEFAULT, 0, 0), 0);       /* and passes it over for DEFAULT) */
    WANT(told(syscall(SYS_mbind, BASE + 1, 4096L, (long)LOCAL, NULL, 0L, 0L)), -EINVAL);
    WANT(told(syscall(SYS_mbind, BASE, 4096L, (long)BIND, (void *)8, 65L, 0L)), -EFAULT);
    WANT(told(syscall(SYS_set_mempolicy_home_node, BASE, 4096L, 9L, 0L)), -EINVAL);
    WANT(told(syscall(SYS_set_mempolicy_home_node, BASE, 4096L, 1L, 0L)), -ENOENT); /* (no policy there) */
    WANT(set_task(INTERLEAVE, 0), -EINVAL);
    WANT(set_task(INTERLEAVE, 0x30), -EINVAL);
    WANT(policy(&mask, BASE, 4 | 2), -EINVAL);
    WANT(policy(&mask, BASE, 0), -EINVAL);
    WANT(policy(&mask, BASE + 6 * 4096, 2), -EFAULT);
    WANT(policy(&mask, NULL, 8), -EINVAL);
    WANT(told(syscall(SYS_get_mempolicy, NULL, &mask, 2L, NULL, 0L)), -EINVAL);
    touch(0, 6);
    NODES(6, "0 0 0 0 0 0");
}

static void *thread(void *unused) {
    unsigned long mask;
    WANT(policy(&mask, NULL, 0), BIND); /* (that of the thread that made this one) */
    WANT(set_task(BIND, 0x8), 0);
    touch(0, 2);
    return unused;
}

static void tasks(void) {
    unsigned long mask;
    pthread_t other;
    int status = -1;
    begin();
    WANT(set_task(BIND, 0x2), 0);
    WANT(pthread_create(&other, NULL, thread, NULL), 0);
    WANT(pthread_join(other, NULL), 0);
    WANT(policy(&mask, NULL, 0), BIND);
    WANT(mask, 0x2);
    touch(2, 1);
    fflush(stdout);
    if (fork() == 0) {
        wrong = 0;
        touch(3, 1);
        WANT(set_task(PREFER, 0x4), 0);
        touch(4, 1);
        NODES(6, "3 3 1 1 2 -2");
        _exit(wrong);
    }
    wait(&status);
    WANT(status, 0);
    NODES(6, "3 3 1 -2 -2 -2");
    touch(3, 3);
    NODES(6, "3 3 1 1 1 1");
}

int main(int count, char **words) {
    unsigned long mask;
    if (count > 1) {
        WANT(policy(&mask, NULL, 0), INTERLEAVE); /* (kept over exec) */
        WANT(mask, 0xc);
        return wrong;
    }
    WANT(go_to(0), 1);
    modes();
    scopes();
    moves();
    refusals();
    tasks();
    WANT(set_task(DEFAULT, 0), 0);
    begin();
    touch(0, 1);
    if (go_to(2)) {
        touch(1, 1);
        NODES(2, "0 2");
    }
    fflush(stdout);
    if (wrong)
        return 1;
    WANT(set_task(INTERLEAVE, 0xc), 0);
    execl(words[0], words[0], "after", NULL);
    return 1;
}
