/* Words of 32 bits with something in their upper halves: the kernel reads an int or an unsigned int of a call from the
 * lower half alone (see SYSCALL_DEFINE of each in mm/mempolicy.c, mm/migrate.c and kernel/sched of Linux), and all 64
 * bits of a long. Each call is made as it is meant, and with halves planted: it is to answer the same. It runs on a
 * kernel with a node 0, and on a made-up machine. Not proved. */
#define _GNU_SOURCE
#include <errno.h>
#include <signal.h>
#include <stdio.h>
#include <string.h>
#include <sys/mman.h>
#include <sys/prctl.h>
#include <sys/syscall.h>
#include <sys/wait.h>
#include <unistd.h>

#define MASK ((long)&mask)
#define ROOM ((long)room)
#define AT ((long)at)

enum { PAGE = 4096, BIND = 2, AREA = 0x53564d41, BY_RELATIVE = 0x4000 };
static const unsigned long HALF = 0xbff7ec05UL << 32;
static unsigned long mask = 1, room[16];
static int wrong;

static long told(long number, const long *words) {
    long answer = syscall(number, words[0], words[1], words[2], words[3], words[4], words[5]);
    return answer < 0 ? -errno : answer;
}

/* A letter for each word: h, the kernel reads its lower half alone; l, all of it, and refuses more (EINVAL). */
static void row(int line, const char *kinds, long number, long a, long b, long c, long d, long e, long f) {
    const long words[6] = {a, b, c, d, e, f};
    long wanted = told(number, words);
    for (int k = 0; kinds[k]; k++) {
        long others[6];
        memcpy(others, words, sizeof words);
        others[k] |= HALF;
        if (kinds[k] == '-')
            continue;
        long got = told(number, others), due = kinds[k] == 'l' ? -EINVAL : wanted;
        if (got != due && ++wrong)
            printf("line %d: word %d: %ld, not %ld\n", line, k, got, due);
        if (kinds[k] == 'h' && (got = told(number | HALF, others)) != due && ++wrong)
            printf("line %d: word %d, and the call's number: %ld, not %ld\n", line, k, got, due);
    }
}
#define ROW(kinds, ...) row(__LINE__, kinds, __VA_ARGS__)

int main(void) {
    char *at = mmap(NULL, 2 * PAGE, PROT_READ | PROT_WRITE, MAP_PRIVATE | MAP_ANONYMOUS, -1, 0);
    void *pages[1] = {at};
    int status[1] = {9}, nodes[1] = {0};
    long places = (long)pages, told_at = (long)status, to = (long)nodes, self = getpid(), none = 1 << 30;
    if (at == MAP_FAILED)
        return 1;
    at[0] = 1;
    for (int flags = 0; flags < 9; flags += 2) { /* (4 is for root, 8 is none) */
        ROW("--h--h", SYS_mbind, AT, PAGE, BIND, MASK, 65, flags);
        ROW("h----h", SYS_move_pages, 0, 1, places, 0, told_at, flags);
        ROW("h----h", SYS_move_pages, self, 1, places, to, told_at, flags);
    }
    ROW("--h--h", SYS_mbind, AT, PAGE, BIND | BY_RELATIVE, MASK, 65, 1);
    ROW("--h--h", SYS_mbind, AT, PAGE, 99, MASK, 65, 0);
    ROW("--h--h", SYS_mbind, AT, PAGE, BIND, 8, 65, 8); /* (the mask is read before flags are judged) */
    ROW("h----h", SYS_move_pages, none, 1, places, 0, told_at, 0);
    ROW("h----h", SYS_move_pages, -1, 1, places, 0, told_at, 0);
    ROW("h", SYS_set_mempolicy, BIND, MASK, 65, 0, 0, 0);
    ROW("h", SYS_set_mempolicy, 99, MASK, 65, 0, 0, 0);
    ROW("h", SYS_set_mempolicy, 0, 0, 0, 0, 0, 0);
    ROW("----l", SYS_get_mempolicy, 0, 0, 0, 0, 4, 0);
    ROW("----l", SYS_get_mempolicy, 0, ROOM, 1024, AT, 2, 0);
    ROW("h", SYS_migrate_pages, 0, 65, MASK, MASK, 0, 0);
    ROW("h", SYS_migrate_pages, none, 65, MASK, MASK, 0, 0);
    ROW("--ll", SYS_set_mempolicy_home_node, AT, PAGE, 0, 0, 0, 0);
    ROW("hh", SYS_sched_getaffinity, 0, 128, ROOM, 0, 0, 0);
    ROW("hh", SYS_sched_getaffinity, self, 128, ROOM, 0, 0, 0);
    ROW("hh", SYS_sched_getaffinity, none, 128, ROOM, 0, 0, 0);
    ROW("hh", SYS_sched_getaffinity, none, 12, ROOM, 0, 0, 0); /* (the size is judged before the process) */
    ROW("hh", SYS_sched_getaffinity, 0, 1 << 29, ROOM, 0, 0, 0); /* (times 8, it is 0) */
    syscall(SYS_sched_getaffinity, 0, 128, room);
    ROW("hh", SYS_sched_setaffinity, 0, 128, ROOM, 0, 0, 0);
    ROW("hh", SYS_sched_setaffinity, none, 128, ROOM, 0, 0, 0);
    ROW("hh", SYS_sched_setaffinity, none, 128, 8, 0, 0, 0); /* (the mask is read first) */
    ROW("", SYS_getcpu, ROOM, ROOM, 0, 0, 0, 0);
    ROW("--h", SYS_madvise, AT, PAGE, MADV_DONTNEED, 0, 0, 0);
    ROW("h", SYS_prctl, AREA, 1, AT, PAGE, 0, 0); /* (there is no word 1) */
    at[0] = 1;
    syscall(SYS_madvise | HALF, at, (long)PAGE, MADV_DONTNEED | HALF); /* (followed: the page goes) */
    syscall(SYS_move_pages, 0L, 1L, pages, NULL, status, 0L);
    if (status[0] != -ENOENT && ++wrong)
        printf("a page that went is on %d\n", status[0]);
    long child = syscall(SYS_clone | HALF, SIGCHLD | HALF, 0L, 0L, 0L, 0L), ended = -1;
    if (child == 0) {
        at[0] = 2;
        _exit(syscall(SYS_mbind | HALF, at, (long)PAGE, BIND | HALF, &mask, 65L, HALF) ? 1 : 6);
    }
    if ((waitpid(child, (int *)&ended, 0) != child || (int)ended != 6 << 8) && ++wrong)
        printf("a child ended with %lx\n", ended);
    return wrong != 0;
}
