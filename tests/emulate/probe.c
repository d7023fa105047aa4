/* Sequences of random calls about memory policies, and what they answer: probe FIRST LAST STEPS [MODES]. MODES is 6
 * for kernels without weighted interleaving (before 6.9), otherwise 7: that many modes are asked for. Each sequence
 * is played by a process of its own, on pages at fixed addresses, so that a real kernel and a made-up machine
 * can be held against each other, line by line:
 *
 *     sequence NUMBER
 *     CALL = ANSWER
 *
 * A page of a line "nodes" is the number of its node, "." where it was never touched, "_" where nothing is
 * mapped. As the first program of a machine it ends with that machine's end. Not proved. */
#define _GNU_SOURCE
#include <errno.h>
#include <sched.h>
#include <stdarg.h>
#include <stdio.h>
#include <stdlib.h>
#include <string.h>
#include <sys/mman.h>
#include <sys/reboot.h>
#include <sys/syscall.h>
#include <sys/wait.h>
#include <unistd.h>

#define PAGE 4096L
#define PAGES 24
#define BASE 0x40000000L

enum { STATIC = 0x8000, RELATIVE = 0x4000 };

static unsigned long dice;
static unsigned modes = 7;
static char mapped[PAGES];

static unsigned up_to(unsigned most) {
    dice = dice * 6364136223846793005UL + 1442695040888963407UL;
    return (unsigned)(dice >> 33) % most;
}

static char *page_at(int page) { return (char *)(BASE + page * PAGE); }

/* Ends a line with what a call answered: 0 and above, or the name of the error number. */
static void tell(long answer, const char *form, ...) {
    const char *fault = answer < 0 ? strerrorname_np(errno) : NULL;
    va_list words;
    va_start(words, form);
    vprintf(form, words);
    va_end(words);
    if (fault)
        printf(" = %s\n", fault);
    else
        printf(" = %ld\n", answer);
}

static void tell_nodes(void) {
    void *at[PAGES];
    int status[PAGES];
    for (int page = 0; page < PAGES; page++)
        at[page] = page_at(page), status[page] = 99;
    if (syscall(SYS_move_pages, 0L, (long)PAGES, at, NULL, status, 0L) < 0)
        tell(-1, "nodes");
    printf("nodes = ");
    for (int page = 0; page < PAGES; page++)
        putchar(status[page] >= 0 ? '0' + status[page] : status[page] == -ENOENT ? '.' : '_');
    putchar('\n');
}

static void touch(int page) {
    if (mapped[page])
        *(volatile char *)page_at(page) = 1;
}

/* ---- random words of calls */

struct span {
    int page, pages;
    long start, length;
};

static struct span some_span(void) {
    struct span span = {up_to(PAGES), 1 + up_to(6), 0, 0};
    if (span.page + span.pages > PAGES)
        span.pages = PAGES - span.page;
    span.start = BASE + span.page * PAGE;
    span.length = span.pages * PAGE;
    return span;
}

struct policy {
    int mode;
    unsigned long nodes, most;
    unsigned long *mask;
};

/* Mostly one that is accepted: of the modes from 0 on, some nodes of four. */
static void some_policy(struct policy *policy) {
    policy->mode = up_to(14) ? (int)up_to(modes) : (int)up_to(10);
    if (modes == 6 && policy->mode == 6)
        policy->mode = 3;
    policy->nodes = 1 + up_to(up_to(6) ? 15 : 63);
    policy->most = up_to(10) ? 65 : up_to(9);
    policy->mask = &policy->nodes;
    if (!up_to(4))
        policy->mode |= up_to(8) ? (up_to(2) ? STATIC : RELATIVE) : STATIC | RELATIVE;
    if (((policy->mode & 15) == 0 || (policy->mode & 15) == 4) && up_to(8))
        policy->mask = NULL, policy->most = 0, policy->mode &= 15;
}

/* ---- steps */

static void step_map(void) {
    struct span span = some_span();
    int flags = MAP_PRIVATE | MAP_ANONYMOUS | (up_to(4) ? MAP_FIXED : MAP_FIXED_NOREPLACE);
    void *got = mmap((void *)span.start, span.length, PROT_READ | PROT_WRITE, flags, -1, 0);
    tell(got == MAP_FAILED ? -1 : 0, "mmap %d %d %x", span.page, span.pages, flags);
    if (got != MAP_FAILED)
        memset(mapped + span.page, 1, span.pages);
}

static void step_unmap(void) {
    struct span span = some_span();
    tell(munmap((void *)span.start, span.length), "munmap %d %d", span.page, span.pages);
    memset(mapped + span.page, 0, span.pages);
}

static void step_bind(void) {
    struct span span = some_span();
    struct policy policy;
    long odd = up_to(12) ? 0 : 8, length = up_to(10) ? span.length - (long)up_to(2) * 5 : 0;
    unsigned flags = up_to(3) ? 0 : 1 + up_to(3);
    some_policy(&policy);
    tell(syscall(SYS_mbind, span.start + odd, length, (long)policy.mode, policy.mask, policy.most, (long)flags),
         "mbind %d+%ld %ld %x %lx/%lu %x", span.page, odd, length, policy.mode, policy.mask ? policy.nodes : 0,
         policy.most, flags);
    if (flags)
        tell_nodes();
}

static void step_task(void) {
    struct policy policy;
    some_policy(&policy);
    tell(syscall(SYS_set_mempolicy, (long)policy.mode, policy.mask, policy.most), "set_mempolicy %x %lx/%lu",
         policy.mode, policy.mask ? policy.nodes : 0, policy.most);
}

static void step_ask(void) {
    int mode = -1, page = up_to(PAGES);
    unsigned long got[16] = {0}, flags = up_to(2) ? 2 : up_to(9);
    long answer;
    if ((flags & 3) == 1 || ((flags & 3) == 3 && !mapped[page]))
        flags = 2; /* (the next turn of a task, which a kernel takes too; a page that would be touched) */
    touch((flags & 3) == 3 ? page : PAGES - 1);
    answer = syscall(SYS_get_mempolicy, &mode, got, 1024L, flags & 2 ? page_at(page) : NULL, flags);
    tell(answer, "get_mempolicy %d %lx", page, flags);
    if (answer == 0)
        printf("policy = %x %lx\n", mode, got[0]);
}

static void step_move(void) {
    void *at[3];
    int to[3], status[3] = {99, 99, 99};
    for (int k = 0; k < 3; k++)
        at[k] = page_at(up_to(PAGES)), to[k] = up_to(12) ? (int)up_to(4) : (int)up_to(70);
    tell(syscall(SYS_move_pages, 0L, 3L, at, to, status, 2L), "move_pages %d %d %d", to[0], to[1], to[2]);
    printf("status = %d %d %d\n", status[0], status[1], status[2]);
}

static void step_touch(void) {
    cpu_set_t set;
    int cpu = up_to(4);
    CPU_ZERO(&set);
    CPU_SET(cpu, &set);
    tell(sched_setaffinity(0, sizeof set, &set), "cpu %d", cpu);
    for (int k = 0; k < 5; k++)
        touch(up_to(PAGES));
    tell_nodes();
}

static void step_home(void) {
    struct span span = some_span();
    long node = up_to(5);
    tell(syscall(450L, span.start, span.length, node, up_to(20) ? 0L : 1L), "home %d %d %ld", span.page, span.pages, node);
}

static void step_migrate(void) {
    unsigned long from = 1 + up_to(15), to = 1 + up_to(15);
    tell(syscall(SYS_migrate_pages, 0L, 65L, &from, &to) < 0 ? -1 : 0, "migrate_pages %lx %lx", from, to);
    tell_nodes();
}

static void step_remap(void) {
    int from = up_to(PAGES), to = up_to(PAGES);
    if (from == to || !mapped[from])
        return;
    touch(from); /* (its index stays for sure) */
    tell(mremap(page_at(from), PAGE, PAGE, MREMAP_MAYMOVE | MREMAP_FIXED, page_at(to)) == MAP_FAILED ? -1 : 0,
         "mremap %d %d", from, to);
    mapped[from] = 0, mapped[to] = 1;
}

static void step_forget(void) {
    struct span span = some_span();
    tell(madvise((void *)span.start, span.length, MADV_DONTNEED), "dontneed %d %d", span.page, span.pages);
}

static void play(int steps) {
    static void (*const kinds[])(void) = {
        step_map,   step_map,  step_map,  step_unmap, step_bind, step_bind, step_bind,    step_bind,  step_task,  step_ask,
        step_ask,   step_move, step_touch, step_touch, step_touch, step_home, step_migrate, step_remap, step_forget,
    };
    for (int k = 0; k < steps; k++)
        kinds[up_to(sizeof kinds / sizeof kinds[0])]();
    tell_nodes();
}

/* A sequence, at its end by a child as well. */
static void sequence(int number, int steps) {
    cpu_set_t set;
    dice = number * 7919UL;
    CPU_ZERO(&set);
    CPU_SET(0, &set);
    sched_setaffinity(0, sizeof set, &set);
    for (int k = 0; k < 3; k++)
        step_map();
    play(steps);
    fflush(stdout);
    if (fork() == 0) {
        printf("child = 0\n");
        play(steps / 4);
        exit(0);
    }
    wait(NULL);
    tell_nodes();
    exit(0);
}

int main(int count, char **words) {
    if (count != 4 && count != 5)
        return 2;
    if (count == 5)
        modes = atoi(words[4]);
    for (int number = atoi(words[1]); number <= atoi(words[2]); number++) {
        printf("sequence %d\n", number);
        fflush(stdout);
        if (fork() == 0)
            sequence(number, atoi(words[3]));
        wait(NULL);
    }
    printf("end\n");
    fflush(stdout);
    if (getpid() == 1)
        reboot(RB_POWER_OFF);
    return 0;
}
