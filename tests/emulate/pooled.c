/* Pages of 2 MiB from made-up pools: run by numaplan-emulate on the machine of pools.numaplan (3 pages on node 0, 2 on
 * node 1, 4 on node 3), with a CPU a node. The values are by hand from mmap(2), mbind(2), move_pages(2), madvise(2),
 * memfd_create(2) and the kernel's "HugeTLB Pages" (hugetlbpage), and those of what two kernels were seen to do: which
 * mappings are refused, which node gives a page, where a moved one comes from. A word chooses the part; with one
 * more the machine has one node with nine pages, as a kernel has for odd, forks, files and segments. Not proved. */
#define _GNU_SOURCE
#include <errno.h>
#include <fcntl.h>
#include <pthread.h>
#include <sched.h>
#include <setjmp.h>
#include <signal.h>
#include <stdio.h>
#include <stdlib.h>
#include <string.h>
#include <sys/mman.h>
#include <sys/shm.h>
#include <sys/syscall.h>
#include <sys/vfs.h>
#include <sys/wait.h>
#include <unistd.h>

enum { DEFAULT, PREFER, BIND, INTERLEAVE, STRICT = 1, MOVE = 2, RIGHTS = PROT_READ | PROT_WRITE };
enum { PRIVATE = MAP_PRIVATE | MAP_ANONYMOUS | MAP_HUGETLB, SHARED = MAP_SHARED | MAP_ANONYMOUS | MAP_HUGETLB };
#define SIZE (2L << 20)
#define SIZE_OF_2_MIB (21 << 26)

static int wrong, is_one; /* (the latter: on one node, with nine pages) */
static char *const A = (char *)0x240000000, *const B = (char *)0x250000000, *const C = (char *)0x270000000;

#define WANT(got, wanted)                                                                          \
    do {                                                                                           \
        long got_ = (long)(got), wanted_ = (long)(wanted);                                         \
        if (got_ != wanted_) {                                                                     \
            printf("line %d: %s is %ld, not %ld\n", __LINE__, #got, got_, wanted_);                \
            wrong = 1;                                                                             \
        }                                                                                          \
    } while (0)

#define TEXT(got, wanted)                                                                          \
    do {                                                                                           \
        const char *got_ = (got);                                                                  \
        if (strcmp(got_, wanted)) {                                                                \
            printf("line %d: '%s', not '%s'\n", __LINE__, got_, wanted);                           \
            wrong = 1;                                                                             \
        }                                                                                          \
    } while (0)

#define POOLS(wanted) TEXT(pools(), is_one ? sum_of(wanted) : (wanted))

/* 0 or a result, or the error number below 0. */
static long told(long answer) { return answer < 0 ? -errno : answer; }

static long map(void *start, long length, int flags) {
    return told((long)mmap(start, length, RIGHTS, flags | (start ? MAP_FIXED_NOREPLACE : 0), -1, 0));
}

static long bind_at(char *start, long length, int mode, unsigned long mask, int flags) {
    return told(syscall(SYS_mbind, start, length, (long)mode, mask ? &mask : NULL, 65L, (long)flags));
}

static void set_task(int mode, unsigned long mask) {
    WANT(syscall(SYS_set_mempolicy, (long)mode, mask ? &mask : NULL, 65L), 0);
}

static void go_to(int cpu) {
    cpu_set_t set;
    CPU_ZERO(&set);
    CPU_SET(cpu, &set);
    WANT(sched_setaffinity(0, sizeof set, &set), 0);
}

static void touch(char *at) { *(volatile char *)at = 1; }

/* The node of the page at an address, or the error number below 0. */
static int node(char *at) {
    void *pages[1] = {at};
    int status[1] = {-99};
    WANT(syscall(SYS_move_pages, 0L, 1L, pages, NULL, status, 0L), 0);
    return status[0];
}

static long number(const char *path) {
    char text[32] = "";
    FILE *file = fopen(path, "r");
    if (!file || !fgets(text, sizeof text, file))
        return -1;
    fclose(file);
    return atol(text);
}

/* What the files of the pools tell: free and all pages by node, and how many are reserved. */
static const char *pools(void) {
    static char said[200];
    char path[100];
    said[0] = 0;
    for (int k = 0; k < (is_one ? 1 : 4); k++) {
        long rows[2];
        for (int some = 0; some < 2; some++) {
            sprintf(path, "/sys/devices/system/node/node%d/hugepages/hugepages-2048kB/%s_hugepages", k,
                    some ? "nr" : "free");
            rows[some] = number(path);
        }
        sprintf(said + strlen(said), "N%d=%ld/%ld ", k, rows[0], rows[1]);
    }
    sprintf(said + strlen(said), "reserved %ld", number("/sys/kernel/mm/hugepages/hugepages-2048kB/resv_hugepages"));
    return said;
}

/* The same of one node that has all of these pages. */
static const char *sum_of(const char *wanted) {
    static char said[100];
    long f[4], n[4], reserved;
    sscanf(wanted, "N0=%ld/%ld N1=%ld/%ld N2=%ld/%ld N3=%ld/%ld reserved %ld", f, n, f + 1, n + 1, f + 2, n + 2, f + 3,
           n + 3, &reserved);
    sprintf(said, "N0=%ld/%ld reserved %ld", f[0] + f[1] + f[2] + f[3], n[0] + n[1] + n[2] + n[3], reserved);
    return said;
}

/* The first row of a file that begins with a word; without its line feed. */
static const char *row(const char *path, const char *word) {
    static char text[500];
    FILE *file = fopen(path, "r");
    while (file && fgets(text, sizeof text, file))
        if (!strncmp(text, word, strlen(word))) {
            fclose(file);
            text[strcspn(text, "\n")] = 0;
            return text;
        }
    return "none";
}

/* ---- which mappings are refused, and which node gives a page */

static void mapped(void) {
    POOLS("N0=3/3 N1=2/2 N2=0/0 N3=4/4 reserved 0");
    set_task(BIND, 1);
    WANT(map(A, 4 * SIZE, PRIVATE), -ENOMEM);
    WANT(map(A, 3 * SIZE - 4096, PRIVATE | SIZE_OF_2_MIB), A); /* (rounded up) */
    POOLS("N0=3/3 N1=2/2 N2=0/0 N3=4/4 reserved 3");
    set_task(DEFAULT, 0);
    go_to(3);
    touch(A);
    touch(A + SIZE + 5 * 4096);
    WANT(node(A), 3);
    WANT(node(A + SIZE), 3); /* (all of the page, also before what was touched) */
    WANT(node(A + 2 * SIZE - 1), 3);
    WANT(node(A + 2 * SIZE), -ENOENT);
    POOLS("N0=3/3 N1=2/2 N2=0/0 N3=2/4 reserved 1");
    set_task(INTERLEAVE, 11);
    WANT(map(B, 4 * SIZE, PRIVATE), B);
    go_to(0);
    int nodes[] = {0, 1, 3, 0};
    for (int k = 0; k < 4; k++) {
        touch(B + k * SIZE + k * 4096);
        WANT(node(B + k * SIZE), nodes[k]);
    }
    POOLS("N0=1/3 N1=1/2 N2=0/0 N3=1/4 reserved 1");
    WANT(map(C, 5 * SIZE, PRIVATE | MAP_NORESERVE), C);
    WANT(bind_at(C, 5 * SIZE, BIND, 2, 0), 0);
    touch(C);
    WANT(node(C), 1);
    WANT(bind_at(C + 4096, 4096, BIND, 4, 0), -EINVAL);
    /* what others of the process see */
    TEXT(row("/proc/self/numa_maps", "270000000"),
         "270000000 bind:1 file=/anon_hugepage\\040(deleted) huge anon=1 dirty=1 N1=1 kernelpagesize_kB=2048");
    TEXT(row("/proc/self/status", "HugetlbPages"), "HugetlbPages:\t   14336 kB");
    TEXT(row("/proc/meminfo", "HugePages_Total"), "HugePages_Total:       9");
    TEXT(row("/proc/meminfo", "HugePages_Free"), "HugePages_Free:        2");
    TEXT(row("/proc/meminfo", "HugePages_Rsvd"), "HugePages_Rsvd:        1");
    TEXT(row("/proc/meminfo", "Hugetlb"), "Hugetlb:           18432 kB");
    TEXT(row("/sys/devices/system/node/node3/meminfo", "Node 3 HugePages_Free"), "Node 3 HugePages_Free:        1");
    WANT(number("/proc/sys/vm/nr_hugepages"), 9);
    /* unmap gives back */
    WANT(told(munmap(A, SIZE + 4096)), -EINVAL);
    WANT(told(munmap(A + 4096, SIZE)), -EINVAL);
    WANT(munmap(A, 3 * SIZE), 0);
    WANT(munmap(C, 5 * SIZE), 0);
    POOLS("N0=1/3 N1=1/2 N2=0/0 N3=3/4 reserved 0");
    WANT(munmap(B, 4 * SIZE), 0);
    POOLS("N0=3/3 N1=2/2 N2=0/0 N3=4/4 reserved 0");
}

/* ---- what calls answer that are odd */

static void odd(void) {
    WANT(map(NULL, 10 * SIZE, PRIVATE), -ENOMEM); /* (9 are there) */
    WANT(map(NULL, 10 * SIZE, SHARED), -ENOMEM);
    WANT(map(A + 4096, SIZE, PRIVATE), -EINVAL);
    WANT(map(NULL, SIZE, PRIVATE | 13 << 26), -EINVAL);
    WANT(map(NULL, 0, PRIVATE), -EINVAL);
    WANT(told((long)mmap(NULL, SIZE, RIGHTS, PRIVATE, -1, 4096)), -EINVAL);
    char *some = (char *)map(NULL, 2 * SIZE, PRIVATE);
    WANT((long)some % SIZE, 0);
    char *hinted = mmap(A + 4096, SIZE, RIGHTS, PRIVATE, -1, 0);
    WANT(hinted, A + SIZE);
    WANT(told((long)mmap(some + 4096, 4096, RIGHTS, MAP_PRIVATE | MAP_ANONYMOUS | MAP_FIXED, -1, 0)), -EINVAL);
    WANT(map(some, SIZE, PRIVATE), -EEXIST);
    touch(some);
    touch(some + SIZE);
    POOLS("N0=1/3 N1=2/2 N2=0/0 N3=4/4 reserved 1");
    /* advice: a start inside is refused, an end is cut; what the program gave back is reserved for it */
    WANT(told(madvise(some + 4096, SIZE, MADV_DONTNEED)), -EINVAL);
    WANT(madvise(some, SIZE + 4096, MADV_DONTNEED), 0);
    WANT(node(some), -ENOENT);
    WANT(node(some + SIZE), 0);
    POOLS("N0=2/3 N1=2/2 N2=0/0 N3=4/4 reserved 2");
    WANT(told(madvise(some, 2 * SIZE, MADV_FREE)), -EINVAL);
    WANT(told(madvise(some + 4096, 4096, MADV_DONTDUMP)), -EINVAL);
    /* populated at once, also by mmap */
    WANT(madvise(hinted, SIZE, 23), 0);
    WANT(node(hinted), 0);
    char *ready = mmap(NULL, SIZE, RIGHTS, PRIVATE | MAP_POPULATE, -1, 0);
    WANT(node(ready + SIZE - 1), 0);
    POOLS("N0=0/3 N1=2/2 N2=0/0 N3=4/4 reserved 1");
    WANT(bind_at(some, SIZE, BIND, 1, 0), 0);
    if (!is_one)
        WANT(told(madvise(some, SIZE, 23)), -EFAULT); /* (node 0 has none) */
    /* moved, and made smaller; never larger */
    char *moved = mremap(some + SIZE, SIZE, SIZE, MREMAP_MAYMOVE | MREMAP_FIXED, B);
    WANT(moved, B);
    WANT(node(B), 0);
    WANT(told((long)mremap(B, SIZE, 2 * SIZE, MREMAP_MAYMOVE)), -EINVAL);
    WANT(munmap(B, SIZE), 0);
    POOLS("N0=1/3 N1=2/2 N2=0/0 N3=4/4 reserved 1");
    WANT(munmap(some, SIZE), 0);
    /* one over another, at once */
    WANT(mmap(hinted, SIZE, RIGHTS, PRIVATE | MAP_FIXED, -1, 0), hinted);
    POOLS("N0=2/3 N1=2/2 N2=0/0 N3=4/4 reserved 1");
    WANT(mmap(ready, SIZE, RIGHTS, MAP_PRIVATE | MAP_ANONYMOUS | MAP_FIXED, -1, 0), ready);
    POOLS("N0=3/3 N1=2/2 N2=0/0 N3=4/4 reserved 1");
}

/* ---- moves: a free page of the target that isn't reserved serves, else the pool's page goes along */

static long move_to(char *at, int target) {
    void *pages[2] = {at, at + 4096};
    int nodes[2] = {target, target}, status[2] = {-99, -99};
    WANT(syscall(SYS_move_pages, 0L, 2L, pages, nodes, status, (long)MOVE), 0);
    return status[1] * 100 + status[0];
}

static void moves(void) {
    WANT(map(A, 2 * SIZE, PRIVATE), A);
    touch(A);
    touch(A + SIZE);
    POOLS("N0=1/3 N1=2/2 N2=0/0 N3=4/4 reserved 0");
    WANT(bind_at(A, 2 * SIZE, BIND, 2, STRICT), -EIO);
    WANT(bind_at(A, 2 * SIZE, BIND, 2, MOVE), 0);
    POOLS("N0=3/3 N1=0/2 N2=0/0 N3=4/4 reserved 0");
    WANT(bind_at(A, 2 * SIZE, BIND, 4, MOVE), 0);
    POOLS("N0=3/3 N1=0/0 N2=0/2 N3=4/4 reserved 0");
    WANT(node(A + SIZE + 4096), 2);
    WANT(move_to(A, 3), -EBUSY * 100 + 3);
    POOLS("N0=3/3 N1=0/0 N2=1/2 N3=3/4 reserved 0");
    WANT(map(B, 7 * SIZE, PRIVATE), B); /* (what is free is reserved now) */
    WANT(move_to(A, 0), -EBUSY * 100 + 0);
    POOLS("N0=3/4 N1=0/0 N2=1/2 N3=3/3 reserved 7");
    unsigned long from = 4, to = 2;
    WANT(syscall(SYS_migrate_pages, 0L, 65L, &from, &to), 0);
    WANT(node(A + SIZE), 1);
    POOLS("N0=3/4 N1=0/1 N2=1/1 N3=3/3 reserved 7");
}

/* ---- forks, and memory that processes share */

static int in_child(void (*part)(void)) {
    int status = 0;
    if (fork() == 0) {
        part();
        exit(wrong);
    }
    wait(&status);
    return status;
}

static void child_of_private(void) {
    POOLS("N0=2/3 N1=2/2 N2=0/0 N3=4/4 reserved 1");
    WANT(node(A), 0);
    touch(A + 7 * 4096); /* (a copy of its own, of all of the page) */
    WANT(node(A), 0);
    POOLS("N0=1/3 N1=2/2 N2=0/0 N3=4/4 reserved 1");
    touch(A + SIZE); /* (for which nothing is reserved here) */
    POOLS("N0=0/3 N1=2/2 N2=0/0 N3=4/4 reserved 1");
}

static char *shared;

static void child_of_shared(void) {
    touch(shared + 4096); /* (there already) */
    WANT(node(shared), 0);
    if (!is_one)
        WANT(bind_at(shared, 2 * SIZE, BIND, 8, 0), 0); /* (of this area alone) */
    touch(shared + SIZE);
    WANT(node(shared + SIZE), is_one ? 0 : 3);
    POOLS("N0=2/3 N1=2/2 N2=0/0 N3=3/4 reserved 1");
}

static void forks(void) {
    WANT(map(A, 2 * SIZE, PRIVATE), A);
    touch(A);
    WANT(in_child(child_of_private), 0);
    POOLS("N0=2/3 N1=2/2 N2=0/0 N3=4/4 reserved 1");
    WANT(munmap(A, 2 * SIZE), 0);
    shared = (char *)map(NULL, 3 * SIZE, SHARED);
    touch(shared);
    WANT(in_child(child_of_shared), 0);
    POOLS("N0=2/3 N1=2/2 N2=0/0 N3=3/4 reserved 1");
    touch(shared + 2 * SIZE);
    WANT(node(shared + 2 * SIZE), 0);
    touch(shared + SIZE);
    WANT(node(shared + SIZE), is_one ? 0 : 3); /* (where the child had put it) */
    WANT(munmap(shared, 3 * SIZE), 0);
    POOLS("N0=3/3 N1=2/2 N2=0/0 N3=4/4 reserved 0");
}

/* ---- threads: who touches any part first places all of a page */

static void *touch_first(void *at) {
    go_to(at == A ? 3 : 1);
    touch((char *)at + 300 * 4096);
    return NULL;
}

static void threads(void) {
    pthread_t some[2];
    WANT(map(A, 2 * SIZE, PRIVATE), A);
    for (int k = 0; k < 2; k++) {
        pthread_create(&some[k], NULL, touch_first, A + k * SIZE);
        pthread_join(some[k], NULL);
    }
    touch(A + 5 * 4096);
    touch(A + SIZE);
    WANT(node(A), 3);
    WANT(node(A + SIZE), 1);
}

/* ---- files */

static void files(void) {
    struct statfs of_file;
    int file = memfd_create("table", MFD_HUGETLB | SIZE_OF_2_MIB);
    WANT(fstatfs(file, &of_file), 0);
    WANT(of_file.f_type, 0x958458f6);
    WANT(of_file.f_bsize, SIZE);
    WANT(told(ftruncate(file, SIZE + 4096)), -EINVAL);
    WANT(ftruncate(file, 3 * SIZE), 0);
    char *one = mmap(NULL, 2 * SIZE, RIGHTS, MAP_SHARED, file, 0);
    WANT((long)one % SIZE, 0);
    POOLS("N0=3/3 N1=2/2 N2=0/0 N3=4/4 reserved 2");
    char *two = mmap(NULL, 2 * SIZE, RIGHTS, MAP_SHARED | MAP_HUGETLB, file, SIZE); /* (one page more) */
    POOLS("N0=3/3 N1=2/2 N2=0/0 N3=4/4 reserved 3");
    WANT(told((long)mmap(NULL, SIZE, RIGHTS, MAP_SHARED, file, 4096)), -EINVAL);
    one[SIZE + 7] = 3;
    WANT(two[7], 3);
    WANT(node(two), 0);
    POOLS("N0=2/3 N1=2/2 N2=0/0 N3=4/4 reserved 2");
    set_task(INTERLEAVE, is_one ? 1 : 11); /* (the third page of the file: its index is 2) */
    touch(two + SIZE);
    WANT(node(two + SIZE), is_one ? 0 : 3);
    set_task(DEFAULT, 0);
    WANT(munmap(one, 2 * SIZE), 0);
    POOLS("N0=2/3 N1=2/2 N2=0/0 N3=3/4 reserved 1");
    WANT(ftruncate(file, 2 * SIZE), 0); /* (the third page goes) */
    POOLS("N0=2/3 N1=2/2 N2=0/0 N3=4/4 reserved 1");
    WANT(munmap(two, 2 * SIZE), 0);
    POOLS("N0=2/3 N1=2/2 N2=0/0 N3=4/4 reserved 1");
    close(file);
    POOLS("N0=3/3 N1=2/2 N2=0/0 N3=4/4 reserved 0");
    file = memfd_create("grows", MFD_HUGETLB);
    one = mmap(NULL, SIZE, RIGHTS, MAP_SHARED, file, SIZE);
    touch(one); /* (a mapping to be written to makes the file as large) */
    WANT(lseek(file, 0, SEEK_END), 2 * SIZE);
    WANT(node(one), 0);
}

/* Files of a mounted hugetlbfs, which have their pages as long as they have a name. */
static void mounted(void) {
    struct statfs of_file;
    WANT(told(open("/dev/hugepages", O_RDWR)), -EISDIR);
    int file = open("/dev/hugepages/table", O_RDWR | O_CREAT | O_EXCL, 0600);
    WANT(fstatfs(file, &of_file), 0);
    WANT(of_file.f_type, 0x958458f6);
    WANT(told((long)mmap(A, 2 * SIZE, RIGHTS, MAP_SHARED | MAP_FIXED_NOREPLACE, file, 0)), A);
    WANT(bind_at(A, 2 * SIZE, BIND, is_one ? 1 : 8, 0), 0);
    touch(A + SIZE);
    WANT(node(A + SIZE), is_one ? 0 : 3);
    const char *name = is_one ? "240000000 bind:0 file=/dev/hugepages/table huge "
                              : "240000000 bind:3 file=/dev/hugepages/table huge ";
    WANT(strncmp(row("/proc/self/numa_maps", "240000000"), name, strlen(name)), 0);
    WANT(munmap(A, 2 * SIZE), 0);
    close(file);
    POOLS("N0=3/3 N1=2/2 N2=0/0 N3=3/4 reserved 1");
    file = open("/dev/hugepages/table", O_RDWR);
    char *some = mmap(NULL, SIZE, RIGHTS, MAP_SHARED, file, SIZE);
    WANT(some[0], 1);
    WANT(unlinkat(AT_FDCWD, "/dev/hugepages/table", 0), 0);
    WANT(told(open("/dev/hugepages/table", O_RDWR)), -ENOENT);
    WANT(munmap(some, SIZE), 0);
    POOLS("N0=3/3 N1=2/2 N2=0/0 N3=3/4 reserved 1");
    close(file);
    POOLS("N0=3/3 N1=2/2 N2=0/0 N3=4/4 reserved 0");
}

/* ---- System V's memory: reserved as it is made, there until it is removed and nobody has it attached */

static void segments(void) {
    WANT(told(shmget(IPC_PRIVATE, 10 * SIZE, IPC_CREAT | SHM_HUGETLB | 0600)), -ENOMEM);
    WANT(told(shmget(IPC_PRIVATE, SIZE, IPC_CREAT | SHM_HUGETLB | 13 << 26 | 0600)), -EINVAL);
    int segment = shmget(IPC_PRIVATE, SIZE + 4096, IPC_CREAT | SHM_HUGETLB | SIZE_OF_2_MIB | 0600);
    POOLS("N0=3/3 N1=2/2 N2=0/0 N3=4/4 reserved 2");
    WANT(told((long)shmat(segment, B + 4096, 0)), -EINVAL);
    WANT(told((long)shmat(segment, B + 4096 + 7, SHM_RND)), -EINVAL); /* (which rounds to pages of 4 KiB) */
    WANT(shmat(segment, B, SHM_RND), B);
    char *at = shmat(segment, NULL, 0);
    WANT((long)at % SIZE, 0);
    touch(at + SIZE);
    WANT(node(at + SIZE), 0);
    WANT(node(B + SIZE), -ENOENT);
    touch(B + SIZE + 4096);
    WANT(node(B + SIZE), 0);
    POOLS("N0=2/3 N1=2/2 N2=0/0 N3=4/4 reserved 1");
    WANT(shmdt(B), 0);
    WANT(shmdt(at), 0);
    POOLS("N0=2/3 N1=2/2 N2=0/0 N3=4/4 reserved 1");
    at = shmat(segment, NULL, 0);
    WANT(shmctl(segment, IPC_RMID, NULL), 0);
    touch(at);
    POOLS("N0=1/3 N1=2/2 N2=0/0 N3=4/4 reserved 0");
    WANT(shmdt(at), 0);
    POOLS("N0=3/3 N1=2/2 N2=0/0 N3=4/4 reserved 0");
}

/* ---- what finds no page: SIGBUS where touches are told (--exact), else the report */

static sigjmp_buf back;
static long bus_at, bus_code;

static void at_bus(int number, siginfo_t *told, void *more) {
    (void)number, (void)more;
    bus_at = (long)told->si_addr, bus_code = told->si_code;
    siglongjmp(back, 1);
}

static void lost(int is_told) {
    struct sigaction action = {.sa_sigaction = at_bus, .sa_flags = SA_SIGINFO};
    sigaction(SIGBUS, &action, NULL);
    WANT(map(A, 2 * SIZE, PRIVATE | MAP_NORESERVE), A);
    WANT(bind_at(A, 2 * SIZE, BIND, 4, 0), 0); /* (node 2 has none) */
    if (sigsetjmp(back, 1) == 0) {
        touch(A + SIZE + 4096);
        WANT(is_told, 0);
    } else {
        WANT(bus_at - bus_at % SIZE, A + SIZE);
        WANT(bus_code, BUS_ADRERR);
        WANT(bind_at(A, 2 * SIZE, BIND, 2, 0), 0);
        touch(A + SIZE + 4096);
        WANT(node(A + SIZE), 1);
    }
    POOLS(is_told ? "N0=3/3 N1=1/2 N2=0/0 N3=4/4 reserved 0" : "N0=3/3 N1=2/2 N2=0/0 N3=4/4 reserved 0");
}

int main(int count, char **words) {
    const char *word = count > 1 ? words[1] : "";
    is_one = count > 2;
    if (!strcmp(word, "mapped"))
        mapped();
    else if (!strcmp(word, "odd"))
        odd();
    else if (!strcmp(word, "moves"))
        moves();
    else if (!strcmp(word, "forks"))
        forks();
    else if (!strcmp(word, "threads"))
        threads();
    else if (!strcmp(word, "segments"))
        segments();
    else if (!strcmp(word, "files"))
        files();
    else if (!strcmp(word, "mounted"))
        mounted();
    else if (!strcmp(word, "lost"))
        lost(0);
    else if (!strcmp(word, "bus"))
        lost(1);
    else if (!strcmp(word, "left")) {
        set_task(INTERLEAVE, 11);
        WANT(map(A, 5 * SIZE, PRIVATE), A);
        for (int k = 0; k < 5; k++)
            touch(A + k * SIZE + 4096);
    } else if (!strcmp(word, "killed")) {
        WANT(map(A, SIZE, PRIVATE | MAP_NORESERVE), A);
        WANT(bind_at(A, SIZE, BIND, 4, 0), 0);
        touch(A);
    } else
        wrong = 1;
    return wrong;
}
