/* A process with memory of each kind, on the kernel that it was booted by: it prints what the kernel
 * shows of it, file by file, for the samples of tests/tools.
 *
 * It is the first program of a machine that `record` starts under qemu. In a cgroup whose cpuset.mems is
 * the list in /mems it gives itself, areas and shared objects the policies below, and writes to pages 0
 * to 6 of each area of 128. It runs on node 1. Not proved. */
#define _GNU_SOURCE
#include <dirent.h>
#include <fcntl.h>
#include <sched.h>
#include <stdio.h>
#include <stdlib.h>
#include <string.h>
#include <sys/mman.h>
#include <sys/mount.h>
#include <sys/reboot.h>
#include <sys/shm.h>
#include <sys/stat.h>
#include <sys/syscall.h>
#include <unistd.h>

#define PAGE 4096UL
#define PAGES 128
#define TOUCHED 7
#define FIRST 0x7f1230000000UL
#define STEP 0x100000UL

enum { BIND = 2, INTERLEAVE = 3, LOCAL = 4, WEIGHTED = 6 };

static unsigned long nodes; /* those of /mems */
static int areas;

static void write_file(const char *path, const char *text)
{
	int file = open(path, O_WRONLY | O_CREAT, 0600);
	if (file < 0 || write(file, text, strlen(text)) < 0)
		printf("failed: write %s\n", path);
	close(file);
}

/* Maps an area at the next address; its policy where mode is one; touches its first pages. */
static void area(int flags, int file, unsigned long page, int mode, unsigned long mask)
{
	char *at = (char *)(FIRST + STEP * areas++);
	unsigned long place;
	if (mmap(at, PAGES * PAGE, PROT_READ | PROT_WRITE, flags | MAP_FIXED, file, (long)(page * PAGE)) != at)
		printf("failed: mmap %d\n", areas);
	if (mode && syscall(SYS_mbind, at, PAGES * PAGE, mode, &mask, 64, 0))
		printf("failed: mbind %d\n", areas);
	for (place = 0; place < TOUCHED; place++)
		at[place * PAGE] = 1;
}

static int file_in(const char *path, unsigned long pages)
{
	int file = path[0] == '/' ? open(path, O_RDWR | O_CREAT, 0600) : memfd_create(path, 0);
	if (file < 0 || ftruncate(file, (long)(pages * PAGE)))
		printf("failed: file %s\n", path);
	return file;
}

/* The second segment of System V: the identifier of the first is 0. */
static void shared_memory(void)
{
	char *at = (char *)(FIRST + STEP * areas++);
	int place, id = shmget(IPC_PRIVATE, PAGE, IPC_CREAT | 0600);
	id = shmget(IPC_PRIVATE, PAGES * PAGE, IPC_CREAT | 0600);
	if (shmat(id, at, 0) != at || syscall(SYS_mbind, at, PAGES * PAGE, INTERLEAVE, &nodes, 64, 0))
		printf("failed: shm\n");
	for (place = 0; place < TOUCHED; place++)
		at[place * PAGE] = 1;
}

/* Two huge pages of 2 MiB, and a span without access. */
static void odd_ones(void)
{
	char *at;
	write_file("/proc/sys/vm/nr_hugepages", "8");
	at = mmap((void *)(FIRST + 0x10000000), 4UL << 20, PROT_READ | PROT_WRITE,
		  MAP_PRIVATE | MAP_ANONYMOUS | MAP_HUGETLB | MAP_FIXED, -1, 0);
	if (at == MAP_FAILED)
		printf("failed: huge pages\n");
	else
		at[0] = at[2UL << 20] = 1;
	mmap((void *)(FIRST + 0x20000000), 64UL << 20, PROT_NONE, MAP_PRIVATE | MAP_ANONYMOUS | MAP_FIXED, -1, 0);
}

/* ---- what the kernel shows */

static void show(const char *path)
{
	char text[4096];
	struct stat about;
	ssize_t count;
	int file = open(path, O_RDONLY);
	if (file < 0)
		return;
	if (fstat(file, &about) || S_ISDIR(about.st_mode)) {
		close(file);
		return;
	}
	printf("file %s\n", path);
	while ((count = read(file, text, sizeof text)) > 0)
		if (write(1, text, (size_t)count) != count)
			break;
	printf("\n");
	close(file);
}

static void show_folder(const char *folder, const char *name)
{
	struct dirent *found;
	DIR *open_folder = opendir(folder);
	char path[600];
	while (open_folder && (found = readdir(open_folder))) {
		if (strncmp(found->d_name, "node", 4) && strncmp(found->d_name, "has_", 4))
			continue;
		snprintf(path, sizeof path, "%s/%s%s", folder, found->d_name, name);
		show(path);
	}
}

int main(void)
{
	char list[64] = "";
	int place, file;
	cpu_set_t one;

	setvbuf(stdout, NULL, _IONBF, 0);
	printf("\nbegin\n");
	mkdir("/proc", 0755), mkdir("/sys", 0755), mkdir("/cgroup", 0755), mkdir("/dev", 0755);
	mount("proc", "/proc", "proc", 0, "");
	mount("sysfs", "/sys", "sysfs", 0, "");
	mount("cgroup2", "/cgroup", "cgroup2", 0, "");
	mount("tmpfs", "/dev", "tmpfs", 0, "");
	file = open("/mems", O_RDONLY);
	if (read(file, list, sizeof list - 1) < 1)
		printf("failed: /mems\n");
	for (place = 0; list[place]; place++)
		if (list[place] >= '0' && list[place] <= '9')
			nodes |= 1UL << (list[place] - '0');
	write_file("/cgroup/cgroup.subtree_control", "+cpuset");
	mkdir("/cgroup/one", 0755);
	write_file("/cgroup/one/cpuset.mems", list);
	write_file("/cgroup/one/cgroup.procs", "1");
	CPU_ZERO(&one);
	CPU_SET(1, &one);
	sched_setaffinity(0, sizeof one, &one);

	area(MAP_PRIVATE | MAP_ANONYMOUS, -1, 0, BIND, 2);
	area(MAP_PRIVATE | MAP_ANONYMOUS, -1, 0, INTERLEAVE, nodes);
	area(MAP_PRIVATE | MAP_ANONYMOUS, -1, 0, LOCAL, 0);
	area(MAP_SHARED | MAP_ANONYMOUS, -1, 0, INTERLEAVE, nodes);
	shared_memory();
	area(MAP_SHARED, file_in("/dev/shared file", 256), 3, INTERLEAVE, nodes);
	area(MAP_SHARED, file_in("memory", 256), 2, INTERLEAVE, nodes);
	area(MAP_PRIVATE, file_in("/dev/private", 256), 1, INTERLEAVE, nodes);
	area(MAP_PRIVATE, file_in("/second", 256), 4, INTERLEAVE, nodes);
	odd_ones();
	if (access("/sys/kernel/mm/mempolicy/weighted_interleave/node1", W_OK) == 0) {
		write_file("/sys/kernel/mm/mempolicy/weighted_interleave/node1", "3");
		area(MAP_PRIVATE | MAP_ANONYMOUS, -1, 0, WEIGHTED, nodes);
	}
	if (syscall(SYS_set_mempolicy, INTERLEAVE, &nodes, 64))
		printf("failed: set_mempolicy\n");
	area(MAP_PRIVATE | MAP_ANONYMOUS, -1, 0, 0, 0);
	area(MAP_SHARED | MAP_ANONYMOUS, -1, 0, 0, 0);

	show("/proc/self/numa_maps"), show("/proc/self/maps"), show("/proc/self/status");
	show("/proc/self/mountinfo"), show("/proc/version");
	show_folder("/sys/devices/system/node", "");
	show_folder("/sys/devices/system/node", "/meminfo");
	show_folder("/sys/devices/system/node", "/distance");
	show_folder("/sys/kernel/mm/mempolicy/weighted_interleave", "");
	printf("end\n");
	reboot(RB_POWER_OFF);
	return 0;
}
