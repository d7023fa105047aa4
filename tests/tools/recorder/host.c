/* Two services and a job in control groups (v2), on the kernel that it was booted by: it prints
 * what the kernel shows of them, file by file, for samples/host of tests/tools.
 *
 * It is the first program of a machine of four nodes that `record` starts under qemu. db.service
 * has the nodes 0-1 and interleaves; web.service has 2-3, and its worker is a child; backup.service
 * has no list. Not proved. */
#define _GNU_SOURCE
#include <dirent.h>
#include <fcntl.h>
#include <sched.h>
#include <stdio.h>
#include <stdlib.h>
#include <string.h>
#include <sys/mman.h>
#include <sys/mount.h>
#include <sys/prctl.h>
#include <sys/reboot.h>
#include <sys/stat.h>
#include <sys/syscall.h>
#include <sys/wait.h>
#include <unistd.h>

#define PAGE 4096UL
#define AREA 0x7f1230000000UL
#define GROUPS "/sys/fs/cgroup"
#define SLICE GROUPS "/system.slice"

enum { PREFERRED = 1, BIND = 2, INTERLEAVE = 3 };

static void write_file(const char *path, const char *text)
{
	int file = open(path, O_WRONLY | O_CREAT, 0600);
	if (file < 0 || write(file, text, strlen(text)) < 0)
		printf("failed: write %s\n", path);
	close(file);
}

static void set_policy(int mode, unsigned long nodes)
{
	if (syscall(SYS_set_mempolicy, mode, &nodes, 64))
		printf("failed: set_mempolicy\n");
}

/* Maps so many pages, binds them where mode is one, and writes to the first ones. */
static void area(int number, int file, unsigned long pages, unsigned long touched, int mode,
		 unsigned long nodes)
{
	char *at = (char *)(AREA + 0x1000000UL * number);
	unsigned long page;
	int flags = file < 0 ? MAP_PRIVATE | MAP_ANONYMOUS : MAP_SHARED;
	if (mmap(at, pages * PAGE, PROT_READ | PROT_WRITE, flags | MAP_FIXED, file, 0) != at)
		printf("failed: mmap %d\n", number);
	if (mode && syscall(SYS_mbind, at, pages * PAGE, mode, &nodes, 64, 0))
		printf("failed: mbind %d\n", number);
	for (page = 0; page < touched; page++)
		at[page * PAGE] = 1;
}

static void db(void)
{
	int file = open("/dev/shm/queue", O_RDWR | O_CREAT, 0600);
	if (file < 0 || ftruncate(file, 64 * PAGE))
		printf("failed: queue\n");
	set_policy(INTERLEAVE, 3);
	area(0, -1, 1024, 900, 0, 0);
	area(1, file, 64, 64, BIND, 2);
}

static void web(void)
{
	area(0, -1, 256, 200, PREFERRED, 8);
	if (fork() == 0) {
		prctl(PR_SET_NAME, "web-worker");
		area(1, -1, 512, 300, 0, 0);
	}
}

static void backup(void)
{
	area(0, -1, 128, 100, 0, 0);
}

/* Starts a service in a group of its own, on CPUs of one node. */
static void start(const char *name, const char *nodes, int cpu, void (*service)(void))
{
	char folder[128], path[192];
	pid_t child;
	snprintf(folder, sizeof folder, SLICE "/%s.service", name);
	mkdir(folder, 0755);
	snprintf(path, sizeof path, "%s/cpuset.mems", folder);
	if (nodes)
		write_file(path, nodes);
	child = fork();
	if (child == 0) {
		cpu_set_t one;
		snprintf(path, sizeof path, "%s/cgroup.procs", folder);
		write_file(path, "0");
		CPU_ZERO(&one);
		CPU_SET(cpu, &one);
		sched_setaffinity(0, sizeof one, &one);
		prctl(PR_SET_NAME, name);
		service();
		pause();
		_exit(0);
	}
	usleep(500000); /* (what a service does takes some milliseconds) */
}

/* ---- what the kernel shows */

static void show(const char *folder, const char *name)
{
	char path[600], text[4096];
	ssize_t count;
	int file;
	snprintf(path, sizeof path, "%s/%s", folder, name);
	file = open(path, O_RDONLY);
	count = file < 0 ? -1 : read(file, text, sizeof text);
	if (count >= 0)
		printf("file %s\n", path);
	for (; count > 0; count = read(file, text, sizeof text))
		if (write(1, text, (size_t)count) != count)
			break;
	if (count >= 0)
		printf("\n");
	close(file);
}

static void show_group(const char *folder)
{
	show(folder, "cpuset.mems"), show(folder, "cpuset.mems.effective");
	show(folder, "cgroup.procs");
}

static void show_processes(void)
{
	static const char *const names[] = {"numa_maps", "maps",   "status",
					    "mountinfo", "cgroup", "comm"};
	struct dirent *found;
	DIR *proc = opendir("/proc");
	char path[300], text[16];
	unsigned each;
	while (proc && (found = readdir(proc))) {
		int file;
		snprintf(path, sizeof path, "/proc/%s/maps", found->d_name);
		file = open(path, O_RDONLY);
		snprintf(path, sizeof path, "/proc/%s", found->d_name);
		if (atoi(found->d_name) > 1 && read(file, text, sizeof text) > 0)
			for (each = 0; each < 6; each++)
				show(path, names[each]);
		close(file);
	}
}

int main(void)
{
	static const char *const services[] = {"db", "web", "backup"};
	char path[300];
	int each;
	setvbuf(stdout, NULL, _IONBF, 0);
	printf("\nbegin\n");
	mkdir("/proc", 0755), mkdir("/sys", 0755), mkdir("/dev", 0755);
	mount("proc", "/proc", "proc", 0, "");
	mount("sysfs", "/sys", "sysfs", 0, "");
	mount("cgroup2", GROUPS, "cgroup2", 0, "");
	mkdir("/dev/shm", 0755);
	mount("tmpfs", "/dev/shm", "tmpfs", 0, "");
	write_file(GROUPS "/cgroup.subtree_control", "+cpuset");
	mkdir(SLICE, 0755);
	write_file(SLICE "/cgroup.subtree_control", "+cpuset");
	start("db", "0-1", 1, db);
	start("web", "2-3", 2, web);
	start("backup", NULL, 0, backup);

	show_processes();
	show("/proc", "version");
	show(GROUPS, "cgroup.procs"), show_group(SLICE);
	for (each = 0; each < 3; each++) {
		snprintf(path, sizeof path, SLICE "/%s.service", services[each]);
		show_group(path);
	}
	show("/sys/devices/system/node", "has_cpu"), show("/sys/devices/system/node", "has_memory");
	for (each = 0; each < 4; each++) {
		snprintf(path, sizeof path, "/sys/devices/system/node/node%d", each);
		show(path, "meminfo"), show(path, "distance");
		snprintf(path, sizeof path, "node%d", each);
		show("/sys/kernel/mm/mempolicy/weighted_interleave", path);
	}
	printf("end\n");
	reboot(RB_POWER_OFF);
	return 0;
}
