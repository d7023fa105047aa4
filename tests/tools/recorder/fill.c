/* The first program of a booted machine: it fills each node with CPUs from a CPU of it, and prints where
 * the pages came to lie, after a copy of /proc/zoneinfo as it was before. See fills. Not proved. */
#define _GNU_SOURCE
#include <fcntl.h>
#include <sched.h>
#include <stdio.h>
#include <stdlib.h>
#include <string.h>
#include <sys/mman.h>
#include <sys/mount.h>
#include <sys/reboot.h>
#include <sys/stat.h>
#include <sys/syscall.h>
#include <sys/wait.h>
#include <unistd.h>

enum { PAGE = 4096, BLOCK = 1024, SPARE = 6000 };

static void print_file(const char *path)
{
	char bytes[4096];
	ssize_t length;
	int file = open(path, O_RDONLY);
	printf("file %s\n", path);
	fflush(stdout);
	while (file >= 0 && (length = read(file, bytes, sizeof bytes)) > 0)
		fwrite(bytes, 1, length, stdout);
	close(file);
	printf("end of file\n");
	fflush(stdout);
}

static long free_pages(int node)
{
	char path[64], line[128];
	long number = 0;
	FILE *file;
	snprintf(path, sizeof path, "/sys/devices/system/node/node%d/meminfo", node);
	file = fopen(path, "r");
	while (file && fgets(line, sizeof line, file))
		if (sscanf(line, "Node %*d MemFree: %ld kB", &number) == 1)
			break;
	if (file)
		fclose(file);
	return number / 4;
}

/* Runs of pages on one node, in the order in which they were touched. */
static void print_nodes(int node, char *start, long pages)
{
	static void *places[BLOCK];
	static int status[BLOCK];
	long page, run = 0;
	int last = -1;
	printf("fill from %d:", node);
	for (page = 0; page < pages; page++) {
		long place = page % BLOCK;
		if (!place) {
			long count = pages - page < BLOCK ? pages - page : BLOCK;
			for (long next = 0; next < count; next++)
				places[next] = start + (page + next) * PAGE;
			if (syscall(SYS_move_pages, 0, count, places, NULL, status, 0L)) {
				printf(" failed\n");
				exit(1);
			}
		}
		if (status[place] != last && run) {
			printf(" N%d*%ld", last, run);
			run = 0;
		}
		last = status[place];
		run++;
	}
	printf(" N%d*%ld\n", last, run);
	fflush(stdout);
}

/* A process on a CPU of the node (they have one each, of the same number), which touches as many pages as
 * the node has free and some more: a kernel that finds none there goes on to the next node. */
static void fill(int node, int cpu)
{
	long pages = free_pages(node) + SPARE;
	pid_t child;
	print_file("/proc/zoneinfo");
	child = fork();
	if (!child) {
		cpu_set_t cpus;
		char *start;
		CPU_ZERO(&cpus);
		CPU_SET(cpu, &cpus);
		sched_setaffinity(0, sizeof cpus, &cpus);
		start = mmap(NULL, pages * PAGE, PROT_READ | PROT_WRITE, MAP_PRIVATE | MAP_ANONYMOUS, -1, 0);
		for (long page = 0; page < pages; page++)
			start[page * PAGE] = 1;
		print_nodes(node, start, pages);
		exit(0);
	}
	waitpid(child, NULL, 0);
}

int main(void)
{
	char words[256] = "";
	int node, cpu, at = 0, length;
	int file = open("/fills", O_RDONLY);
	if (file < 0 || read(file, words, sizeof words - 1) <= 0)
		return 1;
	mkdir("/proc", 0755), mkdir("/sys", 0755);
	mount("proc", "/proc", "proc", 0, NULL);
	mount("sysfs", "/sys", "sysfs", 0, NULL);
	sleep(2); /* what booting frees late is free */
	printf("\n"); /* what qemu's firmware wrote may have no end of line */
	while (sscanf(words + at, "%d:%d%n", &node, &cpu, &length) == 2) {
		at += length;
		fill(node, cpu);
		sleep(30); /* what it freed leaves the lists of its CPU */
	}
	printf("end\n");
	fflush(stdout);
	reboot(RB_AUTOBOOT);
	return 0;
}
