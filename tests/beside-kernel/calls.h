/* What the players of this folder share: the words of a line, the files of a kernel, the system calls
 * that a line of one process stands for, and how the first program of a machine begins. Not proved. */
#define _GNU_SOURCE
#include <errno.h>
#include <fcntl.h>
#include <pthread.h>
#include <sched.h>
#include <stdio.h>
#include <stdlib.h>
#include <string.h>
#include <sys/io.h>
#include <sys/mman.h>
#include <sys/mount.h>
#include <sys/reboot.h>
#include <sys/stat.h>
#include <sys/syscall.h>
#include <sys/wait.h>
#include <unistd.h>

#define PAGE 4096UL
#define TASKS 4
#define NODES "/sys/devices/system/node/"
#define WEIGHTS "/sys/kernel/mm/mempolicy/weighted_interleave/node"

enum { STATIC = 1 << 15, RELATIVE = 1 << 14 };

static const char *const mode_names[] = {"default", "prefer",     "bind", "interleave",
                                         "local",   "many", "weighted"};

struct policy {
	int word;               /* mode and flags, as the system calls take them */
	unsigned long nodes[4]; /* 256 nodes */
	int has_nodes;
};

/* ---- words of a line */

static const char *error_name(int number)
{
	const char *name = strerrorname_np(number);
	return name ? name : "?";
}

static void read_list(const char *text, unsigned long nodes[4])
{
	while (*text) {
		char *end;
		unsigned long last, first = strtoul(text, &end, 10);
		last = first;
		if (*end == '-')
			last = strtoul(end + 1, &end, 10);
		for (; first <= last && first < 256; first++)
			nodes[first / 64] |= 1UL << first % 64;
		text = *end ? end + 1 : end;
	}
}

static struct policy read_policy(const char *text)
{
	struct policy policy = {0};
	size_t length = strcspn(text, "=:");
	int mode;
	for (mode = 0; mode < 7; mode++)
		if (strlen(mode_names[mode]) == length && !strncmp(mode_names[mode], text, length))
			policy.word = mode;
	for (text += length; *text == '='; text += 1 + strcspn(text + 1, "=:"))
		policy.word |= text[1] == 's' ? STATIC : RELATIVE;
	if (*text == ':') {
		policy.has_nodes = 1;
		read_list(text + 1, policy.nodes);
	}
	return policy;
}

/* ---- files of the kernel */

static int write_file(const char *path, const char *text)
{
	int file = open(path, O_WRONLY | O_CREAT | O_TRUNC, 0644), failed; /* (as a shell does) */
	if (file < 0)
		return errno;
	failed = write(file, text, strlen(text)) < 0 ? errno : 0;
	close(file);
	return failed;
}

static void read_line_of(const char *path, char *text, int size)
{
	FILE *file = fopen(path, "r");
	text[0] = 0;
	if (file && fgets(text, size, file))
		text[strcspn(text, "\n")] = 0;
	if (file)
		fclose(file);
}

/* The policy that numa_maps shows, for this thread, of the area that holds the address. */
static void policy_at(unsigned long address, char *text, int size)
{
	char path[64], line[1024];
	FILE *file;
	snprintf(path, sizeof path, "/proc/self/task/%d/numa_maps", (int)syscall(SYS_gettid));
	file = fopen(path, "r");
	strcpy(text, "?");
	while (file && fgets(line, sizeof line, file)) {
		unsigned long start = strtoul(line, NULL, 16);
		char *word = strchr(line, ' ') + 1, *end;
		if (start > address)
			break;
		/* (two names have a space in them) */
		end = word + strcspn(word, " \n");
		if (!strncmp(word, "prefer (", 8) || !strncmp(word, "weighted ", 9))
			end += 1 + strcspn(end + 1, " \n");
		snprintf(text, size, "%.*s", (int)(end - word), word);
	}
	if (file)
		fclose(file);
}

/* ---- the system calls */

static int set_span(unsigned long start, unsigned long length, struct policy policy)
{
	return syscall(SYS_mbind, start, length, (long)policy.word,
		       policy.has_nodes ? policy.nodes : NULL, policy.has_nodes ? 257L : 0L, 0L)
		       ? errno : 0;
}

static int set_task(struct policy policy)
{
	return syscall(SYS_set_mempolicy, (long)policy.word,
		       policy.has_nodes ? policy.nodes : NULL, policy.has_nodes ? 257L : 0L)
		       ? errno : 0;
}

/* The kernel looks at the offset, in pages of 4 KiB, of `huge` pages alone. */
static int map(unsigned long start, unsigned long length, unsigned long offset, const char *line)
{
	int flags = MAP_PRIVATE | MAP_ANONYMOUS | MAP_FIXED_NOREPLACE;
	void *at;
	flags |= strstr(line, " huge ") ? MAP_HUGETLB : 0;
	flags |= strstr(line, " noreserve") ? MAP_NORESERVE : 0;
	at = mmap((void *)start, length, PROT_READ | PROT_WRITE, flags, -1, offset * PAGE);
	return at == MAP_FAILED ? errno : 0;
}

static int set_home(unsigned long start, unsigned long length, unsigned long node)
{
	return syscall(450, start, length, node, 0L) ? errno : 0;
}

/* Touches the page from a CPU of the node, and tells where it went. */
static void place(unsigned long address, int node, char *answer, int size)
{
	unsigned long cpus[4] = {0};
	int status = -1;
	void *page = (void *)(address & ~(PAGE - 1));
	char policy[128];
	snprintf(policy, sizeof policy, NODES "node%d/cpulist", node);
	read_line_of(policy, policy, sizeof policy);
	read_list(policy, cpus);
	if (syscall(SYS_sched_setaffinity, 0, sizeof cpus, cpus) < 0) {
		snprintf(answer, size, "%s", error_name(errno));
		return;
	}
	*(volatile char *)page = 1;
	syscall(SYS_move_pages, 0, 1L, &page, NULL, &status, 0L);
	policy_at(address, policy, sizeof policy);
	snprintf(answer, size, "%d: %s", status, policy);
}

/* ---- a line */

static void tell(int failed, char *answer, int size)
{
	snprintf(answer, size, "%s", failed ? error_name(failed) : "ok");
}

/* A line of one task, which is this thread; false where it is none. */
static int carry_out_of_task(const char *line, char *answer, int size)
{
	char policy[128];
	unsigned long address;
	int task, cpu;
	if (sscanf(line, "task %d %127s", &task, policy) == 2)
		tell(set_task(read_policy(policy)), answer, size);
	else if (sscanf(line, "place %d %lx %d", &task, &address, &cpu) == 3)
		place(address, cpu, answer, size);
	else
		return 0;
	return 1;
}

/* A line of this process's memory; ENOSYS where it is none. */
static int carry_out_of_memory(const char *line)
{
	unsigned long start, length, offset, node;
	char word[128];
	if (sscanf(line, "map %lx %lx %lx", &start, &length, &offset) == 3)
		return map(start, length, offset, line);
	if (sscanf(line, "unmap %lx %lx", &start, &length) == 2)
		return munmap((void *)start, length) ? errno : 0;
	if (sscanf(line, "mbind %lx %lx %127s", &start, &length, word) == 3)
		return set_span(start, length, read_policy(word));
	if (sscanf(line, "home %lx %lx %lu", &start, &length, &node) == 3)
		return set_home(start, length, node);
	return ENOSYS;
}

static int set_weight(unsigned long node, const char *weight)
{
	char path[128];
	snprintf(path, sizeof path, WEIGHTS "%lu", node);
	return write_file(path, weight);
}

static void set_all_weights_to_1(void)
{
	unsigned long node;
	for (node = 0; node < 64; node++)
		set_weight(node, "1");
}

/* ---- what is told: byte by byte to a port of qemu's, which is much cheaper than a console */

#define PORT 0xe9

static ssize_t write_to_port(void *unused, const char *text, size_t size)
{
	size_t at;
	(void)unused;
	for (at = 0; at < size; at++)
		outb(text[at], PORT);
	return size;
}

static void tell_through_port(void)
{
	static const cookie_io_functions_t calls = {.write = write_to_port};
	FILE *port = iopl(3) ? NULL : fopencookie(NULL, "w", calls);
	stdout = port ? port : stdout;
}

/* ---- the machine */

static void tell_orders(void)
{
	char record[2048];
	int log = open("/dev/kmsg", O_RDONLY | O_NONBLOCK);
	ssize_t count;
	while ((count = read(log, record, sizeof record - 1)) > 0 || (count < 0 && errno == EPIPE)) {
		char *found;
		if (count <= 0)
			continue;
		record[count] = 0;
		found = strstr(record, "Fallback order for Node ");
		if (found)
			printf("order %.*s\n", (int)strcspn(found + 24, "\n"), found + 24);
	}
	close(log);
}

/* Plays the lines behind "script NAME" up to the next such line. */
typedef void player(FILE *lines, const char *nodes_with_memory);

/* What the first program of a machine does: each script of /scripts is played in a child of its own,
 * and behind it `clean_up` is called. */
static void play_all(player *play, void (*clean_up)(const char *nodes_with_memory))
{
	char line[512], all[128];
	FILE *scripts = fopen("/scripts", "r");
	mkdir("/proc", 0755), mkdir("/sys", 0755), mkdir("/dev", 0755), mkdir("/cgroup", 0755);
	mount("proc", "/proc", "proc", 0, "");
	mount("sysfs", "/sys", "sysfs", 0, "");
	mount("devtmpfs", "/dev", "devtmpfs", 0, "");
	mount("cgroup2", "/cgroup", "cgroup2", 0, "");
	write_file("/cgroup/cgroup.subtree_control", "+cpuset");
	tell_through_port();
	printf("\n");
	tell_orders();
	read_line_of(NODES "has_memory", all, sizeof all);
	while (scripts && fgets(line, sizeof line, scripts)) {
		long at = ftell(scripts);
		pid_t child;
		if (strncmp(line, "script ", 7))
			continue;
		printf("%s", line);
		fflush(stdout);
		child = fork();
		if (child == 0) {
			FILE *own = fopen("/scripts", "r");
			fseek(own, at, SEEK_SET);
			play(own, all);
			fflush(stdout);
			_exit(0);
		}
		waitpid(child, NULL, 0);
		clean_up(all);
	}
	printf("end\n");
	fflush(stdout);
	sync();
	reboot(RB_POWER_OFF);
}

/* The next line of a script, without its line feed; false behind the last. */
static int next_line(FILE *lines, char *line, int size)
{
	if (!fgets(line, size, lines) || !strncmp(line, "script ", 7))
		return 0;
	line[strcspn(line, "\n")] = 0;
	return 1;
}
