/* Plays scripts of numaplan on the kernel that it was booted by, through real system calls.
 *
 * It is the first program of a machine that `boot` starts under qemu, and finds the scripts in
 * /scripts: each begins with a line "script NAME". It writes to the console
 *
 *     order NODE: NODE NODE ..      the kernel's own fallback order of each node
 *     script NAME
 *     LINE => ANSWER
 *
 * and for a "place" line, of which the page is touched for the first time, the node that the page
 * went to, a colon, and the policy that numa_maps shows there. Not proved. */
#include "calls.h"

#define MEMS "/cgroup/played/cpuset.mems"
#define POOL "16" /* pages of 2 MiB on each node */

/* ---- tasks: a thread each, which carries out one line at a time */

struct task {
	pthread_t thread;
	pthread_mutex_t lock;
	pthread_cond_t changed;
	char line[512];
	char answer[256];
	int busy;
};

static struct task tasks[TASKS];

static void *live(void *given)
{
	struct task *task = given;
	pthread_mutex_lock(&task->lock);
	for (;;) {
		while (!task->busy)
			pthread_cond_wait(&task->changed, &task->lock);
		carry_out_of_task(task->line, task->answer, sizeof task->answer);
		task->busy = 0;
		pthread_cond_broadcast(&task->changed);
	}
	return NULL;
}

static void ask(struct task *task, const char *line, char *answer, int size)
{
	pthread_mutex_lock(&task->lock);
	snprintf(task->line, sizeof task->line, "%s", line);
	task->busy = 1;
	pthread_cond_broadcast(&task->changed);
	while (task->busy)
		pthread_cond_wait(&task->changed, &task->lock);
	snprintf(answer, size, "%s", task->answer);
	pthread_mutex_unlock(&task->lock);
}

/* ---- a script: a process of its own, in a cgroup that has all nodes at first */

static int play_alone(const char *line)
{
	unsigned long node;
	char word[128];
	if (sscanf(line, "mems %127s", word) == 1)
		return write_file(MEMS, word);
	if (sscanf(line, "weight %lu %127s", &node, word) == 2)
		return set_weight(node, word);
	return carry_out_of_memory(line);
}

static void play_line(const char *line)
{
	char answer[256];
	int task;
	if (sscanf(line, "task %d", &task) == 1 || sscanf(line, "place %d", &task) == 1)
		ask(&tasks[task % TASKS], line, answer, sizeof answer);
	else
		tell(play_alone(line), answer, sizeof answer);
	printf("%s => %s\n", line, answer);
}

/* Each node with memory has a pool of more pages of 2 MiB than a script maps at once. */
static void fill_pools(const char *all)
{
	unsigned long nodes[4] = {0};
	char path[128], text[128];
	int node;
	read_list(all, nodes);
	for (node = 0; node < 256; node++) {
		if (!(nodes[node / 64] >> node % 64 & 1))
			continue;
		snprintf(path, sizeof path, NODES "node%d/hugepages/hugepages-2048kB/nr_hugepages", node);
		write_file(path, POOL);
		read_line_of(path, text, sizeof text);
		if (strcmp(text, POOL))
			printf("no pool on node %d\n", node);
	}
}

static void open_cgroup(const char *all)
{
	char text[128];
	mkdir("/cgroup/played", 0755);
	write_file(MEMS, all);
	snprintf(text, sizeof text, "%d", (int)getpid());
	if (write_file("/cgroup/played/cgroup.procs", text))
		printf("no cgroup\n");
	set_all_weights_to_1();
	fill_pools(all);
}

static void play(FILE *lines, const char *all)
{
	char line[512];
	int task;
	open_cgroup(all);
	for (task = 0; task < TASKS; task++) {
		pthread_mutex_init(&tasks[task].lock, NULL);
		pthread_cond_init(&tasks[task].changed, NULL);
		pthread_create(&tasks[task].thread, NULL, live, &tasks[task]);
	}
	while (next_line(lines, line, sizeof line))
		play_line(line);
}

static void clean_up(const char *all)
{
	write_file(MEMS, all);
}

int main(void)
{
	play_all(play, clean_up);
	return 0;
}
