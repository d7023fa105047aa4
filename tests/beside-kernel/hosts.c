/* Plays scripts of hosts on the kernel that it was booted by, as player.c does scripts of one
 * process, and writes the same to the console.
 *
 * Groups are cgroups (v2) below the root, processes are processes, and tasks threads of them: a new
 * process has task 0 alone. `in P inherit T FROM` has the thread FROM make the thread T, in place
 * of the one that is there; `fork P Q TASK CHILD` has P's thread TASK fork, and CHILD is the only
 * thread of Q. Every other script keeps its processes in a leaf of each group, as systemd does; the
 * others have threaded groups, in which processes may stand beside groups.
 *
 * Where `memory-migrate on` stands, processes have pages, of which it tells behind a line of one that may
 * have placed or moved its pages, and for each process behind `cgroup-mems`, `attach` and `exit`:
 *
 *     in P lie => PAGE NODE PAGES, ..      runs of pages on one node, rising, by move_pages(2)
 *     in P counts => N0=PAGES ..           what numa_maps counts
 *
 * or, in scripts with a line `pool`, what pools.h has: `in P there => ..`, and behind these `pool => ..`.
 *
 * Not proved. */
#include "calls.h"
#include "pages.h"
#include "pools.h"
#include <semaphore.h>
#include <signal.h>
#include <sys/prctl.h>

#define GROUPS 10
#define PROCESSES 10
#define NO_PID 999999 /* (above what a kernel gives) */

/* ---- threads: each waits for a line in a place that all processes share */

struct thread {
	sem_t asked, answered;
	char line[512];
	char answer[2048];
};

struct process {
	pid_t pid;
	int first; /* the task that lives as long as the process */
	int lives[TASKS];
	struct thread threads[TASKS];
};

static struct process *processes;

static void serve(int process, int task);

static void *live(void *given)
{
	long number = (long)given;
	serve(number / TASKS, number % TASKS);
	return NULL;
}

static int make_thread(int process, int task)
{
	pthread_t thread;
	return pthread_create(&thread, NULL, live, (void *)((long)process * TASKS + task)) ||
	       pthread_detach(thread);
}

static int fork_as(int process, int task)
{
	pid_t pid = fork();
	if (pid == 0) {
		serve(process, task);
		_exit(0);
	}
	if (pid < 0)
		return errno;
	processes[process].pid = pid;
	processes[process].first = task;
	memset(processes[process].lives, 0, sizeof processes[process].lives);
	processes[process].lives[task] = 1;
	return 0;
}

/* A line of one process, as this thread. */
static void carry_out(const char *line, char *answer, int size)
{
	if (!strcmp(line, "lie"))
		list_pages(answer, size);
	else if (!strcmp(line, "counts"))
		list_counts(answer, size);
	else if (!strcmp(line, "there"))
		list_all(answer, size);
	else if (!carry_out_of_pools(line, answer, size) && !carry_out_of_pages(line, answer, size) &&
		 !carry_out_of_task(line, answer, size))
		tell(carry_out_of_memory(line), answer, size);
}

/* Carries out lines as this thread, until it is told to end. */
static void serve(int process, int task)
{
	struct thread *self = &processes[process].threads[task];
	int made, child;
	for (;;) {
		while (sem_wait(&self->asked))
			;
		if (!strcmp(self->line, "end"))
			break;
		if (sscanf(self->line, "inherit %d", &made) == 1)
			tell(make_thread(process, made), self->answer, sizeof self->answer);
		else if (sscanf(self->line, "fork %*d %d %*d %d", &child, &made) == 2)
			tell(fork_as(child, made), self->answer, sizeof self->answer);
		else
			carry_out(self->line, self->answer, sizeof self->answer);
		sem_post(&self->answered);
	}
	sem_post(&self->answered);
}

static void ask(int process, int task, const char *line, char *answer, int size)
{
	struct thread *thread = &processes[process].threads[task];
	snprintf(thread->line, sizeof thread->line, "%s", line);
	sem_post(&thread->asked);
	while (sem_wait(&thread->answered))
		;
	snprintf(answer, size, "%s", thread->answer);
}

/* ---- groups */

static char folders[GROUPS][256]; /* empty: there is no such group */
static int has_leaves;
static int has_pages; /* whether it is told where they lie */

static const char *folder_of(int group)
{
	int is_there = group >= 0 && group < GROUPS && folders[group][0];
	return is_there ? folders[group] : "/cgroup/absent";
}

static int write_in(const char *folder, const char *name, const char *text)
{
	char path[512];
	snprintf(path, sizeof path, "%s/%s", folder, name);
	return write_file(path, text);
}

static int make_group(int group, int parent)
{
	char folder[256], leaf[512];
	snprintf(folder, sizeof folder, "%.200s/g%d", folder_of(parent), group);
	if (!strncmp(folder_of(parent), "/cgroup/g", 9))
		write_in(folder_of(parent), "cgroup.subtree_control", "+cpuset");
	if (mkdir(folder, 0755))
		return errno;
	strcpy(folders[group], folder);
	snprintf(leaf, sizeof leaf, "%s/leaf", folder);
	if (has_leaves)
		return mkdir(leaf, 0755) ? errno : 0;
	return write_in(folder, "cgroup.type", "threaded");
}

static int move_to(pid_t pid, int group)
{
	char text[32];
	snprintf(text, sizeof text, "%d", (int)pid);
	if (has_leaves && group != 0)
		return write_in(folder_of(group), "leaf/cgroup.procs", text);
	return write_in(folder_of(group), "cgroup.procs", text);
}

/* ---- lines of a host */

static int begin_process(int process, int group)
{
	int failed = fork_as(process, 0);
	if (!failed && (failed = move_to(processes[process].pid, group))) {
		kill(processes[process].pid, SIGKILL);
		processes[process].pid = NO_PID;
	}
	return failed;
}

/* Ends a process, and waits until nothing is left of it: its parent doesn't ask for its status. */
static int end_process(int process)
{
	pid_t pid = processes[process].pid;
	if (kill(pid, SIGKILL))
		return errno;
	while (!kill(pid, 0))
		usleep(500);
	processes[process].pid = NO_PID;
	return 0;
}

/* Where a process' pages lie. */
static void tell_pages_of(int process)
{
	char answer[2048];
	ask(process, processes[process].first, "lie", answer, sizeof answer);
	printf("in %d lie => %s\n", process, answer);
	ask(process, processes[process].first, "counts", answer, sizeof answer);
	printf("in %d counts => %s\n", process, answer);
}

static void tell_all_of(int process)
{
	static char told[PROCESSES][2048];
	char answer[2048], name[32];
	ask(process, processes[process].first, "there", answer, sizeof answer);
	snprintf(name, sizeof name, "in %d there", process);
	tell_if_changed(name, answer, told[process], sizeof told[process]);
}

/* The same of one, or of each (-1); and what is in the pools. */
static void tell_pages(int process)
{
	static char told[1024];
	char text[1024];
	int other;
	for (other = 0; other < PROCESSES; other++)
		if (processes[other].pid != NO_PID && (process < 0 || other == process))
			has_pools ? tell_all_of(other) : tell_pages_of(other);
	if (has_pools) {
		list_pools(text, sizeof text);
		tell_if_changed("pool", text, told, sizeof told);
	}
}

/* A line of one process: its thread is made or asked. */
static void play_in(int process, const char *line, char *answer, int size)
{
	struct process *it = &processes[process];
	int task, maker;
	if (sscanf(line, "inherit %d %d", &task, &maker) == 2) {
		if (it->lives[task])
			ask(process, task, "end", answer, size);
		it->lives[task] = 1;
		task = maker;
	} else if (sscanf(line, "task %d", &task) != 1 && sscanf(line, "place %d", &task) != 1) {
		task = it->first;
	}
	ask(process, task, line, answer, size);
}

static int play_of_host(const char *line)
{
	int number, other;
	unsigned long node;
	char word[128];
	if (sscanf(line, "cgroup %d %d", &number, &other) == 2)
		return make_group(number, other);
	if (sscanf(line, "cgroup-mems %d %127s", &number, word) == 2)
		return write_in(folder_of(number), "cpuset.mems", strcmp(word, "-") ? word : "\n");
	if (sscanf(line, "process %d %d", &number, &other) == 2)
		return begin_process(number, other);
	if (sscanf(line, "attach %d %d", &number, &other) == 2)
		return move_to(processes[number].pid, other);
	if (sscanf(line, "exit %d", &number) == 1)
		return end_process(number);
	if (sscanf(line, "weight %lu %127s", &node, word) == 2)
		return set_weight(node, word);
	if (!strcmp(line, "memory-migrate on"))
		return has_pages = 1, 0; /* (a kernel always does, in cgroup v2) */
	return strcmp(line, "host") ? ENOSYS : 0;
}

static void play_line(const char *line)
{
	char answer[2048];
	int process = -1, task, begin;
	if (sscanf(line, "in %d %n", &process, &begin) == 1)
		play_in(process, line + begin, answer, sizeof answer);
	else if (sscanf(line, "fork %d %*d %d", &process, &task) == 2)
		ask(process, task, line, answer, sizeof answer);
	else if (!strncmp(line, "pool", 4))
		carry_out_pool(line, answer, sizeof answer);
	else
		tell(play_of_host(line), answer, sizeof answer);
	printf("%s => %s\n", line, answer);
	if (has_pages && process >= 0 &&
	    (may_move(line + begin) || (has_pools && may_change_pools(line + begin))))
		tell_pages(process);
	if (has_pages && (!strncmp(line, "cgroup-mems ", 12) || !strncmp(line, "attach ", 7) ||
			  !strncmp(line, "exit ", 5)))
		tell_pages(-1);
}

/* ---- a script */

static void clear_groups(void)
{
	int group, round;
	char leaf[512];
	for (round = 0; round < GROUPS; round++) {
		for (group = 1; group < GROUPS; group++) {
			snprintf(leaf, sizeof leaf, "%s/leaf", folder_of(group));
			rmdir(leaf);
			if (!rmdir(folder_of(group)))
				folders[group][0] = 0;
		}
	}
	for (group = 1; group < GROUPS; group++)
		if (folders[group][0])
			printf("no end of cgroup %d\n", group);
}

static void play(FILE *lines, const char *all)
{
	char line[512];
	int process, task;
	(void)all;
	prctl(PR_SET_CHILD_SUBREAPER, 1L);
	signal(SIGCHLD, SIG_IGN);
	processes = mmap(NULL, PROCESSES * sizeof *processes, PROT_READ | PROT_WRITE,
			 MAP_SHARED | MAP_ANONYMOUS, -1, 0);
	for (process = 0; process < PROCESSES; process++) {
		processes[process].pid = NO_PID;
		for (task = 0; task < TASKS; task++) {
			sem_init(&processes[process].threads[task].asked, 1, 0);
			sem_init(&processes[process].threads[task].answered, 1, 0);
		}
	}
	strcpy(folders[0], "/cgroup");
	set_all_weights_to_1();
	while (next_line(lines, line, sizeof line))
		play_line(line);
	for (process = 0; process < PROCESSES; process++)
		end_process(process);
	clear_groups();
}

static void turn(const char *all)
{
	(void)all;
	has_leaves = !has_leaves;
}

int main(void)
{
	play_all(play, turn);
	return 0;
}
