/* What the players of pages share: where the pages of this process lie, and lines that place or move
 * them. Stands behind calls.h. Not proved. */

#define FIRST_PAGE 0x100000UL
#define PAGES 64 /* more than scripts name, but where they fill nodes */
#define LAST_PAGE (FIRST_PAGE + (1UL << 20))

enum { STRICT = 1, MOVE = 2, POPULATE_WRITE = 23 };

static void go_to_cpu_of(int node)
{
	unsigned long cpus[4] = {0};
	char text[128];
	snprintf(text, sizeof text, NODES "node%d/cpulist", node);
	read_line_of(text, text, sizeof text);
	read_list(text, cpus);
	syscall(SYS_sched_setaffinity, 0, sizeof cpus, cpus);
}

/* ---- where pages lie */

/* Runs of the script's pages on one node, rising: PAGE NODE PAGES, PAGE NODE PAGES, .. */
static void list_pages(char *text, int size)
{
	void *pages[PAGES];
	int status[PAGES], page, first, at = 0;
	for (page = 0; page < PAGES; page++)
		pages[page] = (void *)((FIRST_PAGE + page) * PAGE);
	syscall(SYS_move_pages, 0, (long)PAGES, pages, NULL, status, 0L);
	text[0] = 0;
	for (first = 0; first < PAGES; first = page) {
		for (page = first + 1; page < PAGES && status[page] == status[first]; page++)
			;
		if (status[first] >= 0 && at < size)
			at += snprintf(text + at, size - at, "%s%lx %d %d", at ? ", " : "",
				       FIRST_PAGE + first, status[first], page - first);
	}
}

/* By node, how many pages numa_maps has: of those that scripts name, or of all others. */
static void count_pages(int are_named, unsigned long counts[64])
{
	char line[1024], *word;
	int node, pages;
	FILE *file = fopen("/proc/self/numa_maps", "r");
	memset(counts, 0, 64 * sizeof counts[0]);
	while (file && fgets(line, sizeof line, file)) {
		unsigned long start = strtoul(line, NULL, 16);
		if ((start >= FIRST_PAGE * PAGE && start < LAST_PAGE * PAGE) != are_named)
			continue;
		for (word = strtok(line, " \n"); word; word = strtok(NULL, " \n"))
			if (sscanf(word, "N%d=%d", &node, &pages) == 2 && node < 64)
				counts[node] += pages;
	}
	if (file)
		fclose(file);
}

/* What numa_maps counts of the script's pages: N0=PAGES N2=PAGES .. */
static void list_counts(char *text, int size)
{
	unsigned long counts[64];
	int node, at = 0;
	count_pages(1, counts);
	text[0] = 0;
	for (node = 0; node < 64; node++)
		if (counts[node] && at < size)
			at += snprintf(text + at, size - at, "N%d=%lu ", node, counts[node]);
}

/* ---- lines */

static void move_one(unsigned long address, int node, char *answer, int size)
{
	void *page = (void *)(address & ~(PAGE - 1));
	int status = -1;
	if (syscall(SYS_move_pages, 0, 1L, &page, &node, &status, (long)MOVE))
		status = -errno;
	if (status < 0)
		snprintf(answer, size, "%s", error_name(-status));
	else
		snprintf(answer, size, "node %d", status);
}

static int bind_with(unsigned long start, unsigned long length, struct policy policy, long flags)
{
	return syscall(SYS_mbind, start, length, (long)policy.word,
		       policy.has_nodes ? policy.nodes : NULL, policy.has_nodes ? 257L : 0L, flags)
		       ? errno : 0;
}

static int populate(unsigned long start, unsigned long length, int cpu)
{
	go_to_cpu_of(cpu);
	return madvise((void *)start, length, POPULATE_WRITE) ? errno : 0;
}

static int migrate(const char *from, const char *to)
{
	unsigned long old[4] = {0}, new[4] = {0};
	read_list(from, old);
	read_list(to, new);
	return syscall(SYS_migrate_pages, 0, 257L, old, new) < 0 ? errno : 0;
}

/* The flags at the end of an `mbind`; -1 where it has none. */
static long flags_of(const char *line, int *cpu)
{
	const char *move = strstr(line, " move ");
	long flags = strstr(line, " strict") ? STRICT : 0;
	if (move && sscanf(move, " move %*d %d", cpu) == 1)
		flags |= MOVE;
	return flags ? flags : -1;
}

/* Whether a line of a process may place or move pages. */
static int may_move(const char *line)
{
	int cpu;
	return !strncmp(line, "populate ", 9) || !strncmp(line, "migrate ", 8) ||
	       !strncmp(line, "move ", 5) || (!strncmp(line, "mbind ", 6) && flags_of(line, &cpu) > 0);
}

/* A line of a process about its pages; false where it is none. */
static int carry_out_of_pages(const char *line, char *answer, int size)
{
	unsigned long start, length, node;
	char word[128], other[128];
	int cpu = -1;
	if (sscanf(line, "populate %lx %lx %*d %d", &start, &length, &cpu) == 3) {
		tell(populate(start, length, cpu), answer, size);
	} else if (sscanf(line, "migrate %127s %127s", word, other) == 2) {
		tell(migrate(word, other), answer, size);
	} else if (sscanf(line, "move %lx %lu", &start, &node) == 2) {
		move_one(start, node, answer, size);
	} else if (may_move(line) && sscanf(line, "mbind %lx %lx %127s", &start, &length, word) == 3) {
		long flags = flags_of(line, &cpu);
		if (cpu >= 0)
			go_to_cpu_of(cpu);
		tell(bind_with(start, length, read_policy(word), flags), answer, size);
	} else {
		return 0;
	}
	return 1;
}
