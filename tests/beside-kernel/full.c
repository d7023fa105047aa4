/* Fills nodes: a process of its own, which holds the memory of each node that it was told to fill.
 *
 * First it takes most of what the node has free, all at once, then some pages at a time as
 * move_pages(2) takes memory, until there is none. Nothing that a moved page could use is left then. Not proved. */

enum { SPARE = 2048, BLOCK = 32, MOST_HELD = 4096 };

static struct {
	void *start;
	size_t length;
} held[MOST_HELD];
static int held_count;
static unsigned long was_filled; /* nodes */

static char *hold(size_t length)
{
	void *start = mmap(NULL, length, PROT_READ | PROT_WRITE, MAP_PRIVATE | MAP_ANONYMOUS, -1, 0);
	if (start == MAP_FAILED || held_count == MOST_HELD)
		return NULL;
	held[held_count].start = start;
	held[held_count++].length = length;
	return start;
}

static long free_pages(int node)
{
	char path[64], line[128];
	long number = 0;
	FILE *file;
	snprintf(path, sizeof path, NODES "node%d/meminfo", node);
	file = fopen(path, "r");
	while (file && fgets(line, sizeof line, file))
		if (sscanf(line, "Node %*d MemFree: %ld kB", &number) == 1)
			break;
	if (file)
		fclose(file);
	return number / 4;
}

/* Touches so many pages, of the node as long as it has some. */
static char *take(int node, long pages)
{
	unsigned long nodes[4] = {0};
	char *start = pages > 0 ? hold(pages * PAGE) : NULL;
	long page;
	if (!start)
		return NULL;
	nodes[node / 64] |= 1UL << node % 64;
	syscall(SYS_mbind, start, pages * PAGE, 1L, nodes, 257L, 0L);
	for (page = 0; page < pages; page++)
		start[page * PAGE] = 1;
	return start;
}

/* Takes a few pages and moves them to the node; whether all are there. */
static int take_by_moving(int node, int pages)
{
	char *start = take(node, pages);
	void *moved[BLOCK];
	int nodes[BLOCK], status[BLOCK], page;
	if (!start)
		return 0;
	for (page = 0; page < pages; page++)
		moved[page] = start + page * PAGE, nodes[page] = node, status[page] = -1;
	if (syscall(SYS_move_pages, 0, (long)pages, moved, nodes, status, 2L))
		return 0;
	for (page = 0; page < pages; page++)
		if (status[page] != node)
			return 0;
	return 1;
}

/* The first time most of the memory is taken at once. (What is left of a full node isn't little.) */
static void fill(int node)
{
	int failed = 0;
	if (!(was_filled >> node & 1)) {
		take(node, free_pages(node) - SPARE);
		while (take_by_moving(node, BLOCK))
			;
	}
	was_filled |= 1UL << node;
	while (failed < 2 && held_count < MOST_HELD)
		failed = take_by_moving(node, 1) ? 0 : failed + 1;
}

static void give_all(void)
{
	was_filled = 0;
	while (held_count) {
		held_count--;
		munmap(held[held_count].start, held[held_count].length);
	}
}

/* Fills the node of each number that is read, gives all back for -1; answers when that is done. */
static void serve_fills(int from, int to)
{
	int node;
	write_file("/proc/self/oom_score_adj", "-1000"); /* (so that it isn't ended in another's place) */
	while (read(from, &node, sizeof node) == sizeof node) {
		if (node < 0)
			give_all();
		else
			fill(node);
		if (write(to, &node, sizeof node) != sizeof node)
			break;
	}
	_exit(0);
}
