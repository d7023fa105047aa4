/* What the players of pages of 2 MiB share: the pools as a kernel tells them, lines that resize them or
 * that need them, and where such pages of this process lie. Stands behind pages.h. Not proved.
 *
 * From its first line `pool` on, which empties the pools, a script has behind each line that may have
 * changed these or moved pages
 *
 *     there => LIE | COUNTS | LIE | COUNTS       as pages.h has it, of pages of 4 KiB and of 2 MiB
 *     pool => pool N0=FREE/TOTAL ..              what sysfs tells, as numaplan tells it
 *
 * or `=` where that is as it was told last. Pages of 2 MiB have numbers of their own. */
#include <setjmp.h>
#include <signal.h>

#define TWO (2UL << 20)
#define FIRST_HUGE 0x1000UL /* address 2^33 */
#define HUGE_PAGES 32       /* more than scripts name */
#define POOLS "hugepages/hugepages-2048kB/"
#define ALL_POOLS "/sys/kernel/mm/" POOLS
#define MEMPOLICY ALL_POOLS "nr_hugepages_mempolicy"

static int has_pools; /* whether there was a line `pool` */

/* ---- the pools */

/* The path of a node's file, or of the one that stands for all nodes (-1). */
static void pool_path(int node, const char *name, char *path, int size)
{
	if (node < 0)
		snprintf(path, size, ALL_POOLS "%s_hugepages", name);
	else
		snprintf(path, size, NODES "node%d/" POOLS "%s_hugepages", node, name);
}

static long in_pool(int node, const char *name)
{
	char path[128];
	pool_path(node, name, path, sizeof path);
	read_line_of(path, path, sizeof path);
	return strtol(path, NULL, 10);
}

/* All pools, as the line `pool` is answered. */
static void list_pools(char *text, int size)
{
	unsigned long memory[4] = {0};
	int node, at = snprintf(text, size, "pool");
	char all[128];
	read_line_of(NODES "has_memory", all, sizeof all);
	read_list(all, memory);
	for (node = 0; node < 64; node++) {
		long surplus;
		if (!(memory[0] >> node & 1))
			continue;
		surplus = in_pool(node, "surplus");
		at += snprintf(text + at, size - at, " N%d=%ld/%ld", node, in_pool(node, "free"), in_pool(node, "nr"));
		if (surplus)
			at += snprintf(text + at, size - at, "+%ld", surplus);
	}
	snprintf(text + at, size - at, " reserved %ld", in_pool(-1, "resv"));
}

/* Writes a number to a file that is there. */
static int write_number(const char *path, long number)
{
	char text[32];
	int failed, file = open(path, O_WRONLY);
	if (file < 0)
		return errno;
	snprintf(text, sizeof text, "%ld", number);
	failed = write(file, text, strlen(text)) < 0 ? errno : 0;
	close(file);
	return failed;
}

static int resize(int node, long count)
{
	char path[128];
	pool_path(node, "nr", path, sizeof path);
	return write_number(path, count);
}

/* Whether a kernel (6.12) would take all memory of the node: its pages that aren't surplus, or those of
 * the others, are fewer than none. */
static int goes_wild(int node)
{
	long all = in_pool(-1, "nr") - in_pool(-1, "surplus");
	long own = in_pool(node, "nr") - in_pool(node, "surplus");
	return own < 0 || all < own;
}

/* Empties all pools, and has the first node with memory be the next to grow and to shrink, as once a
 * kernel has booted. (A node's own file leaves the mark there; one turn of all goes on to the first.) */
static void empty_pools(void)
{
	unsigned long memory[4] = {0};
	char text[512];
	int node, last = 0, turn;
	read_line_of(NODES "has_memory", text, sizeof text);
	read_list(text, memory);
	for (node = 0; node < 64; node++)
		last = memory[0] >> node & 1 ? node : last;
	for (turn = 0; turn < 8 && (in_pool(-1, "nr") || in_pool(-1, "surplus")); turn++)
		resize(-1, 24), resize(-1, 0);
	resize(last, 1), resize(-1, 2);
	resize(last, in_pool(last, "nr") - 1), resize(-1, 0);
}

/* ---- first writes */

static sigjmp_buf out_of_write;

static void leave_write(int number)
{
	siglongjmp(out_of_write, number);
}

/* Writes to a page: 0, or the signal that came. */
static int write_to(unsigned long address)
{
	int number = sigsetjmp(out_of_write, 1);
	if (number)
		return number;
	signal(SIGBUS, leave_write);
	signal(SIGSEGV, leave_write);
	*(volatile char *)address = 1;
	return 0;
}

static void fault(unsigned long address, int cpu, char *answer, int size)
{
	void *page = (void *)(address & ~(PAGE - 1));
	int status = -1, number;
	go_to_cpu_of(cpu);
	number = write_to(address);
	syscall(SYS_move_pages, 0, 1L, &page, NULL, &status, 0L);
	if (number)
		snprintf(answer, size, "%s", number == SIGBUS ? "SIGBUS" : "EFAULT");
	else
		snprintf(answer, size, "node %d", status);
}

/* Writes to each page of a span, as madvise(2) does until one finds none; the others have their turn too. */
static void populate_each(unsigned long start, unsigned long length, int cpu, char *answer, int size)
{
	unsigned long address;
	int failed = populate(start, length, cpu), lacked = 0;
	for (address = start; failed == EFAULT && address < start + length; address += PAGE)
		if (write_to(address) == SIGBUS) {
			lacked = 1;
			address |= TWO - PAGE;
		}
	tell(failed == EFAULT ? 0 : failed, answer, size);
	if (lacked)
		snprintf(answer, size, "full");
}

/* ---- where pages of 2 MiB lie */

/* Runs of them on one node, rising: PAGE NODE PAGES, .., counted in pages of 2 MiB. */
static void list_huge(char *text, int size)
{
	void *pages[HUGE_PAGES];
	int status[HUGE_PAGES], page, first, at = 0;
	for (page = 0; page < HUGE_PAGES; page++)
		pages[page] = (void *)((FIRST_HUGE + page) * TWO);
	syscall(SYS_move_pages, 0, (long)HUGE_PAGES, pages, NULL, status, 0L);
	text[0] = 0;
	for (first = 0; first < HUGE_PAGES; first = page) {
		for (page = first + 1; page < HUGE_PAGES && status[page] == status[first]; page++)
			;
		if (status[first] >= 0 && at < size)
			at += snprintf(text + at, size - at, "%s%lx %d %d", at ? ", " : "",
				       FIRST_HUGE + first, status[first], page - first);
	}
}

/* What numa_maps counts of them: N0=PAGES N2=PAGES .. */
static void count_huge(char *text, int size)
{
	unsigned long counts[64] = {0};
	char line[1024], *word;
	int node, pages, at = 0;
	FILE *file = fopen("/proc/self/numa_maps", "r");
	while (file && fgets(line, sizeof line, file)) {
		if (!strstr(line, "kernelpagesize_kB=2048"))
			continue;
		for (word = strtok(line, " \n"); word; word = strtok(NULL, " \n"))
			if (sscanf(word, "N%d=%d", &node, &pages) == 2 && node < 64)
				counts[node] += pages;
	}
	if (file)
		fclose(file);
	text[0] = 0;
	for (node = 0; node < 64; node++)
		if (counts[node] && at < size)
			at += snprintf(text + at, size - at, "N%d=%lu ", node, counts[node]);
}

/* All that is told of this process' pages. */
static void list_all(char *text, int size)
{
	char part[1024];
	int at;
	list_pages(text, size);
	list_counts(part, sizeof part);
	at = strlen(text);
	at += snprintf(text + at, size - at, " | %s | ", part);
	list_huge(part, sizeof part);
	at += snprintf(text + at, size - at, "%s | ", part);
	count_huge(part, sizeof part);
	snprintf(text + at, size - at, "%s", part);
}

/* Tells it, but for a text that was told last. */
static void tell_if_changed(const char *name, const char *text, char *told, int size)
{
	printf("%s => %s\n", name, strcmp(text, told) ? text : "=");
	snprintf(told, size, "%s", text);
}

/* ---- lines */

/* A line that resizes the pools, by this process, whose allowed nodes and policy count. */
static void carry_out_pool(const char *line, char *answer, int size)
{
	long first, second;
	int failed = 0, cpu, words = sscanf(line, "pool %ld %ld %d", &first, &second, &cpu);
	if (!has_pools)
		empty_pools();
	has_pools = 1;
	if (words == 3) {
		go_to_cpu_of(cpu);
		failed = write_number(MEMPOLICY, first);
	} else if (words == 2 && goes_wild(first)) {
		snprintf(answer, size, "Unsure");
		return;
	} else if (words == 2) {
		failed = resize(first, second);
	} else if (words == 1) {
		failed = resize(-1, first);
	}
	tell(failed, answer, size);
	if (!failed)
		list_pools(answer, size);
}

/* Whether a line may change the pools. */
static int may_change_pools(const char *line)
{
	return may_move(line) || !strncmp(line, "fault ", 6) || !strncmp(line, "unmap ", 6) ||
	       (!strncmp(line, "map ", 4) && strstr(line, " huge "));
}

/* A line of a process about pools or their pages; false where it is none. */
static int carry_out_of_pools(const char *line, char *answer, int size)
{
	unsigned long start, length;
	int cpu;
	if (!strncmp(line, "pool", 4))
		carry_out_pool(line, answer, size);
	else if (!has_pools)
		return 0;
	else if (sscanf(line, "fault %*d %lx %d", &start, &cpu) == 2)
		fault(start, cpu, answer, size);
	else if (sscanf(line, "populate %lx %lx %*d %d", &start, &length, &cpu) == 3)
		populate_each(start, length, cpu, answer, size);
	else
		return 0;
	return 1;
}
