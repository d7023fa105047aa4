/* Plays scripts of pages that are there on the kernel that it was booted by, as player.c does others.
 *
 * `at` touches pages and moves them to their node, `populate` is madvise(2) with MADV_POPULATE_WRITE on
 * a CPU of the node, `room NODE 0` fills a node (full.c), and `migrate`, `move` and `mbind` with `strict`
 * and `move` are the calls of these names. Behind each line that may have placed or moved pages it tells
 * where all pages of the script lie:
 *
 *     lie => PAGE NODE PAGES, PAGE NODE PAGES, ..      runs of pages on one node, rising
 *     counts => N0=PAGES N2=PAGES ..                   what numa_maps counts
 *
 * Scripts whose pages fill nodes begin with `zones NODE`, which goes to a CPU of the node and is answered
 * by what tools/free-pages reads of /proc/zoneinfo, its lines in one; then pages are counted behind each
 * such line, and none is listed. `rest` before it shortens the lists of free pages that CPUs have, as
 * some seconds without work do.
 *
 * and before such a line, where a node is full, `own => NODES`: on which nodes pages of this program
 * itself lie, as its code and stack; a kernel moves these too. Of scripts that begin with `pool` it tells
 * what pools.h has in place of these. A script that was played whole has
 * `end => ok` behind it. The process has one thread, since a kernel moves pages once for each. Not
 * proved. */
#include "calls.h"
#include "full.c"
#include "pages.h"
#include "pools.h"

#define MEMS "/cgroup/played/cpuset.mems"

static int to_filler, from_filler; /* pipes */
static int is_full, is_filling;

static void ask_filler(int node)
{
	if (write(to_filler, &node, sizeof node) != sizeof node ||
	    read(from_filler, &node, sizeof node) != sizeof node)
		printf("no filler\n");
}

/* ---- where pages lie */

static void tell_of_pools(void)
{
	static char told[2048], told_of_pools[1024];
	char text[2048];
	list_all(text, sizeof text);
	tell_if_changed("there", text, told, sizeof told);
	list_pools(text, sizeof text);
	tell_if_changed("pool", text, told_of_pools, sizeof told_of_pools);
}

static void tell_pages(void)
{
	char text[2048];
	if (!is_filling) {
		list_pages(text, sizeof text);
		printf("lie => %s\n", text);
	}
	list_counts(text, sizeof text);
	printf("counts => %s\n", text);
}

/* The lines of each zone that has pages, without the many of what was counted: what tools/free-pages
 * reads. */
static void tell_zones(const char *asked)
{
	char line[1024], name[32], zone[8192] = "";
	unsigned long managed = 0;
	const char *mark = "";
	FILE *file = fopen("/proc/zoneinfo", "r");
	int node, at = 0, is_there = 1;
	printf("%s => ", asked);
	while (is_there) {
		char value[256];
		is_there = file && fgets(line, sizeof line, file);
		if (!is_there || sscanf(line, "Node %d, zone %31s", &node, name) == 2) {
			printf("%s%s", managed ? mark : "", managed ? zone : "");
			mark = managed ? "; " : mark;
			managed = 0;
			at = snprintf(zone, sizeof zone, "Node %d, zone %s", node, name);
		} else if (sscanf(line, " managed %lu", &managed) == 1) {
			at += snprintf(zone + at, sizeof zone - at, "; managed %lu", managed);
		} else if (sscanf(line, " pages free %255[0-9]", value) == 1) {
			at += snprintf(zone + at, sizeof zone - at, "; pages free %s", value);
		} else if (sscanf(line, " %31[a-z:] %255[^\n]", name, value) == 2 &&
			   strstr("low protection: cpu: count: ", strcat(name, " "))) {
			at += snprintf(zone + at, sizeof zone - at, "; %s%s", name, value);
		}
	}
	if (file)
		fclose(file);
	printf("\n");
}

/* As if CPUs had no work for some seconds, after which their lists are short. */
static int rest(void)
{
	int turn, failed = 0;
	for (turn = 0; turn < 40 && !failed; turn++)
		failed = write_file("/proc/sys/vm/stat_refresh", "1");
	return failed;
}

/* The nodes on which pages lie that no script names. */
static void tell_own(void)
{
	unsigned long counts[64];
	int node;
	count_pages(0, counts);
	printf("own => ");
	for (node = 0; node < 64; node++)
		if (counts[node])
			printf("%d ", node);
	printf("\n");
}

/* ---- lines */

/* Touches the mapped pages of a span, and moves them to a node. */
static const char *state(unsigned long start, unsigned long length, int node)
{
	unsigned long address;
	for (address = start; address < start + length; address += PAGE) {
		void *page = (void *)address;
		unsigned char is_there;
		int status = -1;
		if (mincore(page, PAGE, &is_there))
			continue;
		*(volatile char *)page = 1;
		if (syscall(SYS_move_pages, 0, 1L, &page, &node, &status, (long)MOVE))
			return error_name(errno);
		if (status != node)
			return "not there";
	}
	return "ok";
}

static int moves(const char *line)
{
	return may_move(line) || !strncmp(line, "mems ", 5);
}

static void carry_out(const char *line, char *answer, int size)
{
	unsigned long start, length, node;
	char word[128];
	if (!strcmp(line, "rest")) {
		tell(rest(), answer, size);
	} else if (sscanf(line, "at %lx %lx %lu", &start, &length, &node) == 3) {
		snprintf(answer, size, "%s", state(start, length, node));
	} else if (sscanf(line, "room %lu", &node) == 1) {
		is_full = 1;
		ask_filler(node);
		tell(0, answer, size);
	} else if (sscanf(line, "memory-migrate %127s", word) == 1) {
		tell(0, answer, size); /* (a kernel always does, in cgroup v2) */
	} else if (sscanf(line, "mems %127s", word) == 1) {
		tell(write_file(MEMS, word), answer, size);
	} else if (sscanf(line, "weight %lu %127s", &node, word) == 2) {
		tell(set_weight(node, word), answer, size);
	} else if (!carry_out_of_pools(line, answer, size) && !carry_out_of_pages(line, answer, size) &&
		   !carry_out_of_task(line, answer, size)) {
		tell(carry_out_of_memory(line), answer, size);
	}
}

static void play(FILE *lines, const char *all)
{
	char line[512], answer[2048];
	mkdir("/cgroup/played", 0755);
	write_file(MEMS, all);
	snprintf(line, sizeof line, "%d", (int)getpid());
	if (write_file("/cgroup/played/cgroup.procs", line))
		printf("no cgroup\n");
	set_all_weights_to_1();
	while (next_line(lines, line, sizeof line)) {
		int cpu;
		if (sscanf(line, "zones %d", &cpu) == 1) {
			is_filling = 1;
			go_to_cpu_of(cpu);
			tell_zones(line);
			continue;
		}
		if (is_full && moves(line))
			tell_own();
		carry_out(line, answer, sizeof answer);
		printf("%s => %s\n", line, answer);
		if (has_pools && (moves(line) || may_change_pools(line)))
			tell_of_pools();
		else if (moves(line))
			tell_pages();
	}
	printf("end => ok\n");
}

static void clean_up(const char *all)
{
	write_file(MEMS, all);
	ask_filler(-1);
}

int main(void)
{
	int there[2], back[2];
	if (pipe(there) || pipe(back))
		return 1;
	if (fork() == 0) {
		close(there[1]), close(back[0]);
		serve_fills(there[0], back[1]);
	}
	close(there[0]), close(back[1]);
	to_filler = there[1];
	from_filler = back[0];
	play_all(play, clean_up);
	return 0;
}
