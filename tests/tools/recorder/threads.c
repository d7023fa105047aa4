/* A process whose threads have other policies, which waits until it is ended: samples/threads are
 * copies of its files in /proc. Its first thread is bound to node 0; one interleaves, one has no
 * policy, one has the first one's. An area has a policy of its own, and others have none.
 * `cc -static -pthread`. Not proved. */
#define _GNU_SOURCE
#include <pthread.h>
#include <stdio.h>
#include <sys/mman.h>
#include <sys/prctl.h>
#include <sys/syscall.h>
#include <unistd.h>

#define PAGE 4096UL
#define AREA 0x7f1230000000UL

enum { DEFAULT, PREFERRED, BIND, INTERLEAVE, INHERITED };

static const char *names[] = {"none", "prefers", "binds", "interleaves", "inherits"};
static pthread_barrier_t ready;

static void set_policy(int mode)
{
	unsigned long nodes = 1;
	if (syscall(SYS_set_mempolicy, mode, mode ? &nodes : NULL, mode ? 64 : 0))
		perror("set_mempolicy");
}

static char *area(int number)
{
	char *at = (char *)(AREA + 0x1000000UL * number);
	if (mmap(at, 8 * PAGE, PROT_READ | PROT_WRITE, MAP_PRIVATE | MAP_ANONYMOUS | MAP_FIXED, -1, 0) !=
	    at)
		perror("mmap");
	for (int page = 0; page < 3; page++)
		at[page * PAGE] = 1;
	return at;
}

static void *work(void *mode)
{
	prctl(PR_SET_NAME, names[(long)mode]);
	if ((long)mode != INHERITED)
		set_policy((int)(long)mode);
	pthread_barrier_wait(&ready);
	pause();
	return NULL;
}

int main(void)
{
	unsigned long nodes = 1;
	pthread_t thread;
	pthread_barrier_init(&ready, NULL, 4);
	set_policy(BIND);
	area(0);
	if (syscall(SYS_mbind, area(1), 8 * PAGE, PREFERRED, &nodes, 64, 0))
		perror("mbind");
	long modes[] = {INTERLEAVE, DEFAULT, INHERITED};
	for (int place = 0; place < 3; place++)
		pthread_create(&thread, NULL, work, (void *)modes[place]);
	pthread_barrier_wait(&ready);
	printf("%d\n", getpid());
	fflush(stdout);
	pause();
	return 0;
}
