/* Cuts and breaks what a program reads and writes: preloaded, it changes read(2) on standard input and
 * write(2) on standard output.
 *
 *   PIECES_READ=1        each read gets one byte at most       PIECES_WRITE=1   each write takes one
 *   PIECES_FAIL_READ=K   the K-th read fails, and no other     PIECES_FAIL_WRITE=K   the same of writes
 *   PIECES_REPORT=FILE   at the end one line goes there: "reads R writes W after A", where A counts the
 *                        reads and writes that came after one had failed
 *
 * Build: cc -O1 -shared -fPIC -o pieces.so pieces.c. Not proved. */
#define _GNU_SOURCE
#include <errno.h>
#include <fcntl.h>
#include <stdio.h>
#include <stdlib.h>
#include <sys/syscall.h>
#include <unistd.h>

static unsigned long reads, writes, after, failed;

static unsigned long number(const char *name)
{
	const char *text = getenv(name);
	return text ? strtoul(text, NULL, 10) : 0;
}

/* Whether this call fails; the count is of calls of its kind, this one among them. */
static int fails(const char *name, unsigned long count, int cause)
{
	after += failed;
	if (number(name) != count)
		return 0;
	failed = 1;
	errno = cause;
	return 1;
}

ssize_t read(int file, void *bytes, size_t size)
{
	if (file == 0 && fails("PIECES_FAIL_READ", ++reads, EIO))
		return -1;
	if (file == 0 && number("PIECES_READ") && size > 1)
		size = 1;
	return syscall(SYS_read, file, bytes, size);
}

ssize_t write(int file, const void *bytes, size_t size)
{
	if (file == 1 && fails("PIECES_FAIL_WRITE", ++writes, ENOSPC))
		return -1;
	if (file == 1 && number("PIECES_WRITE") && size > 1)
		size = 1;
	return syscall(SYS_write, file, bytes, size);
}

ssize_t __write(int file, const void *bytes, size_t size)
{
	return write(file, bytes, size);
}

__attribute__((destructor)) static void report(void)
{
	const char *path = getenv("PIECES_REPORT");
	FILE *file = path ? fopen(path, "w") : NULL;
	if (file) {
		fprintf(file, "reads %lu writes %lu after %lu\n", reads, writes, after);
		fclose(file);
	}
}

/* A program that ends so runs no destructor. */
void _exit(int status)
{
	report();
	syscall(SYS_exit_group, status);
	__builtin_unreachable();
}
