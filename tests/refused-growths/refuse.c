/* Refuses growths: preloaded into a program, it answers some of the program's allocations with "no memory".
 *
 * It counts each call of malloc, calloc, realloc to a size above 0, aligned_alloc and posix_memalign, by any thread, and
 * refuses those that the environment names. A refused realloc leaves its block as it was. free is the C library's.
 *
 *   REFUSE_MARK=BYTES    counts only what lies between the first and the second allocation of exactly so many bytes,
 *                        which the program makes as marks; neither mark is counted or refused. Unset: counts from the
 *                        start of the program to its end.
 *   REFUSE_NTH=N         refuses the N-th that is counted, from 1. Unset or 0: none.
 *   REFUSE_RUN=K         refuses so many in a row, from the N-th on. Unset: 1. 0: all from there on.
 *   REFUSE_REPORT=FILE   at the end writes there one line, "counted C refused R marks M"; not where the program is
 *                        ended by a signal.
 *
 * Build: cc -O1 -shared -fPIC -o refuse.so refuse.c      Use: LD_PRELOAD=./refuse.so REFUSE_NTH=3 ./program
 */
#define _GNU_SOURCE
#include <errno.h>
#include <fcntl.h>
#include <stdatomic.h>
#include <stdio.h>
#include <stdlib.h>
#include <sys/syscall.h>
#include <unistd.h>

/* The allocations of glibc under these names are those that its malloc and the rest call. */
extern void *__libc_malloc(size_t size);
extern void *__libc_calloc(size_t count, size_t size);
extern void *__libc_realloc(void *block, size_t size);
extern void *__libc_memalign(size_t alignment, size_t size);

static atomic_int ready;
static size_t mark;
static unsigned long first_refused;
static unsigned long run_length = 1;
static const char *report;

static atomic_ulong marks;
static atomic_ulong counted;
static atomic_ulong refused;

static unsigned long number(const char *name, unsigned long otherwise)
{
    const char *text = getenv(name);
    return text != NULL && *text != '\0' ? strtoul(text, NULL, 10) : otherwise;
}

__attribute__((constructor)) static void begin(void)
{
    mark = number("REFUSE_MARK", 0);
    first_refused = number("REFUSE_NTH", 0);
    run_length = number("REFUSE_RUN", 1);
    report = getenv("REFUSE_REPORT");
    atomic_store(&ready, 1);
}

/* Writes the report, once. */
__attribute__((destructor)) static void end(void)
{
    char line[128];
    int length, file;

    if (atomic_exchange(&ready, 0) == 0 || report == NULL)
        return;
    length = snprintf(line, sizeof line, "counted %lu refused %lu marks %lu\n", atomic_load(&counted),
                      atomic_load(&refused), atomic_load(&marks));
    file = open(report, O_WRONLY | O_CREAT | O_TRUNC, 0644);
    if (file >= 0) {
        if (write(file, line, (size_t)length) < 0)
            perror("refuse");
        close(file);
    }
}

/* A program that ends here runs no destructors. */
__attribute__((noreturn)) void _exit(int status)
{
    end();
    for (;;)
        syscall(SYS_exit_group, status);
}

/* Whether this allocation is refused; it is counted. */
static int refuses(size_t size)
{
    unsigned long place;

    if (!atomic_load(&ready))
        return 0;
    if (mark != 0) {
        if (size == mark) {
            atomic_fetch_add(&marks, 1);
            return 0;
        }
        if (atomic_load(&marks) != 1)
            return 0;
    }
    place = atomic_fetch_add(&counted, 1) + 1;
    if (first_refused == 0 || place < first_refused)
        return 0;
    if (run_length != 0 && place - first_refused >= run_length)
        return 0;
    atomic_fetch_add(&refused, 1);
    errno = ENOMEM;
    return 1;
}

void *malloc(size_t size)
{
    return refuses(size) ? NULL : __libc_malloc(size);
}

void *calloc(size_t count, size_t size)
{
    return refuses(count * size) ? NULL : __libc_calloc(count, size);
}

void *realloc(void *block, size_t size)
{
    return size != 0 && refuses(size) ? NULL : __libc_realloc(block, size);
}

void *aligned_alloc(size_t alignment, size_t size)
{
    return refuses(size) ? NULL : __libc_memalign(alignment, size);
}

int posix_memalign(void **block, size_t alignment, size_t size)
{
    void *made;

    if (alignment < sizeof(void *) || (alignment & (alignment - 1)) != 0)
        return EINVAL;
    made = refuses(size) ? NULL : __libc_memalign(alignment, size);
    if (made == NULL)
        return ENOMEM;
    *block = made;
    return 0;
}
