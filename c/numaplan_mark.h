/* numaplan_mark.h: a program says that a moment has come, as
 *
 *     np_mark("loaded");
 *
 * or in a shell `echo loaded >&$NUMAPLAN_MARK`.
 * Under numaplan-emulate and numaplan-record its pages are looked at then, before it goes on: the
 * report has a part for the moment, and a line of --expect may name it (NAME NODE=PAGES,.. at
 * loaded). Elsewhere nothing happens. It needs no library. Names have no blanks, and at most 200
 * bytes. Not proved.
 */
#ifndef NUMAPLAN_MARK_H
#define NUMAPLAN_MARK_H

#include <stdlib.h>
#include <string.h>
#include <sys/stat.h>
#include <unistd.h>

static inline void np_mark(const char *moment) {
    const char *file = getenv("NUMAPLAN_MARK");
    struct stat at;
    /* (a program whose parent closed that file may have another one by the number) */
    if (!file || fstat(atoi(file), &at) || !S_ISREG(at.st_mode) || (at.st_mode & 07777) != 01200)
        return;
    if (write(atoi(file), moment, strlen(moment)) < 0)
        return; /* (nobody listens any more) */
}

#endif
