/* Marks moments as it touches an area with a name, 8 pages and then 8 more, and when that is gone. With `shared`
 * it is shared memory. Not proved. */
#include <string.h>
#include <sys/mman.h>
#include <sys/prctl.h>

#include "numaplan_mark.h"

enum { PAGE = 4096, PAGES = 16, AREA = 0x53564d41 };

int main(int count, char **words) {
    int flags = MAP_ANONYMOUS | (count > 1 && !strcmp(words[1], "shared") ? MAP_SHARED : MAP_PRIVATE);
    char *at = mmap(NULL, PAGES * PAGE, PROT_READ | PROT_WRITE, flags, -1, 0);
    if (at == MAP_FAILED)
        return 1;
    prctl(AREA, 0L, at, (long)PAGES * PAGE, "table");
    for (int k = 0; k < PAGES; k++) {
        at[k * PAGE] = 1;
        if (k == PAGES / 2 - 1)
            np_mark("half");
    }
    np_mark("loaded");
    munmap(at, PAGES * PAGE);
    np_mark("gone");
    return 0;
}
