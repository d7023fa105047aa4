/* The version of the header, that of the library, and whether that is proved, a line each; answers are an
 * enum, though a number of 32 bits crosses. Not proved. */
#include "numaplan.h"

#include <stdio.h>

int main(void) {
    uint32_t version = np_version() & ~NP_UNPROVED, number = 7;
    enum np_answer answer = (enum np_answer)np_answer_errno(26, &number);
    printf("%d.%d.%d\n", NP_VERSION_MAJOR, NP_VERSION_MINOR, NP_VERSION_PATCH);
    printf("%u.%u.%u\n", version / 1000000, version / 1000 % 1000, version % 1000);
    puts(np_version() & NP_UNPROVED ? "unproved" : "proved");
    return NP_VERSION != version || answer != NP_UNKNOWN;
}
