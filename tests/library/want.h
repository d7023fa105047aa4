/* What the tests in C share: whether a number is as wanted, else which line says so. Not proved. */
#ifndef WANT_H
#define WANT_H

#include <stdio.h>

static int wrong; /* the status of the test */

#define WANT(got, wanted)                                                                          \
    do {                                                                                           \
        unsigned long long got_ = (got), wanted_ = (wanted);                                       \
        if (got_ != wanted_) {                                                                     \
            printf("line %d: %s is %llu, not %llu\n", __LINE__, #got, got_, wanted_);              \
            wrong = 1;                                                                             \
        }                                                                                          \
    } while (0)

#endif
