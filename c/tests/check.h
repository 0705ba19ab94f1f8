/* Small checks for the test programs: the first that fails ends the program with status 1. */
#ifndef CHECK_H
#define CHECK_H

#include <stdio.h>
#include <stdlib.h>

/* The condition holds. */
#define CHECK(condition) \
    do { \
        if (!(condition)) { \
            printf("%s:%d: not so: %s\n", __FILE__, __LINE__, #condition); \
            exit(1); \
        } \
    } while (0)

/* The two numbers are the same; both are printed where they aren't. */
#define SAME(found, wanted) \
    check_same(__FILE__, __LINE__, #found, (long long)(found), (long long)(wanted))

static inline void check_same(const char *file, int line, const char *what, long long found,
                              long long wanted)
{
    if (found == wanted) return;
    printf("%s:%d: %s is %lld, and should be %lld\n", file, line, what, found, wanted);
    exit(1);
}

#endif /* CHECK_H */
