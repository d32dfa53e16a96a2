/* What tests of the calls say of a fault, and memory that they refuse. */
#ifndef CHECKING_H
#define CHECKING_H

#include <stddef.h>
#include <stdio.h>

static long failures;

static void check(int holds, const char *what) {
    if (!holds) {
        printf("FAILED: %s\n", what);
        failures++;
    }
}

/* How many requests for memory are granted before one is refused; below 0 all are. Linked with --wrap=malloc. */
static long granted = -1;

void *__real_malloc(size_t size);

void *__wrap_malloc(size_t size) {
    if (granted == 0)
        return NULL;
    if (granted > 0)
        granted--;
    return __real_malloc(size);
}
#endif
