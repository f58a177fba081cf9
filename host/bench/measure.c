#include "measure.h"

#include <stdlib.h>
#include <string.h>
#include <time.h>

double nanoseconds(void)
{
    struct timespec t;
    clock_gettime(CLOCK_MONOTONIC, &t);
    return (double)t.tv_sec * 1e9 + (double)t.tv_nsec;
}

static int by_value(const void *a, const void *b)
{
    double x = *(const double *)a, y = *(const double *)b;
    return (x > y) - (x < y);
}

/* The value at a place of the sorted batches. */
static double at(const double *batches, int place)
{
    double sorted[BATCHES];
    memcpy(sorted, batches, sizeof sorted);
    qsort(sorted, BATCHES, sizeof sorted[0], by_value);
    return sorted[place];
}

static double cost(const struct times *t, int place)
{
    double taken = at(t->with, place) - at(t->alone, place);
    return taken > 0 ? taken : 0;
}

double best(const struct times *t)
{
    return cost(t, 0);
}

double median(const struct times *t)
{
    return cost(t, BATCHES / 2);
}
