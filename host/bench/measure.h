/*
 * measure.h - times of batches. The machine may be shared, so nothing is taken from one batch: a figure is the best of all batches,
 * with their median beside it to show the spread. A table is measured batch by batch, each batch over all its rows and columns, so that
 * a slow moment meets all of them alike.
 */
#ifndef MEASURE_H
#define MEASURE_H

#include <stdint.h>

#define BATCHES 80

/* Nanoseconds per call, one for each batch: the call with what must be done before it, and that alone (0 if nothing must). */
struct times {
    double with[BATCHES], alone[BATCHES];
};

double nanoseconds(void);

/* What the call itself takes: the best batch, and the median. */
double best(const struct times *t);
double median(const struct times *t);

/* The compiler may not move, merge or drop work on memory across this. */
static inline void settle(void)
{
    __asm__ volatile("" ::: "memory");
}

#endif
