/* What the programs of this folder measure with: the clock, turns, and medians over them. */
#ifndef TIMES_H
#define TIMES_H

#include <stdint.h>
#include <stdlib.h>
#include <time.h>

enum { TURNS = 600 };

/* In seconds. */
static inline double now(void) {
    struct timespec t;
    clock_gettime(CLOCK_MONOTONIC, &t);
    return (double)t.tv_sec + (double)t.tv_nsec * 1e-9;
}

/* In the block of a turn: from turn to turn the stack stands elsewhere, for that alone is worth some per cent. */
#define MOVE_STACK(turn)                              \
    volatile uint8_t room[16 + (turn) * 80 % 4096];   \
    room[0] = 0, (void)room[0]

static inline int by_size(const void *a, const void *b) {
    double x = *(const double *)a, y = *(const double *)b;
    return (x > y) - (x < y);
}

/* Over all turns the median of a time or, where there is another, of the time over that of the same turn: for a processor may change its clock from
   turn to turn. */
static inline double median(const double time[TURNS], const double over[TURNS]) {
    static double values[TURNS];
    for (int turn = 0; turn < TURNS; turn++) values[turn] = over == NULL ? time[turn] : time[turn] / over[turn];
    qsort(values, TURNS, sizeof *values, by_size);
    return values[TURNS / 2];
}

#endif
