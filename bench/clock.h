/* Processor time of this process, for the programs of the benchmark: what other programs take doesn't count. */
#ifndef CLOCK_H
#define CLOCK_H

#include <time.h>

static inline double seconds(void)
{
    struct timespec now;
    clock_gettime(CLOCK_PROCESS_CPUTIME_ID, &now);
    return (double)now.tv_sec + 1e-9 * (double)now.tv_nsec;
}

static inline void keep_least(double *least, double taken)
{
    if (*least == 0 || taken < *least)
        *least = taken;
}

#endif
