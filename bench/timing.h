/* Times of calls: the clock, and the best and the median of some samples. */
#ifndef TIMING_H
#define TIMING_H

struct result {
    double best, median;
};

/* Nanoseconds since some moment. */
double timing_now(void);

/* Puts the samples in order. */
struct result timing_summary(double *samples, unsigned count);

#endif
