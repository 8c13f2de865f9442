/* How long a call takes, for the benchmarks. */
#ifndef CLOCK_H
#define CLOCK_H

/* A call, with what it is made of. */
typedef void timed_call(const void *what);

/* Processor time of this program alone, so that waiting for other work does not count. */
double processor_seconds(void);

/* Seconds for one call, from calls in a row that take at least so many seconds together. Where the stack stands can slow a call
   down, so each round, from 0, stands elsewhere within a page. */
double seconds_a_call(timed_call *call, const void *what, double least, int round);

/* Keeps the best of the rounds so far. */
void keep_best(double *best, double seconds, int round);

#endif
