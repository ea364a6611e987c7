/* Films rendered side by side, a process for each, by the clock. */
#ifndef BESIDE_H
#define BESIDE_H

#include "calls.h"

/* How many processors there are. */
int processors(void);

/*
 * Enhances `many` films like this one at once, again and again, and gives nanoseconds by the clock for a pixel of any of them:
 * with two at once half of what either takes. Each process lays its film out anew before a run, outside the time measured, and
 * gives the median of its runs.
 */
double beside_ns(const struct subject *of, int many, int runs);

#endif
