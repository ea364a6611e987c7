/* The fast engine held to the plain one. */
#ifndef TZ_CHECK_H
#define TZ_CHECK_H

#include "run.h"

/* Both engines on the run's film, which is read and whose settings are settled: 0 and a sentence on standard output where they
   agree, or the status of a message, a refusal that both give among them. */
int check_engines(struct run *run);

#endif
