/* Several films at once, each in a process of its own, so that none can touch another's memory, and what befalls one leaves
   the others. */
#ifndef TZ_JOBS_H
#define TZ_JOBS_H

#include "run.h"

/* The job's command on each task, as many at once as the job says. Each film's messages come together, when it is done;
   its status goes to its place in `codes`. */
void run_tasks(const struct job *job, const struct task *tasks, int count, unsigned char *codes);

#endif
