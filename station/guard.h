/* No scan is ever overwritten: what a call would write is held to what it reads, before anything is done. */
#ifndef TZ_GUARD_H
#define TZ_GUARD_H

#include "run.h"

/* 0, or the status of a message: where an output or a record would take the place of an input of any of the tasks, a
   record that of its film, or, unless the job says --force, either that of a file that is there. */
int guard(const struct task *tasks, int count, const struct job *job);

/* Clears what processes that were killed left behind in the folders of a task's outputs. */
void clear_beside(const struct task *task);

#endif
