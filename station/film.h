/* One film's run through a command. */
#ifndef TZ_FILM_H
#define TZ_FILM_H

#include "run.h"

/* The command of the job on one film: 0, or the status of a message. */
int run_film(const struct job *job, const struct task *task);

#endif
