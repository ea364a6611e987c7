/* Several films in one call. */
#ifndef TZ_FILMS_H
#define TZ_FILMS_H

#include "words.h"

/* The job's command on each of its films, into its folder. Goes on behind one that fails, says at the end which did, and
   returns the worst one's status. */
int run_films(const struct job *job);

#endif
