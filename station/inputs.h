/* The films that the words name: files, folders of films, and lists of these. */
#ifndef TZ_INPUTS_H
#define TZ_INPUTS_H

#include "words.h"

struct films {
    char **names; /* each to be freed, and the list of them */
    int count;
};

/* Finds the job's films: 0, or the status of a message. To be let go in either case. */
int find_films(const struct job *job, struct films *films);

void let_films_go(struct films *films);

#endif
