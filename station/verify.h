/* A record held to its scan and its rendering. */
#ifndef TZ_VERIFY_H
#define TZ_VERIFY_H

#include "words.h"

/* Renders again what the job's record names, says on standard output what is as recorded and what is not, and returns 0
   where all of it is, or the status of a message. */
int verify(const struct job *job);

#endif
