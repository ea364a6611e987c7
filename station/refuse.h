/* What is said of a refusal: the library's sentence, the numbers of this film, and the way out. */
#ifndef TZ_REFUSE_H
#define TZ_REFUSE_H

#include "run.h"

/* Says it, and returns the refusal's number as the status. */
int refuse(uint32_t refusal, const struct run *run);

/* Refusal 26 from the writer: it is the rendering that is above maxval, and not a sample of the file. */
int refuse_rendering(const struct run *run);

/* The input goes on behind what is read of it. */
int too_long(const struct run *run);

#endif
