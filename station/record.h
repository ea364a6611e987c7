/* The record of a rendering: what it was made of, how, and by which program, as JSON. */
#ifndef TZ_RECORD_H
#define TZ_RECORD_H

#include "run.h"

/* The text of the record of a rendering of these sizes that was laid down in `file`; to be freed. Null where there is no
   memory. */
char *record_text(const struct run *run, const tz_sizes *sizes, const uint8_t *file, size_t count);

#endif
