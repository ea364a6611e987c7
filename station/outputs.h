/* Outputs are put away whole: each is touched by one rename alone, once all of it lies flushed beside it. */
#ifndef TZ_OUTPUTS_H
#define TZ_OUTPUTS_H

#include <stddef.h>
#include <stdint.h>

#include "signals.h"

/* What is to be put away: these bytes under this name. The rest is put_outputs' own. */
struct output {
    const char *name;
    const uint8_t *bytes;
    size_t count;
    int replace;   /* it may take the place of a file that is there */
    char *path;    /* the file that it becomes; null for standard output, a device or a pipe */
    char *part;    /* the new file beside it */
    int held;      /* and its lock, until it has its place */
    int fresh;     /* nothing stood there before */
    int has_mode;  /* a file did, of this mode */
    unsigned mode;
    char *aside;   /* what stood there, until all outputs have their places */
};

#define MOST_OUTPUTS MOST_REMOVED

/* Puts outputs away: 0, or the status of a message. None gets its place before all of them lie flushed. Those to standard
   output, a device or a pipe go first; then the files get their places, in order, and no signal comes between. Where one
   fails all files are as they were. */
int put_outputs(struct output *outs, int count);

#endif
