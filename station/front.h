/* A film file's header and samples, read once more for a person: messages alone hang on it. */
#ifndef TZ_FRONT_H
#define TZ_FRONT_H

#include "files.h"

/* What a header says, as far as it can be read, comments passed over. */
struct front {
    int plain; /* P2: samples are numbers in text */
    uint32_t width, height, maxval;
    int numbers;   /* how many of the three are there */
    size_t raster; /* where the samples start, */
    size_t count;  /* how many there should be, */
    size_t bytes;  /* and of a raw file in how many bytes */
};

struct front front_of(const struct input *in);

/* A walk over the samples that are there, of those that should be. */
struct walk {
    const struct input *in;
    const struct front *front;
    size_t which;    /* the sample's number, from 0 on */
    size_t from, to; /* its bytes: from this one up to, not with, that one */
    int good;        /* in text it may be no number of 1 to 5 digits, */
    uint32_t grey;   /* and then this is 0 */
};

struct walk walk_over(const struct input *in, const struct front *front);

/* Goes on to the next sample; false where there is none. */
int next_sample(struct walk *walk);

/* Whether all samples are there and, in text, are numbers. Of a raw file the library told that already. */
int in_order(const struct input *in, const struct front *front);

/* The least and the greatest of the samples that are there; 65535 and 0 where there are none. */
uint32_t least_sample(const struct input *in, const struct front *front);
uint32_t greatest_sample(const struct input *in, const struct front *front);

#endif
