/* The greys of a film: from which to which they go, and which of them occur. */
#ifndef TZ_GREYS_H
#define TZ_GREYS_H

#include <stddef.h>
#include <stdint.h>

/* The least and the greatest grey of a film. */
struct span {
    uint16_t least, greatest;
};

struct span span_of(const uint16_t *picture, size_t pixels);

/* The greys that occur in a film. The gap is the least between two of them; 0 where there is one alone. */
struct greys {
    uint32_t least, greatest, distinct, gap;
};

struct greys greys_of(const uint16_t *picture, size_t pixels);

#endif
