/* Weighted products: how many a film takes, by the plain rule and by the library. */
#ifndef PRODUCTS_H
#define PRODUCTS_H

#include <stdint.h>

/* What is counted: a film's greys from 0 on, and the window of it that is rendered. */
struct weighed {
    const uint16_t *film;
    uint32_t width, height, greys;
    uint32_t grid, bins;
    uint32_t left, top, wide, high;
};

/* Products of each sort, and the pixels whose weighted sum moves. */
struct products {
    uint64_t pixels;
    uint64_t tables; /* made for the bins of runs */
    uint64_t each;   /* made for pixels */
    uint64_t moved;
};

struct products products_of(const struct weighed *of);

#endif
