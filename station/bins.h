/* How many bins are taken where none are asked for, and whether a factor holds with a number of bins. viewer/numbers.js
   chooses the same numbers; station/faults/bins.txt, and regions.txt for what is around each pixel, are their tables. */
#ifndef TZ_BINS_H
#define TZ_BINS_H

#include "tzofnadir.h"

/* The pixels of tile 0, 0, which has the fewest; at least 1, whatever the settings say. */
uint32_t least_tile(const tz_settings *s, uint32_t width, uint32_t height);

/* The pixels of a whole region around a pixel, which is as large as the film permits: a side of a refused one counts as 1. */
uint32_t whole_region(uint32_t side, uint32_t width, uint32_t height);

/* The most bins that serve with regions of so many pixels: one for eight pixels, but no fewer than 64 and no more than 256. With
   more, what the leftover walk hands out in whole pixels shows as patches and rings that are not in the film; with fewer, the
   bins are wider than what is looked for. */
uint32_t most_around(uint32_t pixels);

/* The factor used with these bins in a tile or region of this many pixels. */
double factor_used(const tz_settings *s, uint32_t pixels, uint32_t bins);

/* Whether the factor used with these bins in a tile of this many pixels is within a tenth of the one asked; with a bin for
   each grey of the range it may be a quarter below. Where nothing is clipped, every number of bins holds. */
int factor_holds(const tz_settings *s, uint32_t pixels, uint32_t bins);

/* The most bins, up to `most`, with which the factor holds; 2 where it holds with none. */
uint32_t bins_that_hold(const tz_settings *s, uint32_t pixels, uint32_t most);

/* The most bins, up to 1024 and the greys in the range, with which the factor holds in the film's least tile. */
uint32_t chosen_bins(const tz_settings *s, uint32_t width, uint32_t height);

/* The same of a whole region, where no more than most_around are taken. */
uint32_t chosen_around(const tz_settings *s, uint32_t side, uint32_t width, uint32_t height);

/* The same of the three numbers that the byte profile has. */
uint32_t chosen_byte_bins(const tz_settings *s, uint32_t width, uint32_t height);

#endif
