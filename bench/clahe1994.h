/* The algorithm of 1994 (K. Zuiderveld, "Contrast Limited Adaptive Histogram Equalization", Graphics Gems IV, VIII.5),
   for comparison. Renders in place; 0 when done, else below 0. */
#ifndef CLAHE1994_H
#define CLAHE1994_H

#include <stdint.h>

int clahe1994(uint16_t *image, unsigned width, unsigned height, unsigned min, unsigned max,
              unsigned across, unsigned down, unsigned bins, float factor);

#endif
