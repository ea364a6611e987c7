/* A picture as PNG, to look at or to hand on. */
#ifndef TZ_PNG_H
#define TZ_PNG_H

#include "tzofnadir.h"

/* The bytes of a grey PNG, of 8 bits where maxval is at most 255 and else of 16, and how many they are; to be freed. Greys
   are scaled from 0..maxval to all of these bits, so that no two of them become one. Null where there is no memory. */
uint8_t *png_of(const uint16_t *picture, const tz_sizes *sizes, size_t *count);

#endif
