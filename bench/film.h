/* The films that are measured, drawn by a fixed generator: the same on every machine. */
#ifndef FILM_H
#define FILM_H

#include <stdint.h>

enum kind { NOISY, CALM, COMBED, EVEN, KINDS };

const char *film_name(enum kind kind);

/* Draws a film of 8 or 12 bits into `film`, row by row; the combed one is square and of 12 bits. */
void film_draw(uint16_t *film, enum kind kind, uint32_t width, uint32_t height, uint32_t bits);

/* Of the pixels that have a left neighbour, the share that lies in its bin, where the `greys` from 0 on have `bins` bins. */
double film_share(const uint16_t *film, uint32_t width, uint32_t height, uint32_t bins, uint32_t greys);

#endif
