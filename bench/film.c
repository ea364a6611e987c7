#include "film.h"

#include <stddef.h>
#include <string.h>

/* ---- noisy and calm ---- */

/*
 * Both are a plate with a lighter band across its middle, and noise. What tells them apart is how far a pixel is
 * from its left neighbour: how steeply the plate rises across, and how strong the noise is. A count that is stored must
 * be there before it grows again, so that counting depends on how often neighbours share a bin.
 */
static const uint32_t rise[KINDS] = {[NOISY] = 1800, [CALM] = 200};

static uint32_t part(uint64_t state, unsigned from, uint32_t mask) { return (uint32_t)(state >> from) & mask; }

/* Noisy: 0 to 141 greys, a sum of three even parts. Calm: 0 to 6, a sum of two. */
static uint32_t noise(enum kind kind, uint64_t state)
{
    if (kind == CALM)
        return part(state, 62, 3) + part(state, 54, 3);
    return part(state, 60, 15) + part(state, 52, 63) + part(state, 44, 63);
}

/* 900 greys in the middle row, less by the distance, none from a sixth of the film on. */
static uint32_t band(uint32_t height, uint32_t y)
{
    uint32_t middle = height / 2, half = height / 6;
    uint32_t away = y > middle ? y - middle : middle - y;
    return away < half ? (half - away) * 900u / half : 0;
}

static void draw_plate(uint16_t *film, enum kind kind, uint32_t width, uint32_t height, uint32_t bits)
{
    uint64_t state = 20 * height + bits;
    for (uint32_t y = 0; y < height; y++) {
        uint32_t row = 500u + y * 500u / height + band(height, y);
        for (uint32_t x = 0; x < width; x++) {
            state = state * 6364136223846793005u + 1442695040888963407u;
            uint32_t grey = row + x * rise[kind] / width + noise(kind, state);
            *film++ = (uint16_t)(bits == 8 ? grey >> 4 : grey);
        }
    }
}

/* ---- combed ---- */

/*
 * Made to be bad for the leftover walk at a factor near one: 4096 square and 12 bits, for a grid of 2 by 2 and 2048
 * bins. In each tile twelve bins are empty, 0, 1, 3, 7 and so on up to 2047, and each other holds 12 or 13 pixels more
 * than the limit, 2048: these are full before the walk begins. Bin 0 gains one in each round of starts, since no start
 * but its own meets it. So a walk over all bins takes 2036 rounds and looks at a bin 2,754 million times a tile, to
 * hand out 24,432. Bin 2047 gains most in a round, then 1023, and so on: a walk that ends behind the last bin under the
 * limit looks at many full ones on the way there too, 3.2 million times in all.
 *
 * Found by counting looks. A search over the counts of small tiles (16 to 32 bins, pixels moved from bin to bin) ended
 * with bin 0 empty and the others about the limit where the walk was over all bins, and with some empty bins up to the
 * last where it was the shorter one. The worst of either sort that was found at full size: bin 0 alone is empty, 2,773
 * million looks (and 8,187); each 32nd bin is empty, 3.9 million (and 124 million). This film is near to both.
 */
static int is_empty(uint32_t bin) { return (bin & (bin + 1)) == 0; }

static uint32_t next_held(uint32_t bin, uint32_t bins)
{
    do
        bin = bin + 1 < bins ? bin + 1 : 0;
    while (is_empty(bin));
    return bin;
}

/* A tile's column x is in bin x; where that is to be empty its pixels go through the others in turn. */
static void draw_combed(uint16_t *film, uint32_t side)
{
    uint32_t bins = side / 2, wide = 4096u / bins, spare = 0;
    for (uint32_t y = 0; y < side; y++, film += side) {
        for (uint32_t x = 0; x < bins; x++) {
            if (is_empty(x))
                spare = next_held(spare, bins);
            film[x] = (uint16_t)((is_empty(x) ? spare : x) * wide);
        }
        memcpy(film + bins, film, sizeof *film * bins);
    }
}

/* ---- even ---- */

/* Any grey of the range at any pixel: no bin is like its neighbour's, and every run has nearly all bins. */
static void draw_even(uint16_t *film, uint32_t width, uint32_t height, uint32_t bits)
{
    uint64_t state = 20 * height + bits;
    for (size_t left = (size_t)width * height; left > 0; left--) {
        state = state * 6364136223846793005u + 1442695040888963407u;
        *film++ = (uint16_t)part(state, 52, bits == 8 ? 255 : 4095);
    }
}

/* ---- all ---- */

const char *film_name(enum kind kind)
{
    static const char *const names[KINDS] = {[NOISY] = "noisy", [CALM] = "calm", [COMBED] = "combed",
                                               [EVEN] = "even"};
    return names[kind];
}

void film_draw(uint16_t *film, enum kind kind, uint32_t width, uint32_t height, uint32_t bits)
{
    if (kind == COMBED)
        draw_combed(film, width);
    else if (kind == EVEN)
        draw_even(film, width, height, bits);
    else
        draw_plate(film, kind, width, height, bits);
}

double film_share(const uint16_t *film, uint32_t width, uint32_t height, uint32_t bins, uint32_t greys)
{
    size_t same = 0;
    for (uint32_t y = 0; y < height; y++, film += width)
        for (uint32_t x = 1; x < width; x++)
            same += film[x] * bins / greys == film[x - 1] * bins / greys;
    return (double)same / ((double)height * (width - 1));
}
