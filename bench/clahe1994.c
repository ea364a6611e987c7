/*
 * A plain C rendering of the algorithm of 1994, written from its paper: the same steps, tables and number types, a float
 * for the scale of a mapping, a shift where a submatrix has a power of two of pixels, else a division.
 *
 * Three slips of the printed listing are mended, since with them it does not come to an end on a machine of today:
 *   - the step to a tile's next row subtracts an unsigned number from a pointer, which with 64-bit pointers leads
 *     out of the picture;
 *   - the loop that looks for the power of two never ends (>= stands for >>=);
 *   - handing out what is left of the excess never ends where every bin stands at the limit.
 * Its other ways, the subtraction in the second case of clipping among them, are kept: they cost the same.
 */
#include "clahe1994.h"

#include <stdlib.h>

#define GREYS 4096
#define MOST_TILES 16

/* the listing's own type for counts and mappings; with 32 bits in its place nothing got faster */
typedef unsigned long count;

static void make_bins(uint16_t *bin_of, unsigned min, unsigned max, unsigned bins)
{
    unsigned wide = 1 + (max - min) / bins;
    for (unsigned grey = min; grey <= max; grey++)
        bin_of[grey] = (uint16_t)((grey - min) / wide);
}

static void make_histogram(const uint16_t *image, unsigned pitch, unsigned width, unsigned height,
                           count *histogram, unsigned bins, const uint16_t *bin_of)
{
    for (unsigned i = 0; i < bins; i++)
        histogram[i] = 0;
    for (unsigned y = 0; y < height; y++, image += pitch)
        for (unsigned x = 0; x < width; x++)
            histogram[bin_of[image[x]]]++;
}

static void hand_out(count *histogram, unsigned bins, count limit, count excess)
{
    count before = 0;
    while (excess != 0 && excess != before) {
        before = excess; /* a pass that gives nothing is the last */
        for (unsigned start = 0; start < bins && excess != 0; start++) {
            count step = bins / excess;
            if (step < 1)
                step = 1;
            for (count i = start; i < bins && excess != 0; i += step)
                if (histogram[i] < limit) {
                    histogram[i]++;
                    excess--;
                }
        }
    }
}

static void clip_histogram(count *histogram, unsigned bins, count limit)
{
    count excess = 0;
    for (unsigned i = 0; i < bins; i++)
        if (histogram[i] > limit)
            excess += histogram[i] - limit;
    count share = excess / bins;
    count upper = limit - share;
    for (unsigned i = 0; i < bins; i++) {
        if (histogram[i] > limit) {
            histogram[i] = limit;
        } else if (histogram[i] > upper) {
            excess -= histogram[i] - upper;
            histogram[i] = limit;
        } else {
            excess -= share;
            histogram[i] += share;
        }
    }
    hand_out(histogram, bins, limit, excess);
}

static void map_histogram(count *histogram, unsigned min, unsigned max, unsigned bins, count pixels)
{
    const float scale = (float)(max - min) / (float)pixels;
    count sum = 0;
    for (unsigned i = 0; i < bins; i++) {
        sum += histogram[i];
        histogram[i] = (count)((float)min + (float)sum * scale);
        if (histogram[i] > max)
            histogram[i] = max;
    }
}

/* The mappings of the four tiles around a submatrix. */
struct four {
    const count *left_up, *right_up, *left_low, *right_low;
};

static count weighed(const struct four *m, unsigned bin, unsigned x, unsigned x_rest, unsigned y, unsigned y_rest)
{
    return y_rest * (x_rest * m->left_up[bin] + x * m->right_up[bin])
         + y * (x_rest * m->left_low[bin] + x * m->right_low[bin]);
}

static void interpolate(uint16_t *image, unsigned pitch, const struct four *m, unsigned width, unsigned height,
                        const uint16_t *bin_of)
{
    unsigned area = width * height, shift = 0;
    if ((area & (area - 1)) != 0) {
        for (unsigned y = 0; y < height; y++, image += pitch)
            for (unsigned x = 0; x < width; x++)
                image[x] = (uint16_t)(weighed(m, bin_of[image[x]], x, width - x, y, height - y) / area);
        return;
    }
    while (area >>= 1)
        shift++;
    for (unsigned y = 0; y < height; y++, image += pitch)
        for (unsigned x = 0; x < width; x++)
            image[x] = (uint16_t)(weighed(m, bin_of[image[x]], x, width - x, y, height - y) >> shift);
}

/* Where the submatrix number `i` of `tiles` + 1 stands: its size and the tiles on both sides. */
struct span {
    unsigned size, low, high;
};

static struct span span_of(unsigned i, unsigned tiles, unsigned tile)
{
    struct span s = {tile, i - 1, i};
    if (i == 0) {
        s.size = tile / 2;
        s.low = 0;
    } else if (i == tiles) {
        s.size = tile / 2;
        s.high = tiles - 1;
    }
    return s;
}

static void render(uint16_t *image, unsigned width, const count *maps, unsigned across, unsigned down,
                   unsigned bins, unsigned tile_width, unsigned tile_height, const uint16_t *bin_of)
{
    for (unsigned i = 0; i <= down; i++) {
        struct span y = span_of(i, down, tile_height);
        uint16_t *at = image;
        for (unsigned j = 0; j <= across; j++) {
            struct span x = span_of(j, across, tile_width);
            struct four m = {
                maps + (size_t)bins * (y.low * across + x.low), maps + (size_t)bins * (y.low * across + x.high),
                maps + (size_t)bins * (y.high * across + x.low), maps + (size_t)bins * (y.high * across + x.high)};
            interpolate(at, width, &m, x.size, y.size, bin_of);
            at += x.size;
        }
        image += (size_t)y.size * width;
    }
}

static int refused(unsigned width, unsigned height, unsigned min, unsigned max, unsigned across, unsigned down)
{
    if (across > MOST_TILES || down > MOST_TILES)
        return -1;
    if (across < 2 || down < 2)
        return -7;
    if (width % across != 0 || height % down != 0)
        return -3;
    return max >= GREYS ? -5 : min >= max ? -6 : 0;
}

int clahe1994(uint16_t *image, unsigned width, unsigned height, unsigned min, unsigned max,
              unsigned across, unsigned down, unsigned bins, float factor)
{
    uint16_t bin_of[GREYS];
    int code = refused(width, height, min, max, across, down);
    if (code != 0 || factor == 1.0f)
        return code;
    if (bins == 0)
        bins = 128;
    count *maps = malloc(sizeof *maps * across * down * bins);
    if (maps == NULL)
        return -8;
    unsigned tile_width = width / across, tile_height = height / down;
    count pixels = (count)tile_width * tile_height;
    count limit = factor > 0 ? (count)(factor * (float)pixels / (float)bins) : 1ul << 14;
    make_bins(bin_of, min, max, bins);
    for (unsigned y = 0; y < down; y++)
        for (unsigned x = 0; x < across; x++) {
            count *histogram = maps + (size_t)bins * (y * across + x);
            make_histogram(image + (size_t)y * tile_height * width + (size_t)x * tile_width, width, tile_width,
                           tile_height, histogram, bins, bin_of);
            clip_histogram(histogram, bins, limit < 1 ? 1 : limit);
            map_histogram(histogram, min, max, bins, pixels);
        }
    render(image, width, maps, across, down, bins, tile_width, tile_height, bin_of);
    free(maps);
    return 0;
}
