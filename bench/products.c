/*
 * The library renders a row run by run: pixels that lie between the same tiles. What a run takes hangs on how many bins lie
 * from its least to its greatest, so the runs are walked here and the products added up.
 *
 * A weighted product is a product of a weight, or of what is made of weights, and a mapped value, or what is made of those:
 * the plain rule has six for a pixel, four inside the parentheses and two before them. The one that stands for a division, the
 * one that finds a pixel's bin and those that a run has once whatever its bins and pixels are counted nowhere.
 */
#include "products.h"

#include <stddef.h>

enum { ROOM = 4096 };                            /* the bins for which the table has room */
enum { A_BIN = 5, BY_TABLE = 1, WEIGHED = 4 };   /* pixel_table::fill, pixel_table::moved, pixel_sums::next */

static uint32_t edge(uint32_t side, uint32_t grid, uint32_t i) { return i * side / grid; }

static uint32_t centre(uint32_t side, uint32_t grid, uint32_t i)
{
    return (edge(side, grid, i) + edge(side, grid, i + 1)) / 2;
}

/* Where the pixels end that lie between the same tiles as pixel x. */
static uint32_t section_end(uint32_t side, uint32_t grid, uint32_t x)
{
    for (uint32_t k = 0; k < grid; k++)
        if (x < centre(side, grid, k))
            return centre(side, grid, k);
    return side;
}

static uint32_t least(uint32_t a, uint32_t b) { return a < b ? a : b; }

static uint32_t bin_of(const struct weighed *of, uint16_t grey) { return (uint32_t)grey * of->bins / of->greys; }

static void add_run(const struct weighed *of, const uint16_t *run, uint32_t wide, struct products *p)
{
    uint32_t low = of->bins, high = 0, same = 0;
    for (uint32_t i = 0; i < wide; i++) {
        uint32_t bin = bin_of(of, run[i]);
        low = bin < low ? bin : low;
        high = bin > high ? bin : high;
        same += i > 0 && bin == bin_of(of, run[i - 1]);
    }
    p->pixels += wide;
    if (high + 1 > low + wide || high + 1 > ROOM) {
        p->moved += same;
        p->each += (uint64_t)WEIGHED * (wide - same);
        return;
    }
    p->moved += wide;
    p->tables += (uint64_t)A_BIN * (high + 1 - low);
    p->each += (uint64_t)BY_TABLE * wide;
}

struct products products_of(const struct weighed *of)
{
    struct products p = {0, 0, 0, 0};
    uint32_t right = of->left + of->wide;
    for (uint32_t y = of->top; y < of->top + of->high; y++)
        for (uint32_t x = of->left, wide; x < right; x += wide) {
            wide = least(section_end(of->width, of->grid, x), right) - x;
            add_run(of, of->film + (size_t)y * of->width + x, wide, &p);
        }
    return p;
}
