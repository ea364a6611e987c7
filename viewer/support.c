/*
 * What the page wants beside the proved calls: the header's own sentence for a refusal, the digest that a record has, and the
 * means that a film is shown by where it is smaller than it is. In WebAssembly a pointer and a size_t are an i32 here; a usize of
 * the proved calls is an i64.
 */
#include "../station/sha256.h"
#include "../station/tzofnadir.h"

const char *viewer_refusal_text(uint32_t refusal) { return tz_refusal_text(refusal); }

/* `text` has room for SHA256_TEXT bytes. */
void viewer_sha256(const uint8_t *bytes, size_t count, char *text) { sha256_text(bytes, count, text); }

/* The sum of `high` rows, column by column: of up to 16 rows of greys up to 4095, which 16 bits hold. */
static void add_rows(const uint16_t *greys, uint32_t stride, uint32_t width, uint32_t high, uint16_t *sums)
{
    for (uint32_t x = 0; x < width; x++)
        sums[x] = greys[x];
    for (uint32_t y = 1; y < high; y++)
        for (uint32_t x = 0; x < width; x++)
            sums[x] += greys[y * stride + x];
}

/* The mean of `count` columns of sums of `high` rows, rounded to the nearest grey. */
static uint16_t mean_of(const uint16_t *sums, uint32_t count, uint32_t high)
{
    uint32_t sum = 0, area = count * high;
    for (uint32_t x = 0; x < count; x++)
        sum += sums[x];
    return (uint16_t)((sum + area / 2) / area);
}

/* The means of a row of blocks that are whole: a block of 2 to the `power` has a shift for a quotient. The zooms that are used
   most are compiled apart, so that the compiler knows how long the inner loop is. */
static inline void means_by(const uint16_t *sums, uint32_t blocks, uint32_t power, uint16_t *out)
{
    uint32_t half = (1u << (2 * power)) / 2;
    for (uint32_t k = 0; k < blocks; k++) {
        uint32_t sum = half;
        for (uint32_t x = k << power; x < (k + 1) << power; x++)
            sum += sums[x];
        out[k] = (uint16_t)(sum >> (2 * power));
    }
}

static void whole_means(const uint16_t *sums, uint32_t blocks, uint32_t power, uint16_t *out)
{
    if (power == 1)
        means_by(sums, blocks, 1, out);
    else if (power == 2)
        means_by(sums, blocks, 2, out);
    else
        means_by(sums, blocks, power, out);
}

/*
 * A window of `width` by `height` greys of a picture with `stride` greys a row, in means of blocks of 2 to the `power` in each
 * direction, row by row; a block at the right or lower edge is the mean of the pixels that it has. `out` may be `greys` itself:
 * no mean is written before what lies there was added. A width is at most TZ_MOST_SIDE, a grey at most TZ_MOST_GREY, a power at
 * most 4.
 */
void viewer_means(const uint16_t *greys, uint32_t stride, uint32_t width, uint32_t height, uint32_t power, uint16_t *out)
{
    uint16_t sums[TZ_MOST_SIDE];
    uint32_t block = 1u << power, whole = width >> power;
    for (uint32_t y = 0; y < height; y += block) {
        uint32_t high = height - y < block ? height - y : block, done = 0;
        add_rows(greys + y * stride, stride, width, high, sums);
        if (high == block) {
            whole_means(sums, whole, power, out);
            done = whole;
        }
        for (; done << power < width; done++) {
            uint32_t from = done << power, left = width - from;
            out[done] = mean_of(sums + from, left < block ? left : block, high);
        }
        out += done;
    }
}
