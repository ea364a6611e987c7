/*
 * A plain engine that is wrong in one thing, to be linked in the true one's place: what WRONG names. station/painting.c is
 * compiled to call it, so that check can be seen to find what differs.
 */
#include <stddef.h>
#include <stdint.h>
#include <string.h>

char *getenv(const char *name);

uint32_t tz_direct(uint32_t width, uint32_t height, const uint16_t *picture, size_t picture_len,
                   uint32_t across, uint32_t down, uint32_t bins, uint32_t min, uint32_t max, uint32_t clip, float factor,
                   uint16_t *target, size_t target_len, uint32_t *scratch, size_t scratch_len,
                   uint32_t *limit, float *asked, double *used, uint32_t edition);

static int is_wrong(const char *in) { return getenv("WRONG") != NULL && strcmp(getenv("WRONG"), in) == 0; }

uint32_t wrong_direct(uint32_t width, uint32_t height, const uint16_t *picture, size_t picture_len,
                      uint32_t across, uint32_t down, uint32_t bins, uint32_t min, uint32_t max, uint32_t clip, float factor,
                      uint16_t *target, size_t target_len, uint32_t *scratch, size_t scratch_len,
                      uint32_t *limit, float *asked, double *used, uint32_t edition)
{
    if (is_wrong("answer") && target_len > 0)
        return 13;
    uint32_t refusal = tz_direct(width, height, picture, picture_len, across, down, bins, min, max, clip, factor, target,
                                 target_len, scratch, scratch_len, limit, asked, used, edition);
    if (refusal != 0)
        return is_wrong("refusal") && refusal == 13 ? 12 : refusal;
    if (is_wrong("pixel"))
        target[target_len - 1] ^= 1;
    if (is_wrong("pixels"))
        for (size_t i = 3 * (size_t)width + 7; i < target_len; i++)
            target[i] ^= 1;
    if (is_wrong("footer"))
        *used += 1;
    if (is_wrong("scratch"))
        scratch[0] = 1;
    if (is_wrong("behind"))
        scratch[scratch_len - 1] = 1;
    return 0;
}
