#include "bins.h"

/* The most bins that are taken where none are asked for. More were measured to bring nothing. */
#define MOST_CHOSEN_BINS 1024u

/* The same around each pixel, where every bin costs time at every pixel, and the number below which bins get too wide. */
#define MOST_BINS_AROUND 256u
#define LEAST_BINS_AROUND 64u

/* A refused factor clips nothing, and neither does 1.0. */
static int clips(const tz_settings *s) { return s->clip && s->factor > 1.0f && s->factor <= 1024.0f; }

uint32_t least_tile(const tz_settings *s, uint32_t width, uint32_t height)
{
    uint32_t wide = s->across == 0 ? width : width / s->across, high = s->down == 0 ? height : height / s->down;
    return wide == 0 || high == 0 ? 1 : wide * high;
}

static uint32_t least(uint32_t a, uint32_t b) { return a < b ? a : b; }

uint32_t whole_region(uint32_t side, uint32_t width, uint32_t height)
{
    return side == 0 ? 1 : least(side, width) * least(side, height);
}

uint32_t most_around(uint32_t pixels)
{
    uint32_t eighth = pixels / 8;
    return eighth < LEAST_BINS_AROUND ? LEAST_BINS_AROUND : least(eighth, MOST_BINS_AROUND);
}

static uint32_t rounded_up(uint32_t a, uint32_t b) { return a / b + (a % b != 0); }

/* The library's L times the bins. All numbers here are whole and below 2^46, or a float's times such a one: a double
   holds them exactly, so that every machine and the reading page choose the same. */
static double counted(const tz_settings *s, uint32_t pixels, uint32_t bins)
{
    double by_factor = (double)s->factor * pixels / bins;
    uint64_t limit = (uint64_t)by_factor;
    uint32_t room = rounded_up(pixels, bins);
    return (double)(limit > room ? limit : room) * bins;
}

double factor_used(const tz_settings *s, uint32_t pixels, uint32_t bins) { return counted(s, pixels, bins) / pixels; }

/* How far the factor used is above the one asked, in pixels of the tile. */
static double above(const tz_settings *s, uint32_t pixels, uint32_t bins)
{
    double whole = (double)s->factor * pixels;
    return counted(s, pixels, bins) - whole;
}

/* Fewer bins than greys make steps that are not in the film. These were measured to cost more than a factor that is a
   quarter short. */
int factor_holds(const tz_settings *s, uint32_t pixels, uint32_t bins)
{
    double whole = (double)s->factor * pixels, over = clips(s) ? above(s, pixels, bins) : 0;
    double short_by = s->max >= s->min && bins == s->max - s->min + 1 ? -4 * over : -10 * over;
    return over > 0 ? 10 * over <= whole : short_by <= whole;
}

/* A bin for each grey of the range, so that the rendering has no steps that are not in the film, up to a number that keeps
   the mappings small. A range that will be refused has no greys to go by. */
static uint32_t bins_by_range(const tz_settings *s)
{
    uint32_t more = s->max > s->min ? s->max - s->min : TZ_USUAL_BINS - 1;
    return more < MOST_CHOSEN_BINS ? more + 1 : MOST_CHOSEN_BINS;
}

/* With a limit of `limit` the factor holds best with these bins, and with those it has room for the tile. */
static uint32_t held_by(const tz_settings *s, uint32_t pixels, uint32_t most, uint64_t limit)
{
    uint32_t by_factor = (uint32_t)((double)s->factor * pixels / (double)limit);
    uint32_t by_room = limit < pixels ? rounded_up(pixels, (uint32_t)limit) : 1;
    if (by_factor >= 2 && by_factor <= most && factor_holds(s, pixels, by_factor))
        return by_factor;
    return by_room >= 2 && by_room <= most && factor_holds(s, pixels, by_room) ? by_room : 0;
}

uint32_t bins_that_hold(const tz_settings *s, uint32_t pixels, uint32_t most)
{
    uint32_t found = 0;
    if (factor_holds(s, pixels, most))
        return most;
    /* the limit goes up, and so the bins go down from the most */
    double whole = (double)s->factor * pixels;
    uint64_t limit = (uint64_t)(whole / most) + 1;
    for (; found == 0 && whole / (double)limit >= 2; limit++)
        found = held_by(s, pixels, most, limit);
    return found == 0 ? 2 : found;
}

uint32_t chosen_bins(const tz_settings *s, uint32_t width, uint32_t height)
{
    return bins_that_hold(s, least_tile(s, width, height), bins_by_range(s));
}

uint32_t chosen_around(const tz_settings *s, uint32_t side, uint32_t width, uint32_t height)
{
    uint32_t pixels = whole_region(side, width, height);
    return bins_that_hold(s, pixels, least(bins_by_range(s), most_around(pixels)));
}

uint32_t chosen_byte_bins(const tz_settings *s, uint32_t width, uint32_t height)
{
    uint32_t pixels = least_tile(s, width, height), best = 256;
    if (bins_by_range(s) < best)
        return bins_by_range(s); /* the profile has no such range: for the library to refuse */
    for (uint32_t bins = 128; bins >= 64 && !factor_holds(s, pixels, best) && above(s, pixels, best) > 0; bins /= 2)
        best = bins;
    return best;
}
