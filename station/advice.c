#include "advice.h"

#include <stdio.h>
#include <string.h>

#include "bins.h"
#include "messages.h"

/* ---- what is to be warned of ---- */

static uint32_t greys_in(const tz_settings *s) { return s->max - s->min + 1; }

static int flat(const struct run *run) { return run->seen.distinct == 1; }

static int thin(const struct run *run)
{
    return 4 * (run->seen.greatest - run->seen.least + 1) < greys_in(&run->settings);
}

static int sparse(const struct run *run) { return 2 * run->seen.distinct < tz_bins_of(&run->settings); }

static int unheld(const struct run *run)
{
    return !factor_holds(&run->settings, judged_pixels(run), tz_bins_of(&run->settings));
}

/* Around each pixel: so many bins that patches show. */
static int patchy(const struct run *run)
{
    const tz_settings *s = &run->settings;
    return is_around(run) && s->clip && s->factor > 1.0f && tz_bins_of(s) > most_around(judged_pixels(run));
}

static uint32_t least(uint32_t a, uint32_t b) { return a < b ? a : b; }

/* ---- what to type instead ---- */

/* A bin for each grey that occurs, where these stand evenly apart, and else no more than twice as many as there are. */
static uint32_t most_bins(const struct run *run, const tz_settings *better)
{
    uint32_t most = least(greys_in(better), is_around(run) ? most_around(judged_pixels(run)) : 1024), gap = run->seen.gap;
    if (!sparse(run) || flat(run))
        return most;
    most = least(most, least((greys_in(better) + gap - 1) / gap, 2 * run->seen.distinct));
    return most < 2 ? 2 : most;
}

/* With at most so many tiles a side, the most bins that hold the factor; whether there are any. */
static int with_tiles(const struct run *run, uint32_t tiles, uint32_t most, tz_settings *better)
{
    better->across = least(run->settings.across, tiles);
    better->down = least(run->settings.down, tiles);
    uint32_t pixels = least_tile(better, run->sizes.width, run->sizes.height);
    better->bins = bins_that_hold(better, pixels, most);
    return factor_holds(better, pixels, better->bins);
}

/* Settings that need no warning: another range, as many bins as serve, and larger tiles where no bins hold the factor.
   Where none do at all, the tiles stay. */
static tz_settings better_settings(const struct run *run)
{
    tz_settings better = run->settings;
    if (thin(run) && !flat(run)) {
        better.min = run->seen.least;
        better.max = run->seen.greatest;
    }
    uint32_t most = most_bins(run, &better), tiles = TZ_MOST_GRID;
    if (is_around(run)) {
        better.bins = bins_that_hold(&better, judged_pixels(run), most);
        return better;
    }
    while (tiles >= TZ_LEAST_GRID && !with_tiles(run, tiles, most, &better))
        tiles--;
    if (tiles < TZ_LEAST_GRID)
        with_tiles(run, TZ_MOST_GRID, most, &better);
    return better;
}

/* The words that turn the settings into the better ones. Bins that would be chosen anyway are left to be chosen. */
static void words_for(const struct run *run, const tz_settings *better, char *text, size_t room)
{
    const tz_settings *s = &run->settings;
    size_t at = 0;
    text[0] = '\0';
    if (better->min != s->min || better->max != s->max)
        at += (size_t)snprintf(text + at, room - at, " --range %u:%u", (unsigned)better->min, (unsigned)better->max);
    if (better->across != s->across || better->down != s->down)
        at += (size_t)snprintf(text + at, room - at, " --grid %ux%u", (unsigned)better->across, (unsigned)better->down);
    int asked = (run->job->given & (BINS | BYTES)) != 0 && better->bins != tz_bins_of(s);
    uint32_t anyway = is_around(run) ? chosen_around(better, run->job->side, run->sizes.width, run->sizes.height)
                                     : chosen_bins(better, run->sizes.width, run->sizes.height);
    if (asked || better->bins != anyway)
        at += (size_t)snprintf(text + at, room - at, " --bins %u", (unsigned)better->bins);
    if (at > 0 && (run->job->given & BYTES) != 0)
        snprintf(text + at, room - at, ", without --bytes");
}

/* ---- the warnings ---- */

static void warn_of_greys(const struct run *run, const char *name, const char *mark)
{
    const struct greys *g = &run->seen;
    if (flat(run)) {
        tell("%s%swarning: the film has one grey alone, %u: no settings bring anything out of it", name, mark,
             (unsigned)g->least);
        return;
    }
    if (thin(run))
        tell("%s%swarning: the film's greys, %u to %u, fill %u of the %u in the range", name, mark, (unsigned)g->least,
             (unsigned)g->greatest, (unsigned)(g->greatest - g->least + 1), (unsigned)greys_in(&run->settings));
    if (sparse(run))
        tell("%s%swarning: %u greys occur in the film, and there are %u bins", name, mark, (unsigned)g->distinct,
             (unsigned)tz_bins_of(&run->settings));
}

static void warn_of_bins(const struct run *run, const char *name, const char *mark)
{
    unsigned bins = (unsigned)tz_bins_of(&run->settings), pixels = (unsigned)judged_pixels(run);
    if (unheld(run))
        tell("%s%swarning: the factor used is %.3g, and %.9g was asked: a %s has %u pixels and %u bins", name, mark,
             is_around(run) ? factor_used(&run->settings, pixels, bins) : run->footer.used, (double)run->footer.asked,
             is_around(run) ? "region" : "tile", pixels, bins);
    if (patchy(run))
        tell("%s%swarning: a region has %u pixels and %u bins: so many show patches that are not in the film", name, mark, pixels,
             bins);
}

void advise(const struct run *run)
{
    char text[128];
    int named = (run->job->given & INTO) != 0;
    const char *name = named ? run->task.in : "", *mark = named ? ": " : "";
    if (!thin(run) && !sparse(run) && !unheld(run) && !patchy(run))
        return;
    warn_of_greys(run, name, mark);
    warn_of_bins(run, name, mark);
    tz_settings better = better_settings(run);
    words_for(run, &better, text, sizeof text);
    if (text[0] != '\0')
        tell("  to type instead:%s", text);
}
