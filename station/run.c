#include "run.h"

#include <stdio.h>

#include "bins.h"

int is_around(const struct run *run) { return run->job->command == AROUND; }

uint32_t judged_pixels(const struct run *run)
{
    return is_around(run) ? whole_region(run->job->side, run->sizes.width, run->sizes.height)
                          : least_tile(&run->settings, run->sizes.width, run->sizes.height);
}

struct worded worded_of(const struct run *run)
{
    const tz_settings *s = &run->settings;
    struct worded w = {"", "off"};
    if (is_around(run))
        snprintf(w.place, sizeof w.place, "--side %u", (unsigned)run->job->side);
    else
        snprintf(w.place, sizeof w.place, "--grid %ux%u", (unsigned)s->across, (unsigned)s->down);
    if (s->clip)
        snprintf(w.clip, sizeof w.clip, "%.9g", (double)s->factor);
    return w;
}

void settings_words(const struct run *run, char text[SETTINGS_TEXT])
{
    const tz_settings *s = &run->settings;
    struct worded w = worded_of(run);
    snprintf(text, SETTINGS_TEXT, "%s --bins %u --range %u:%u --clip %s%s", w.place, (unsigned)tz_bins_of(s), (unsigned)s->min,
             (unsigned)s->max, w.clip, s->edition == TZ_OURS ? "" : " --edition 1986");
}

/* Refusals 5 and 6, the other way round. */
static int fits(uint32_t side, uint32_t tiles) { return side >= tiles; }

void grids_that_fit(uint32_t side, char *text, size_t room)
{
    size_t at = 0;
    for (uint32_t tiles = TZ_LEAST_GRID; tiles <= TZ_MOST_GRID; tiles++)
        if (fits(side, tiles) && at < room)
            at += (size_t)snprintf(text + at, room - at, at == 0 ? "%u" : " %u", (unsigned)tiles);
    if (at == 0)
        snprintf(text, room, "none");
}
