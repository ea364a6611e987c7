#define _XOPEN_SOURCE 700
#include "painting.h"

#include <stdlib.h>
#include <time.h>

#include "messages.h"
#include "watch.h"

/* From so many steps on the time is told beforehand: a minute, or some, by the plain engine, which is asked for on purpose; of
   a rendering around each pixel ten seconds, as others take none. */
#define MANY_STEPS 100000000000u
#define MANY_AROUND 20000000000u

/* What it was on one machine, in seconds. */
#define USUAL_STEP 5e-10

static size_t pixels_of(const struct painting *p) { return (size_t)p->width * p->height; }

struct painting painting_of(const struct run *run, uint16_t *target)
{
    const tz_settings *s = &run->settings;
    return (struct painting){.name = input_name(run->task.in), .is_around = is_around(run), .side = run->job->side,
                             .width = run->sizes.width, .height = run->sizes.height, .picture = run->picture, .settings = s,
                             .target = target, .scratch = run->scratch,
                             .scratch_len = is_around(run) ? tz_around_scratch(s) : tz_scratch_entries(s)};
}

static uint32_t call_into(uint16_t *target, size_t length, const struct painting *p, tz_footer *footer)
{
    if (p->is_around)
        return tzofnadir_around(p->width, p->height, p->picture, pixels_of(p), p->side, p->settings, target, length,
                                p->scratch, p->scratch_len, footer);
    return tzofnadir_direct(p->width, p->height, p->picture, pixels_of(p), p->settings, target, length, p->scratch,
                            p->scratch_len, footer);
}

static uint32_t call(void *of)
{
    struct painting *p = of;
    return call_into(p->target, pixels_of(p), p, &p->footer);
}

/* ---- how long ---- */

/* With a target of no length the call says 17 where all that it judges before is in order; the pixels it judges behind. */
static int is_accepted(const struct painting *p)
{
    uint16_t none;
    tz_footer footer;
    struct span greys = span_of(p->picture, pixels_of(p));
    return call_into(&none, 0, p, &footer) == TZ_OUTPUT_LENGTH && greys.least >= p->settings->min &&
           greys.greatest <= p->settings->max;
}

uint64_t painting_steps(const struct painting *p)
{
    const tz_settings *s = p->settings;
    if (!is_accepted(p) || (s->clip && s->factor == 1.0f))
        return 0;
    if (p->is_around)
        return (uint64_t)pixels_of(p) * (9 * (uint64_t)p->side + 4 * (uint64_t)tz_bins_of(s));
    uint64_t tile = pixels_of(p) / ((uint64_t)s->across * s->down);
    return 4 * (uint64_t)pixels_of(p) * (tile + 4 * (uint64_t)tz_bins_of(s));
}

static double now(void)
{
    struct timespec t;
    clock_gettime(CLOCK_MONOTONIC, &t);
    return (double)t.tv_sec + (double)t.tv_nsec / 1e9;
}

/* Where there is no memory for the trial, by what a step took on one machine. */
uint64_t painting_seconds(const struct painting *p)
{
    struct painting trial = *p;
    double each = (double)painting_steps(p) * USUAL_STEP / (double)pixels_of(p);
    trial.target = malloc(pixels_of(p) * sizeof *trial.target);
    if (trial.target != NULL) {
        double began = now();
        paint_first(&trial, 1);
        each = (now() - began) / (double)watched_so_far();
    }
    free(trial.target);
    return (uint64_t)(each * (double)pixels_of(p) + 0.5);
}

void tell_time(const struct painting *p)
{
    char words[SPAN_TEXT];
    if (painting_steps(p) <= (p->is_around ? MANY_AROUND : MANY_STEPS))
        return;
    span_in_words(painting_seconds(p), words);
    tell("%s: %s: for this film it takes about %s", p->name,
         p->is_around ? "each pixel has a region of its own" : "the plain engine counts four tiles for each pixel", words);
    progress("%s: rendering", p->name);
}

/* ---- the call ---- */

uint32_t paint(struct painting *p)
{
    watch(p->name, p->target, pixels_of(p));
    uint32_t refusal = call(p);
    end_watch();
    return refusal;
}

uint32_t paint_first(struct painting *p, size_t most)
{
    uint32_t refusal = watch_until(p->name, p->target, pixels_of(p), most, call, p);
    end_watch();
    return refusal;
}
