/* The slow calls on a film, direct and around, which work each pixel out by itself: how long they take, and how far they are. */
#ifndef TZ_PAINTING_H
#define TZ_PAINTING_H

#include "run.h"

/* A film for one of them, and what is lent to it. */
struct painting {
    const char *name;
    int is_around; /* else it is the plain engine's */
    uint32_t side; /* of the region around a pixel */
    uint32_t width, height;
    const uint16_t *picture;
    const tz_settings *settings;
    uint16_t *target;  /* as many pixels as the picture has */
    uint32_t *scratch; /* tz_scratch_entries, for around tz_around_scratch, or more */
    size_t scratch_len;
    tz_footer footer;
};

/* The run's film, into this target. */
struct painting painting_of(const struct run *run, uint16_t *target);

/* What it takes to paint a film, in steps of some half a nanosecond. By the plain engine: of the four tiles that are counted for
   a pixel each pixel is one, and each bin is four. Around: each row of the region, where a pixel is dropped and one is added,
   is nine, and each bin four. 0 where the film is refused, or is returned unchanged at factor 1.0. */
uint64_t painting_steps(const struct painting *p);

/* About how many seconds an accepted film takes here, by a trial of its first pixels for a part of a second. */
uint64_t painting_seconds(const struct painting *p);

/* Says so beforehand, where it is long. */
void tell_time(const struct painting *p);

/* The call: 0, or the refusal. On a terminal the line of progress says how far it is. */
uint32_t paint(struct painting *p);

/* The same, but left as soon as the first `most` pixels are painted. */
uint32_t paint_first(struct painting *p, size_t most);

#endif
