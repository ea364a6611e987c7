#include "greys.h"

#include "tzofnadir.h"

struct span span_of(const uint16_t *picture, size_t pixels)
{
    struct span s = {picture[0], picture[0]};
    for (size_t i = 1; i < pixels; i++) {
        if (picture[i] < s.least)
            s.least = picture[i];
        if (picture[i] > s.greatest)
            s.greatest = picture[i];
    }
    return s;
}

struct greys greys_of(const uint16_t *picture, size_t pixels)
{
    uint8_t there[TZ_MOST_GREY + 1] = {0};
    struct greys g = {picture[0], picture[0], 0, 0};
    for (size_t i = 0; i < pixels; i++)
        there[picture[i] <= TZ_MOST_GREY ? picture[i] : TZ_MOST_GREY] = 1;
    for (uint32_t grey = 0, last = 0; grey <= TZ_MOST_GREY; grey++) {
        if (!there[grey])
            continue;
        if (g.distinct > 0 && (g.gap == 0 || grey - last < g.gap))
            g.gap = grey - last;
        g.least = g.distinct == 0 ? grey : g.least;
        g.greatest = last = grey;
        g.distinct++;
    }
    return g;
}
