#include "front.h"

static int is_white(uint8_t byte) { return byte == ' ' || byte == '\t' || byte == '\r' || byte == '\n'; }

static int is_digit(uint8_t byte) { return byte >= '0' && byte <= '9'; }

/* ---- the header ---- */

/* Behind white space and comments. */
static size_t behind_gap(const struct input *in, size_t at)
{
    while (at < in->len && (is_white(in->bytes[at]) || in->bytes[at] == '#')) {
        if (in->bytes[at] == '#')
            while (at + 1 < in->len && in->bytes[at + 1] != '\n')
                at++;
        at++;
    }
    return at;
}

/* A number of up to nine digits at a place, and the place behind it; the same place where there is none. */
static size_t number_at(const struct input *in, size_t at, uint32_t *out)
{
    uint32_t sum = 0;
    size_t first = at;
    for (; at < in->len && at < first + 9 && is_digit(in->bytes[at]); at++)
        sum = sum * 10 + (uint32_t)(in->bytes[at] - '0');
    *out = sum;
    return at;
}

struct front front_of(const struct input *in)
{
    struct front f = {.plain = is_plain(in), .raster = 2};
    uint32_t *const places[3] = {&f.width, &f.height, &f.maxval};
    while (f.numbers < 3) {
        size_t from = behind_gap(in, f.raster);
        size_t to = number_at(in, from, places[f.numbers]);
        f.raster = to;
        if (to == from)
            return f;
        f.numbers++;
    }
    f.raster = f.raster < in->len ? f.raster + 1 : in->len;
    f.count = (size_t)f.width * f.height;
    f.bytes = f.count * (f.maxval < 256 ? 1 : 2);
    return f;
}

/* ---- the samples ---- */

struct walk walk_over(const struct input *in, const struct front *front)
{
    return (struct walk){.in = in, .front = front, .which = (size_t)-1, .from = front->raster, .to = front->raster, .good = 1};
}

/* One or two bytes, the high one first. */
static int next_raw(struct walk *w)
{
    const uint8_t *at = w->in->bytes + w->to;
    size_t bytes = w->front->maxval < 256 ? 1 : 2;
    if (w->in->len - w->to < bytes)
        return 0;
    w->from = w->to;
    w->to += bytes;
    w->grey = bytes == 1 ? at[0] : (uint32_t)at[0] * 256 + at[1];
    return 1;
}

/* All bytes up to white space or the end. */
static int next_plain(struct walk *w)
{
    const struct input *in = w->in;
    uint32_t grey = 0;
    for (w->from = w->to; w->from < in->len && is_white(in->bytes[w->from]); w->from++)
        ;
    w->good = 1;
    for (w->to = w->from; w->to < in->len && !is_white(in->bytes[w->to]); w->to++) {
        w->good = w->good && w->to < w->from + 5 && is_digit(in->bytes[w->to]);
        grey = w->good ? grey * 10 + (uint32_t)(in->bytes[w->to] - '0') : 0;
    }
    w->grey = grey;
    return w->from < in->len;
}

int next_sample(struct walk *w)
{
    if (w->front->numbers < 3 || w->which + 1 == w->front->count)
        return 0;
    w->which++;
    return w->front->plain ? next_plain(w) : next_raw(w);
}

int in_order(const struct input *in, const struct front *front)
{
    struct walk w = walk_over(in, front);
    size_t seen = 0;
    while (next_sample(&w) && w.good)
        seen++;
    return !front->plain || seen == front->count;
}

uint32_t least_sample(const struct input *in, const struct front *front)
{
    uint32_t least = 65535;
    for (struct walk w = walk_over(in, front); next_sample(&w);)
        if (w.good && w.grey < least)
            least = w.grey;
    return least;
}

uint32_t greatest_sample(const struct input *in, const struct front *front)
{
    uint32_t greatest = 0;
    for (struct walk w = walk_over(in, front); next_sample(&w);)
        if (w.good && w.grey > greatest)
            greatest = w.grey;
    return greatest;
}
