#include "desk.h"

#include <string.h>

struct calls tz;
enum side side;
int flat;
unsigned long made, refused;
struct film films[FILMS];

/* ---- films, each prepared alone ---- */

static const uint32_t numbers[FILMS] = {7, 0, 4294967295u, 3, 2147483648u, 1, 9, 2, 5};

/* A range and a factor for each, so that no entry of one set is another's; the last film but one is unclipped, the last of the
   edition of 1986. */
static tz_settings settings_of(uint32_t i)
{
    return (tz_settings){ACROSS, DOWN, BINS, i, 4095 - i, i + 2 != FILMS, i + 2 == FILMS ? 0.0f : 1.5f + (float)i, i + 1 == FILMS};
}

void make_film(struct film *f, uint32_t i)
{
    static uint32_t scratch[BINS];
    static uint64_t list[LOOKS];
    tz_footer footer;
    tz_window all = {0, 0, WIDTH, HEIGHT};
    f->number = numbers[i];
    f->settings = settings_of(i);
    f->greys = lend(2 * PIXELS, side);
    uint16_t *grey = f->greys.at;
    for (uint32_t k = 0; k < PIXELS; k++)
        grey[k] = (uint16_t)(i + (k * (k + 7 * i) + 500 * i) % (4096 - 2 * i));
    lock_lent(&f->greys);
    if (tz.prepare(f->number, WIDTH, HEIGHT, grey, PIXELS, &f->settings, f->map, ENTRIES, scratch, BINS, &f->record, &footer,
                   list, LOOKS) != 0 ||
        tz.draw(f->number, WIDTH, HEIGHT, grey, PIXELS, &f->settings, &f->record, &all, f->map, ENTRIES, f->whole, PIXELS) != 0)
        fault("a film cannot be prepared alone", i);
}

/* ---- what is lent ---- */

static struct lent filled(size_t bytes)
{
    struct lent lent = lend(bytes, side);
    memset(lent.at, 0x5a, bytes);
    return lent;
}

struct desk open_desk(size_t entries)
{
    struct desk d = {entries, BINS, LOOKS, PIXELS, filled(2 * entries), filled(4 * BINS), filled(8 * LOOKS),
                     filled(2 * PIXELS), filled(sizeof(tz_footer)), filled(sizeof(tz_room)), filled(4), filled(320), filled(32)};
    if (flat) {
        tz.flat_empty(d.count.at, d.numbers.at, d.factors.at);
        *(tz_room *)d.room.at = tz_room_of(*(uint32_t *)d.count.at, d.numbers.at, d.factors.at);
    } else {
        tz.room_empty(d.room.at);
    }
    tz_room none = {0};
    if (memcmp(d.room.at, &none, sizeof none) != 0)
        fault("an empty room is not all 0", 0);
    return d;
}

static void each(struct desk *d, void (*act)(const struct lent *))
{
    const struct lent *all[] = {&d->map, &d->scratch, &d->list, &d->out, &d->footer, &d->room, &d->count, &d->numbers, &d->factors};
    for (size_t i = 0; i < sizeof all / sizeof all[0]; i++)
        act(all[i]);
}

static void give(const struct lent *lent)
{
    struct lent own = *lent;
    give_back(&own);
}

void close_desk(struct desk *d) { each(d, give); }

void resize(struct lent *lent, size_t bytes)
{
    give_back(lent);
    *lent = filled(bytes);
}

/* ---- the calls, each by structs or flat ---- */

static uint32_t call_store(struct desk *d, const struct film *f, size_t pixels)
{
    const tz_settings *s = &f->settings;
    tz_footer *footer = d->footer.at;
    if (!flat)
        return tz.room_store(f->number, WIDTH, HEIGHT, f->greys.at, pixels, s, d->map.at, d->entries, d->scratch.at,
                             d->scratch_len, d->room.at, footer, d->list.at, d->list_len);
    return tz.flat_store(f->number, WIDTH, HEIGHT, f->greys.at, pixels, s->across, s->down, s->bins, s->min, s->max, s->clip,
                         s->factor, d->map.at, d->entries, d->scratch.at, d->scratch_len, &footer->limit, &footer->asked,
                         &footer->used, d->list.at, d->list_len, s->edition, d->count.at, d->numbers.at, d->factors.at);
}

static uint32_t call_draw(struct desk *d, const struct film *f, const tz_window *w)
{
    const tz_settings *s = &f->settings;
    if (!flat)
        return tz.room_draw(f->number, WIDTH, HEIGHT, f->greys.at, PIXELS, s, d->room.at, w, d->map.at, d->entries, d->out.at,
                            d->out_len);
    return tz.flat_draw(f->number, WIDTH, HEIGHT, f->greys.at, PIXELS, s->across, s->down, s->bins, s->min, s->max, s->clip,
                        s->factor, w->left, w->top, w->width, w->height, d->map.at, d->entries, d->out.at, d->out_len,
                        s->edition, *(uint32_t *)d->count.at, d->numbers.at, d->factors.at);
}

static uint32_t call_drop(struct desk *d, uint32_t number)
{
    if (!flat)
        return tz.room_drop(number, d->map.at, d->entries, d->room.at);
    return tz.flat_drop(number, d->map.at, d->entries, d->count.at, d->numbers.at, d->factors.at);
}

static void before(struct desk *d, uint32_t wanted)
{
    const tz_room *room = d->room.at;
    *(uint32_t *)d->count.at = room->count;
    tz_room_numbers(room, d->numbers.at, d->factors.at);
    if (wanted != TZ_DONE)
        each(d, lock_lent);
    made++;
    refused += wanted != TZ_DONE;
}

static void behind(struct desk *d, uint32_t wanted, uint32_t saw)
{
    if (saw != wanted)
        fault("refused with another number than expected", saw);
    each(d, unlock_lent);
    if (wanted == TZ_DONE && flat)
        *(tz_room *)d->room.at = tz_room_of(*(uint32_t *)d->count.at, d->numbers.at, d->factors.at);
}

void store_part(struct desk *d, const struct film *f, size_t pixels, uint32_t wanted)
{
    before(d, wanted);
    behind(d, wanted, call_store(d, f, pixels));
}

void store(struct desk *d, const struct film *f, uint32_t wanted) { store_part(d, f, PIXELS, wanted); }

void drop(struct desk *d, uint32_t number, uint32_t wanted)
{
    before(d, wanted);
    behind(d, wanted, call_drop(d, number));
}

void draw(struct desk *d, const struct film *f, const tz_window *w, uint32_t wanted)
{
    before(d, wanted);
    each(d, lock_lent);
    if (wanted == TZ_DONE)
        unlock_lent(&d->out);
    behind(d, wanted, call_draw(d, f, w));
}

void none_of_them(struct desk *d, const struct film *f, uint32_t wanted)
{
    tz_window one = {0, 0, 1, 1};
    store(d, f, wanted);
    draw(d, f, &one, wanted);
    drop(d, f->number, wanted);
}

void holds(struct desk *d, const struct film *const *open, uint32_t count)
{
    const tz_room *room = d->room.at;
    const uint16_t *map = d->map.at;
    tz_window all = {0, 0, WIDTH, HEIGHT};
    if (room->count != count)
        fault("another number of films", room->count);
    for (uint32_t i = 0; i < count; i++) {
        if (room->sets[i].film != open[i]->number || memcmp(map + i * ENTRIES, open[i]->map, 2 * ENTRIES) != 0)
            fault("another film's set, or none, in place", i);
        memset(d->out.at, 0x5a, 2 * PIXELS);
        draw(d, open[i], &all, TZ_DONE);
        if (memcmp(d->out.at, open[i]->whole, 2 * PIXELS) != 0)
            fault("a film is not drawn as alone, in place", i);
    }
}
