/*
 * steps LIBRARY STEPS [SEED]: random stores, draws and drops in rooms, and calls with wild records, over the shared library,
 * beside a plain list of films that were prepared alone. After each step record, buffer, scratch, list, output and footer have
 * to be what they have to be, to the last entry, and every film that is stored is drawn and held to the film alone. A refusal's
 * number is that of prepare or draw of the film alone, with 37 for 11, behind 40, 35, 36 and 38.
 *
 * Every thousand steps a new room begins, of another length. Sizes, grids and numbers are few, so that films often have them in
 * common. The same seed makes the same steps. Prints what was done, and how often each refusal was given; at the first
 * difference it says what and at which step, and ends with 1.
 */
#include <stdio.h>
#include <stdlib.h>
#include <string.h>

#include "calls.h"
#include "list.h"

#define ROOM_STEPS 1000u
#define FILMS (TZ_ROOM_SETS + 1) /* those of the list, and the one that is to be stored */
#define MANY(list) (sizeof(list) / sizeof(list)[0])

static struct calls tz;
static unsigned long step, stored, dropped, drawn, given[41];

/* ---- chance ---- */

static uint64_t state;

static uint32_t below(uint32_t count)
{
    state = state * 6364136223846793005u + 1442695040888963407u;
    return (uint32_t)(state >> 33) % count;
}

static int one_in(uint32_t count) { return below(count) == 0; }

static void fill(void *at, size_t bytes)
{
    uint8_t *byte = at;
    for (size_t i = 0; i < bytes; i++)
        byte[i] = (uint8_t)below(256);
}

/* ---- what the room's calls are lent, beside what it has to be ---- */

static struct list list;
static struct film pool[FILMS];

static struct memory {
    tz_room room;
    tz_footer footer;
    uint16_t buffer[MOST_ENTRIES], out[MOST_PIXELS + 1];
    uint32_t scratch[MOST_SCRATCH];
    uint64_t looks[MOST_LOOKS];
} lent, wanted; /* of `wanted` neither buffer nor room: the list has them */

static void same(const char *what, const void *a, const void *b, size_t bytes)
{
    if (memcmp(a, b, bytes) != 0)
        fault(what, step);
}

static void all_same(void)
{
    same("another record at step", &lent.room, &list.room, sizeof(tz_room));
    same("another buffer at step", lent.buffer, list.buffer, sizeof lent.buffer);
    same("another output at step", lent.out, wanted.out, sizeof lent.out);
    same("another scratch at step", lent.scratch, wanted.scratch, sizeof lent.scratch);
    same("another list at step", lent.looks, wanted.looks, sizeof lent.looks);
    same("another footer at step", &lent.footer, &wanted.footer, sizeof(tz_footer));
}

static void same_refusal(uint32_t saw, uint32_t expected)
{
    if (saw != expected) {
        fprintf(stderr, "%u instead of %u: ", (unsigned)saw, (unsigned)expected);
        fault("another refusal at step", step);
    }
    given[saw < MANY(given) ? saw : 0]++;
}

static void new_room(void)
{
    memset(&list, 0, sizeof list);
    list.entries = one_in(8) ? below(64) : one_in(2) ? MOST_ENTRIES - below(2) : below(MOST_ENTRIES);
    fill(list.buffer, sizeof list.buffer);
    memcpy(lent.buffer, list.buffer, sizeof lent.buffer);
    tz.room_empty(&lent.room);
    fill(lent.scratch, sizeof lent.scratch);
    memcpy(wanted.scratch, lent.scratch, sizeof lent.scratch);
    fill(lent.looks, sizeof lent.looks);
    memcpy(wanted.looks, lent.looks, sizeof lent.looks);
    all_same();
}

/* ---- films ---- */

static uint32_t any_number(void)
{
    static const uint32_t far[] = {4294967295u, 4294967294u, 2147483648u};
    return one_in(12) ? far[below(MANY(far))] : below(12);
}

static void spoil(tz_settings *s)
{
    static const float factors[] = {0.5f, 1025.0f, -1.0f, 1e30f};
    switch (below(8)) {
    case 0: s->across = one_in(2) ? 1 : 17; break;
    case 1: s->down = one_in(2) ? 0 : 4294967295u; break;
    case 2: s->max = 4096; break;
    case 3: s->min = s->max; break;
    case 4: s->bins = one_in(2) ? 1 : 4097; break;
    case 5: s->bins = s->max - s->min + 2; break;
    case 6: s->clip = 1, s->factor = factors[below(MANY(factors))]; break;
    default: s->clip = 1, s->factor = __builtin_nanf("");
    }
}

static tz_settings any_settings(void)
{
    static const uint32_t grids[] = {2, 2, 3, 4, 5, 8, 16}, bins[] = {0, 2, 3, 4, 16, 16, 64, 100, 128, 256};
    static const float factors[] = {1.0f, 1.0f, 1.00000012f, 1.25f, 2.0f, 3.0f, 3.0f, 1024.0f};
    tz_settings s = {grids[below(MANY(grids))], grids[below(MANY(grids))], bins[below(MANY(bins))], 0, 4095, !one_in(6),
                     factors[below(MANY(factors))], one_in(3) ? 1 + below(3) : 0};
    if (one_in(4))
        s.min = below(1000), s.max = s.min + 255 + below(2000);
    if (one_in(20))
        spoil(&s);
    return s;
}

static void any_film(struct film *f)
{
    static const uint32_t sides[] = {3, 16, 17, 24, 24, 33, MOST_SIDE_HERE};
    f->number = any_number();
    f->width = sides[below(MANY(sides))];
    f->height = sides[below(MANY(sides))];
    f->settings = any_settings();
    const tz_settings *s = &f->settings;
    uint32_t greys = s->max >= s->min ? s->max - s->min + 1 : 1, part = one_in(2) ? greys : 1 + below(greys);
    for (size_t i = 0; i < (size_t)f->width * f->height; i++)
        f->greys[i] = (uint16_t)(s->min + below(part));
    if (one_in(20))
        f->greys[below(f->width * f->height)] = (uint16_t)(s->min == 0 ? s->max + 1 : s->min - 1);
}

/* One that is not in the list. */
static struct film *spare(void)
{
    for (uint32_t i = 0; i < FILMS; i++) {
        uint32_t k = 0;
        while (k < list.count && list.films[k] != &pool[i])
            k++;
        if (k == list.count)
            return &pool[i];
    }
    fault("no film is free at step", step);
}

/* ---- steps ---- */

/* Prepare alone, in a map that is a copy of what is free in the room, with 37 for 11. */
static uint32_t prepare_alone(struct film *f, size_t pixels, size_t scratch_len, size_t looks_len)
{
    size_t from = taken(&list);
    memcpy(f->map, list.buffer + from, 2 * (list.entries - from));
    uint32_t refusal = tz.prepare(f->number, f->width, f->height, f->greys, pixels, &f->settings, f->map, list.entries - from,
                                  wanted.scratch, scratch_len, &f->record, &wanted.footer, wanted.looks, looks_len);
    return refusal == TZ_MAP_SHORT ? TZ_ROOM_SHORT : refusal;
}

static void store_step(void)
{
    struct film *f = spare();
    any_film(f);
    size_t pixels = (size_t)f->width * f->height - one_in(40);
    size_t scratch_len = tz_scratch_entries(&f->settings), looks_len = tz_looks_entries(&f->settings);
    scratch_len = scratch_len > MOST_SCRATCH ? MOST_SCRATCH : scratch_len - one_in(40);
    looks_len -= looks_len > 0 && one_in(40);
    uint32_t expected = film_of(&list, f->number) != NULL ? TZ_STORED
                        : list.count == TZ_ROOM_SETS      ? TZ_ROOM_FULL
                                                          : prepare_alone(f, pixels, scratch_len, looks_len);
    if (expected == TZ_DONE) {
        list_add(&list, f);
        stored++;
    }
    same_refusal(tz.room_store(f->number, f->width, f->height, f->greys, pixels, &f->settings, lent.buffer, list.entries,
                               lent.scratch, scratch_len, &lent.room, &lent.footer, lent.looks, looks_len), expected);
}

static tz_window any_window(const struct film *f)
{
    tz_window w = {below(f->width), below(f->height), 0, 0};
    w.width = 1 + below(f->width - w.left);
    w.height = 1 + below(f->height - w.top);
    if (one_in(3))
        w = (tz_window){0, 0, f->width, f->height};
    return w;
}

/* A draw by the room and alone: the answer and every entry of the output. */
static void draw_both(const struct film *f, const struct film *asked, const tz_window *w, size_t out_len)
{
    size_t pixels = (size_t)asked->width * asked->height;
    uint32_t expected = f == NULL ? TZ_NOT_STORED
                                  : tz.draw(asked->number, asked->width, asked->height, asked->greys, pixels, &asked->settings,
                                            &f->record, w, f->map, MOST_ENTRIES, wanted.out, out_len);
    same_refusal(tz.room_draw(asked->number, asked->width, asked->height, asked->greys, pixels, &asked->settings, &lent.room, w,
                              lent.buffer, list.entries, lent.out, out_len), expected);
    same("another output at step", lent.out, wanted.out, sizeof lent.out);
    drawn += expected == TZ_DONE;
}

/* A draw of a number, stored or not, by what was stored or by something else. */
static void draw_step(void)
{
    static struct film asked;
    const struct film *f = list.count > 0 && !one_in(5) ? list.films[below(list.count)] : NULL;
    if (f != NULL)
        asked = *f;
    else
        any_film(&asked);
    f = film_of(&list, asked.number);
    if (one_in(8))
        asked.settings = any_settings();
    if (one_in(20))
        asked.width = 1 + below(MOST_SIDE_HERE);
    if (one_in(20))
        asked.greys[below(asked.width * asked.height)] = (uint16_t)below(4097);
    tz_window w = any_window(&asked);
    if (one_in(10))
        *(&w.left + below(4)) = one_in(2) ? 0 : 4294967295u - below(2);
    uint64_t area = (uint64_t)w.width * w.height;
    size_t out_len = area > MOST_PIXELS ? MOST_PIXELS : (size_t)area;
    draw_both(f, &asked, &w, one_in(20) ? out_len + 1 : out_len);
}

/* An entry that nobody prepared: the film's own is judged, as alone, and the others' are not looked at. */
static void poke_step(void)
{
    size_t from = 0;
    for (uint32_t i = 0; i < list.count; i++) {
        struct film *f = list.films[i];
        size_t entries = tz_map_entries(&f->settings), at = below((uint32_t)entries);
        uint16_t was = f->map[at], poke = (uint16_t)below(4200);
        f->map[at] = lent.buffer[from + at] = poke;
        for (uint32_t k = 0; k < list.count; k++) {
            tz_window w = any_window(list.films[k]);
            draw_both(list.films[k], list.films[k], &w, (size_t)w.width * w.height);
        }
        f->map[at] = lent.buffer[from + at] = was;
        from += entries;
    }
}

static void drop_step(void)
{
    uint32_t number = list.count > 0 && !one_in(4) ? list.films[below(list.count)]->number : any_number();
    struct film *f = film_of(&list, number);
    if (f != NULL) {
        list_remove(&list, f);
        dropped++;
    }
    same_refusal(tz.room_drop(number, lent.buffer, list.entries, &lent.room), f == NULL ? TZ_NOT_STORED : TZ_DONE);
}

/* Wrecks the record, or takes entries away; false where this cannot be, as too little is stored. */
static int wreck(tz_room *room, size_t *entries)
{
    static const uint32_t large[] = {65536, 2147483648u, 4294967295u};
    uint32_t kind = below(4), at = room->count > 0 ? below(room->count) : 0;
    tz_settings *s = &room->sets[at].settings;
    if (kind == 0)
        room->count = 9 + below(one_in(2) ? 8 : 2000000000u);
    else if (kind == 1 && room->count > 1)
        room->sets[at].film = room->sets[(at + 1) % room->count].film;
    else if (kind == 2 && room->count > 0)
        s->across = large[below(3)], s->down = large[below(3)], s->bins = one_in(2) ? 4 : large[below(3)];
    else if (kind == 3 && room->count > 0)
        *entries = taken(&list) - 1 - below(3); /* the least set has 8 */
    else
        return 0;
    return 1;
}

/* A wild record is refused by all three calls, and stays as it is, wild. */
static void wild_step(void)
{
    struct film *f = list.count > 0 && one_in(2) ? list.films[0] : spare();
    tz_room wild = list.room;
    size_t entries = list.entries, pixels = (size_t)f->width * f->height;
    if (!wreck(&wild, &entries))
        return;
    tz_room before = wild;
    tz_window one = {0, 0, 1, 1};
    same_refusal(tz.room_store(f->number, f->width, f->height, f->greys, pixels, &f->settings, lent.buffer, entries, lent.scratch,
                               MOST_SCRATCH, &wild, &lent.footer, lent.looks, MOST_LOOKS), TZ_ROOM_RECORD);
    same_refusal(tz.room_draw(f->number, f->width, f->height, f->greys, pixels, &f->settings, &wild, &one, lent.buffer, entries,
                              lent.out, 1), TZ_ROOM_RECORD);
    same_refusal(tz.room_drop(f->number, lent.buffer, entries, &wild), TZ_ROOM_RECORD);
    same("a wild record was written at step", &wild, &before, sizeof wild);
}

static void take_step(void)
{
    uint32_t kind = below(20);
    if (kind < 9)
        store_step();
    else if (kind < 13)
        draw_step();
    else if (kind < 17)
        drop_step();
    else if (kind < 19)
        wild_step();
    else
        poke_step();
    all_same();
    for (uint32_t i = 0; i < list.count; i++) {
        const struct film *f = list.films[i];
        tz_window w = any_window(f);
        draw_both(f, f, &w, (size_t)w.width * w.height);
    }
    all_same();
}

int main(int argc, char **argv)
{
    if (argc != 3 && argc != 4)
        fault("usage: steps LIBRARY STEPS [SEED]", 0);
    tz = load_calls(argv[1]);
    unsigned long steps = (unsigned long)strtod(argv[2], NULL);
    state = argc == 4 ? (uint64_t)strtod(argv[3], NULL) : 11;
    for (; step < steps; step++) {
        if (step % ROOM_STEPS == 0)
            new_room();
        take_step();
    }
    printf("%lu steps: %lu stored, %lu dropped, %lu drawn; refused", steps, stored, dropped, drawn);
    for (uint32_t i = 1; i < MANY(given); i++)
        if (given[i] > 0)
            printf(" %u: %lu,", (unsigned)i, given[i]);
    printf(" and no difference\n");
    return 0;
}
