/*
 * guarded_room LIBRARY          a room's calls over the shared library, by structs and flat, on memory that lies straight before
 *                               and straight behind pages that may not be touched. Where a refusal is expected all that is lent
 *                               may only be read, the record and the places for answers too, so that a write of any kind ends
 *                               the program by a signal; and so it is with all but the output in a draw.
 * guarded_room LIBRARY behind   a call that is told one entry more than there is: has to be ended by a signal
 * guarded_room LIBRARY locked   a call that stores a film where it may only read: likewise
 *
 * Prints how many calls were made, and how many were refused.
 */
#include <stdio.h>
#include <string.h>

#include "desk.h"

#define MANY(list) (sizeof(list) / sizeof(list)[0])

/* Buffers of just the length that is wanted, and one short. */
static void shorts(void)
{
    struct desk d = open_desk(ENTRIES - 1);
    const struct film *open[] = {&films[0], &films[1]};
    tz_window all = {0, 0, WIDTH, HEIGHT};
    store(&d, &films[0], TZ_ROOM_SHORT);
    resize(&d.map, 2 * (2 * ENTRIES - 1));
    d.entries = 2 * ENTRIES - 1;
    resize(&d.scratch, 4 * (d.scratch_len = BINS - 1));
    store(&d, &films[0], TZ_SCRATCH_SHORT);
    resize(&d.scratch, 4 * (d.scratch_len = BINS));
    resize(&d.list, 8 * (d.list_len = LOOKS - 1));
    store(&d, &films[0], TZ_LOOKS_SHORT);
    resize(&d.list, 8 * (d.list_len = LOOKS));
    store_part(&d, &films[0], PIXELS - 1, TZ_PICTURE_LENGTH);
    store(&d, &films[0], TZ_DONE);
    store(&d, &films[1], TZ_ROOM_SHORT);
    holds(&d, open, 1);
    resize(&d.out, 2 * (d.out_len = PIXELS - 1));
    draw(&d, &films[0], &all, TZ_OUTPUT_LENGTH);
    resize(&d.out, 2 * (d.out_len = PIXELS + 1));
    draw(&d, &films[0], &all, TZ_OUTPUT_LENGTH);
    resize(&d.out, 2 * (d.out_len = PIXELS));
    drop(&d, films[0].number, TZ_DONE);
    resize(&d.map, 2 * (d.entries = 2 * ENTRIES));
    store(&d, &films[0], TZ_DONE);
    store(&d, &films[1], TZ_DONE);
    holds(&d, open, 2);
    close_desk(&d);
}

/* No entries at all: nothing is stored, and an empty room is one. */
static void nothing_lent(void)
{
    struct desk d = open_desk(0);
    tz_window one = {0, 0, 1, 1};
    store(&d, &films[0], TZ_ROOM_SHORT);
    draw(&d, &films[0], &one, TZ_NOT_STORED);
    drop(&d, films[0].number, TZ_NOT_STORED);
    close_desk(&d);
}

/* Takes a film out, and looks at all entries: the later sets moved down, and what lies behind them is as it was. */
static void drop_one(struct desk *d, const struct film **open, uint32_t *count, uint32_t place)
{
    static uint16_t wanted[8 * ENTRIES];
    size_t from = (place + 1) * ENTRIES, end = *count * ENTRIES;
    memcpy(wanted, d->map.at, sizeof wanted);
    memmove(wanted + from - ENTRIES, wanted + from, 2 * (end - from));
    drop(d, open[place]->number, TZ_DONE);
    if (memcmp(wanted, d->map.at, sizeof wanted) != 0)
        fault("a drop left other entries, of place", place);
    *count -= 1;
    for (uint32_t i = place; i < *count; i++)
        open[i] = open[i + 1];
    holds(d, open, *count);
}

/* Eight films fill the room to the entry; a ninth, and a number again; drops of the middle, the first and the last one. */
static void nine_films(void)
{
    struct desk d = open_desk(8 * ENTRIES);
    const struct film *open[8];
    uint32_t count = 0;
    for (; count < 8; count++) {
        store(&d, open[count] = &films[count], TZ_DONE);
        store(&d, &films[count], TZ_STORED);
    }
    holds(&d, open, count);
    store(&d, &films[8], TZ_ROOM_FULL);
    drop(&d, films[8].number, TZ_NOT_STORED);
    drop_one(&d, open, &count, 4);
    store(&d, open[count++] = &films[8], TZ_DONE);
    holds(&d, open, count);
    drop_one(&d, open, &count, 0);
    drop_one(&d, open, &count, 6);
    store(&d, open[count++] = &films[0], TZ_DONE);
    holds(&d, open, count);
    while (count > 0)
        drop_one(&d, open, &count, count / 2);
    drop(&d, films[0].number, TZ_NOT_STORED);
    close_desk(&d);
}

/* A full room to be wrecked. */
static struct desk full_desk(void)
{
    struct desk d = open_desk(8 * ENTRIES);
    for (uint32_t i = 0; i < 8; i++)
        store(&d, &films[i], TZ_DONE);
    return d;
}

static void wild_counts(void)
{
    static const uint32_t counts[] = {9, 10, 11, 16, 255, 256, 65536, 2147483647u, 2147483648u, 4294967295u};
    struct desk d = full_desk();
    tz_room *room = d.room.at, whole = *room;
    for (size_t i = 0; i < MANY(counts); i++) {
        room->count = counts[i];
        none_of_them(&d, &films[0], TZ_ROOM_RECORD);
        none_of_them(&d, &films[8], TZ_ROOM_RECORD);
        *room = whole;
    }
    close_desk(&d);
}

/* Each pair of places; behind the last set a number may stand twice. */
static void wild_numbers(void)
{
    struct desk d = full_desk();
    tz_room *room = d.room.at, whole = *room;
    for (uint32_t i = 0; i < 8; i++)
        for (uint32_t k = 0; k < i; k++) {
            room->sets[i].film = room->sets[k].film;
            none_of_them(&d, &films[k], TZ_ROOM_RECORD);
            none_of_them(&d, &films[8], TZ_ROOM_RECORD);
            room->count = i;
            drop(&d, films[8].number, TZ_NOT_STORED);
            *room = whole;
        }
    close_desk(&d);
}

/* So many sets of such settings: they exceed the room, or their product or sum comes to little where 64 bits wrap. */
static const struct wild {
    uint32_t sets, across, down, bins;
} wilds[] = {
    {1, 4294967295u, 4294967295u, 4294967295u}, {1, 2147483648u, 2147483648u, 4}, {1, 65536, 65536, 0},
    {1, 4294967295u, 1, 4294967295u},           {2, 2147483648u, 2147483648u, 2}, {4, 2147483648u, 1073741824u, 2},
    {8, 2147483648u, 1073741824u, 1},           {8, 4294967295u, 4294967295u, 1}, {8, 4294967295u, 4294967295u, 0},
    {1, 1, 1, 8 * ENTRIES + 1},                 {2, 1, 1, 4 * ENTRIES + 1},       {8, 1, 1, ENTRIES + 1},
};

static void wreck(tz_room *room, const struct wild *w, uint32_t from)
{
    for (uint32_t i = from; i < from + w->sets; i++) {
        tz_settings *s = &room->sets[i].settings;
        s->across = w->across;
        s->down = w->down;
        s->bins = w->bins;
    }
}

/* In each place where so many fit, with any number of sets behind them. */
static void wild_sums(void)
{
    struct desk d = full_desk();
    tz_room *room = d.room.at, whole = *room;
    for (size_t i = 0; i < MANY(wilds); i++)
        for (uint32_t count = wilds[i].sets; count <= 8; count++)
            for (uint32_t from = 0; from + wilds[i].sets <= count; from++) {
                room->count = count;
                wreck(room, &wilds[i], from);
                none_of_them(&d, &films[0], TZ_ROOM_RECORD);
                none_of_them(&d, &films[8], TZ_ROOM_RECORD);
                *room = whole;
            }
    close_desk(&d);
}

/* A buffer that is shorter than it was: refused, but for the sets that it still holds. */
static void shorter(void)
{
    struct desk d = full_desk();
    tz_room *room = d.room.at, whole = *room;
    for (uint32_t count = 1; count <= 8; count++) {
        room->count = count;
        resize(&d.map, 2 * (d.entries = count * ENTRIES - 1));
        none_of_them(&d, &films[0], TZ_ROOM_RECORD);
        resize(&d.map, 2 * (d.entries = count * ENTRIES));
        drop(&d, films[8].number, TZ_NOT_STORED);
        *room = whole;
    }
    resize(&d.map, 0);
    d.entries = 0;
    none_of_them(&d, &films[0], TZ_ROOM_RECORD);
    close_desk(&d);
}

/* A record that somebody made: sets of impossible settings are no wild record, and no draw of them passes the settings. */
static void made_up(void)
{
    struct desk d = open_desk(ENTRIES);
    tz_room *room = d.room.at;
    tz_window one = {0, 0, 1, 1};
    struct film f = films[0];
    f.settings.across = 0;
    f.settings.bins = 4294967295u;
    room->count = 1;
    room->sets[0] = (tz_set){f.number, WIDTH, HEIGHT, f.settings};
    draw(&d, &f, &one, TZ_GRID_ACROSS);
    draw(&d, &films[0], &one, TZ_RECORD);
    draw(&d, &films[1], &one, TZ_NOT_STORED);
    store(&d, &films[1], TZ_DONE); /* the other set takes no entries */
    drop(&d, f.number, TZ_DONE);
    const struct film *open[] = {&films[1]};
    holds(&d, open, 1);
    close_desk(&d);
}

/* A draw of a stored film by another size, other settings, another window; and by entries that nobody prepared. */
static void drawn_otherwise(void)
{
    struct desk d = full_desk();
    tz_window all = {0, 0, WIDTH, HEIGHT}, empty = {0, 0, 0, HEIGHT}, outside = {1, 0, WIDTH, HEIGHT};
    struct film f = films[3];
    f.settings.factor += 1;
    draw(&d, &f, &all, TZ_RECORD);
    f.settings = films[4].settings; /* another film's of the same size */
    draw(&d, &f, &all, TZ_RECORD);
    f.settings = films[3].settings;
    f.settings.edition = TZ_1986;
    draw(&d, &f, &all, TZ_RECORD);
    f.settings.clip = 0;
    draw(&d, &f, &all, TZ_RECORD);
    f.settings = films[3].settings;
    f.settings.bins = 1;
    draw(&d, &f, &all, TZ_BINS);
    draw(&d, &films[3], &empty, TZ_WINDOW);
    draw(&d, &films[3], &outside, TZ_WINDOW);
    uint16_t *map = d.map.at;
    map[3 * ENTRIES - 1] = map[4 * ENTRIES] = 4096; /* the neighbours' entries are not looked at */
    draw(&d, &films[3], &all, TZ_DONE);
    map[4 * ENTRIES - 1] = 4096;
    draw(&d, &films[3], &all, TZ_MAP_OUTSIDE);
    close_desk(&d);
}

static void all_trials(void)
{
    for (uint32_t i = 0; i < FILMS; i++)
        make_film(&films[i], i);
    shorts();
    nothing_lent();
    nine_films();
    wild_counts();
    wild_numbers();
    wild_sums();
    shorter();
    made_up();
    drawn_otherwise();
    for (uint32_t i = 0; i < FILMS; i++)
        give_back(&films[i].greys);
}

/* That the guards are there: each of these has to be ended. */
static void beyond(const char *what)
{
    side = AT_END;
    make_film(&films[0], 0);
    struct desk d = open_desk(ENTRIES - (strcmp(what, "behind") == 0));
    d.entries = ENTRIES;
    if (strcmp(what, "locked") == 0)
        lock_lent(&d.map);
    store(&d, &films[0], TZ_DONE);
    fault("not ended", 0);
}

int main(int argc, char **argv)
{
    if (argc != 2 && argc != 3)
        fault("usage: guarded_room LIBRARY [behind | locked]", 0);
    tz = load_calls(argv[1]);
    if (argc == 3)
        beyond(argv[2]);
    for (flat = 0; flat < 2; flat++)
        for (side = AT_START; side < SIDES; side++)
            all_trials();
    printf("%lu calls, %lu of them refused\n", made, refused);
    return 0;
}
