/*
 * room FILM.pgm ..: holds up to eight films open in one room, as a station does whose interpreter goes from one to the other.
 *
 * Their mappings lie in one buffer, each in the size that its grid and bins take. When the room is full, a window of each film
 * is drawn, the film that was opened first is dropped, and the next one is stored in what is free then; at the end a window of
 * each film that is open is drawn. The windows, SIDE by SIDE around the films' middles, go to standard output as raw PGM, one
 * behind the other: each is what `tzofnadir window FILM.pgm OUT.pgm --at .. --size .. --bins 256` writes of that film alone.
 * A refusal ends the program with its number.
 *
 *     cc room.c -o room $(pkg-config --cflags --libs tzofnadir)
 */
#include <stdio.h>
#include <stdlib.h>
#include <tzofnadir.h>

#define BINS 256u
#define SIDE 64u
#define ENTRIES (TZ_ROOM_SETS * 8 * 8 * BINS) /* eight films with a grid of 8 by 8 */

typedef struct film {
    uint32_t number;
    tz_sizes sizes;
    tz_settings settings;
    uint16_t *greys;
} film;

static uint8_t file[2 * 4096 * 4096 + 65536]; /* the largest film, and room for its header */
static uint16_t map[ENTRIES];                 /* the room's buffer, */
static tz_room room;                          /* and its record: cleared, and so without films */
static film films[TZ_ROOM_SETS];              /* those that are open, in the order of opening */

static void check(uint32_t refusal)
{
    if (refusal == TZ_DONE)
        return;
    fprintf(stderr, "%u: %s\n", (unsigned)refusal, tz_refusal_text(refusal));
    exit((int)refusal);
}

static film read_film(const char *path, uint32_t number)
{
    FILE *from = fopen(path, "rb");
    size_t count = from == NULL ? 0 : fread(file, 1, sizeof file, from);
    film f = {.number = number};
    tz_part raster;
    check(tzofnadir_read_sizes(file, count, &f.sizes));
    check(tzofnadir_read_raster(file, count, &raster));
    f.settings = (tz_settings){.across = 8, .down = 8, .bins = BINS, .max = f.sizes.maxval, .clip = 1, .factor = 3.0f};
    size_t pixels = (size_t)f.sizes.width * f.sizes.height;
    f.greys = calloc(pixels, sizeof *f.greys);
    if (f.greys == NULL)
        exit(71);
    check(tzofnadir_read_greys(file, count, raster.start, &f.sizes, f.greys, pixels));
    fclose(from);
    return f;
}

static void open_film(const film *f)
{
    static uint32_t scratch[BINS];
    static uint64_t looks[2 * 8 * 8];
    tz_footer footer;
    check(tzofnadir_room_store(f->number, f->sizes.width, f->sizes.height, f->greys,
                               (size_t)f->sizes.width * f->sizes.height, &f->settings, map, ENTRIES, scratch, BINS,
                               &room, &footer, looks, 2 * 8 * 8));
    fprintf(stderr, "film %u: limit %u, factor used %g\n", (unsigned)f->number, (unsigned)footer.limit, footer.used);
}

static void show_film(const film *f)
{
    static uint16_t out[SIDE * SIDE];
    tz_sizes sizes = {f->sizes.width < SIDE ? f->sizes.width : SIDE, f->sizes.height < SIDE ? f->sizes.height : SIDE,
                      f->sizes.maxval};
    tz_window window = {(f->sizes.width - sizes.width) / 2, (f->sizes.height - sizes.height) / 2, sizes.width, sizes.height};
    size_t area = (size_t)sizes.width * sizes.height, count;
    check(tzofnadir_room_draw(f->number, f->sizes.width, f->sizes.height, f->greys,
                              (size_t)f->sizes.width * f->sizes.height, &f->settings, &room, &window, map, ENTRIES, out, area));
    check(tzofnadir_write(out, area, &sizes, file, sizeof file, &count));
    fwrite(file, 1, count, stdout);
}

static void show_all(void)
{
    for (uint32_t i = 0; i < room.count; i++)
        show_film(&films[i]);
}

static void close_first(void)
{
    check(tzofnadir_room_drop(films[0].number, map, ENTRIES, &room));
    free(films[0].greys);
    for (uint32_t i = 0; i < room.count; i++)
        films[i] = films[i + 1];
}

int main(int argc, char **argv)
{
    for (int i = 1; i < argc; i++) {
        if (room.count == TZ_ROOM_SETS) {
            show_all();
            close_first();
        }
        films[room.count] = read_film(argv[i], (uint32_t)i);
        open_film(&films[room.count]); /* which counts one more */
    }
    show_all();
    return fflush(stdout) == 0 && !ferror(stdout) ? 0 : 74;
}
