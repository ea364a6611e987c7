#include "refuse.h"

#include <stdio.h>
#include <string.h>

#include "front.h"
#include "messages.h"

/* ---- ways out ---- */

/* The input's name where a shell takes it as it stands; else a word in its place. */
static const char *shell_name(const char *name)
{
    static const char plain[] = "abcdefghijklmnopqrstuvwxyzABCDEFGHIJKLMNOPQRSTUVWXYZ0123456789._/-+,";
    return name[0] != '-' && name[0] != '\0' && name[strspn(name, plain)] == '\0' ? name : "IN.pgm";
}

/* The same samples behind another header: of a raw file its last bytes, of a plain one all that stands behind maxval. */
static void way_by_header(const struct run *run, const struct front *f, uint32_t maxval)
{
    say_more("A new header alone does it: { printf 'P%c\\n%u %u\\n%u\\n'; tail -c %s%zu %s; } >NEW.pgm", f->plain ? '2' : '5',
             (unsigned)f->width, (unsigned)f->height, (unsigned)maxval, f->plain ? "+" : "",
             f->plain ? f->raster + 1 : f->bytes, shell_name(run->task.in));
}

/* A comment in text goes up to its line's end. */
static void way_without_comments(const struct run *run)
{
    say_more("Comments are taken out by: sed 's/#.*//' %s >NEW.pgm", shell_name(run->task.in));
}

/* What takes films as they come: other formats and other depths. */
static void way_by_import(const struct run *run, const char *end)
{
    say_more("station/import %s --into FOLDER %s", shell_name(run->task.in), end);
}

static void way_by_range(const struct run *run, struct span greys)
{
    int flat = greys.least == greys.greatest;
    say_more("The film's least grey is %u, its greatest %u: --range %u:%u holds them all.", (unsigned)greys.least,
             (unsigned)greys.greatest, flat ? 0u : (unsigned)greys.least,
             flat ? (unsigned)run->sizes.maxval : (unsigned)greys.greatest);
}

/* ---- the settings ---- */

static void more_settings(const struct run *run)
{
    const tz_settings *s = &run->settings;
    struct worded w = worded_of(run);
    say_more("The settings were %s --bins %u --range %u:%u (%u greys) --clip %s --edition %s.", w.place, (unsigned)tz_bins_of(s),
             (unsigned)s->min, (unsigned)s->max, s->max >= s->min ? (unsigned)(s->max - s->min) + 1u : 0u, w.clip,
             s->edition == TZ_OURS ? "ours" : "1986");
}

static void more_profile(const struct run *run)
{
    more_settings(run);
    say_more("Without --bytes the film takes any of them, and is the same where bytes would have served.");
}

static void more_bins(const struct run *run)
{
    const tz_settings *s = &run->settings;
    say_more("Asked were %u bins; the range %u to %u has %u greys: --bins %u is the most, and what is taken without --bins.",
             (unsigned)tz_bins_of(s), (unsigned)s->min, (unsigned)s->max, (unsigned)(s->max - s->min) + 1u,
             (unsigned)(s->max - s->min) + 1u);
}

static void more_grid(const struct run *run)
{
    char across[64], down[64];
    const tz_settings *s = &run->settings;
    grids_that_fit(run->sizes.width, across, sizeof across);
    grids_that_fit(run->sizes.height, down, sizeof down);
    say_more("Asked were %u tiles across and %u down; the film is %u pixels wide and %u high.", (unsigned)s->across,
             (unsigned)s->down, (unsigned)run->sizes.width, (unsigned)run->sizes.height);
    say_more("Tiles across that fit: %s. Tiles down that fit: %s.", across, down);
}

static uint32_t least(uint32_t a, uint32_t b) { return a < b ? a : b; }

/* A side is shorter than its grid: as many tiles as it has pixels are the most. The byte profile has one grid alone. */
static void more_sides(const struct run *run)
{
    uint32_t across = least(run->settings.across, run->sizes.width), down = least(run->settings.down, run->sizes.height);
    more_grid(run);
    if (across >= TZ_LEAST_GRID && down >= TZ_LEAST_GRID)
        say_more("--grid %ux%u%s is the nearest that fits.", (unsigned)across, (unsigned)down,
                 (run->job->given & BYTES) != 0 ? " without --bytes" : "");
}

/* A side that is even lies between two that are taken, or at an end. */
static void more_side(const struct run *run)
{
    uint32_t side = run->job->side, end = side < TZ_LEAST_REGION ? TZ_LEAST_REGION : TZ_MOST_REGION;
    say_more("Asked was a side of %u; odd ones from %u to %u are taken, so that the pixel is in the region's middle.",
             (unsigned)side, TZ_LEAST_REGION, TZ_MOST_REGION);
    if (side > TZ_LEAST_REGION && side < TZ_MOST_REGION)
        say_more("--side %u and --side %u are the nearest.", (unsigned)side - 1, (unsigned)side + 1);
    else
        say_more("--side %u is the nearest.", end);
}

static void more_range(const struct run *run)
{
    say_more("Asked was the range from %u to %u; the file's maxval is %u.", (unsigned)run->settings.min,
             (unsigned)run->settings.max, (unsigned)run->sizes.maxval);
    way_by_range(run, span_of(run->picture, run->pixels));
}

static void more_pixel(const struct run *run)
{
    const tz_settings *s = &run->settings;
    size_t at = 0;
    while (at < run->pixels && run->picture[at] >= s->min && run->picture[at] <= s->max)
        at++;
    if (at == run->pixels)
        return;
    say_more("The first is at column %u, row %u: grey %u, and the range is %u to %u.",
             (unsigned)(at % run->sizes.width), (unsigned)(at / run->sizes.width), (unsigned)run->picture[at],
             (unsigned)s->min, (unsigned)s->max);
    way_by_range(run, span_of(run->picture, run->pixels));
}

static void more_window(const struct run *run)
{
    const tz_window *w = &run->job->window;
    say_more("Asked were %u by %u pixels from column %u, row %u on; the film is %u by %u.", (unsigned)w->width,
             (unsigned)w->height, (unsigned)w->left, (unsigned)w->top, (unsigned)run->sizes.width,
             (unsigned)run->sizes.height);
    if (w->left < run->sizes.width && w->top < run->sizes.height)
        say_more("From there it has %u by %u.", (unsigned)(run->sizes.width - w->left),
                 (unsigned)(run->sizes.height - w->top));
}

/* ---- the file ---- */

/* How a raw PGM is made of a file, with its name between the two parts: by our own program where greys could be lost on
   the way, else by Netpbm's. */
#define BY_IMPORT "station/import ", " --into FOLDER"

/* Files that are often handed in for a raw PGM, by their first bytes. */
static const struct kind {
    const char *begins;
    size_t length;
    const char *what, *by, *and_then;
} kinds[] = {
    {"P2", 2, "a plain PGM (P2), its numbers in text", "tzofnadir raw ", " NEW.pgm"}, /* all but the listing read it */
    {"P1", 2, "a plain bitmap (P1), black and white alone", BY_IMPORT},
    {"P4", 2, "a bitmap (P4), black and white alone", BY_IMPORT},
    {"P3", 2, "a plain PPM (P3), in colour", "ppmtopgm ", " >NEW.pgm"},
    {"P6", 2, "a PPM (P6), in colour", "ppmtopgm ", " >NEW.pgm"},
    {"P7", 2, "a PAM (P7)", BY_IMPORT},
    {"\x89PNG", 4, "a PNG", BY_IMPORT},
    {"II*\0", 4, "a TIFF", BY_IMPORT},
    {"MM\0*", 4, "a TIFF", BY_IMPORT},
    {"II+\0", 4, "a TIFF", BY_IMPORT},
    {"MM\0+", 4, "a TIFF", BY_IMPORT},
    {"\x1f\x8b", 2, "packed by gzip", "gunzip <", " >NEW.pgm"},
};

static void say_kind(const struct run *run, const struct kind *kind)
{
    say_more("It is %s. A raw PGM is made of it by: %s%s%s", kind->what, kind->by, shell_name(run->task.in),
             kind->and_then);
}

/* Files that are none of these: what can be told of them, at least. */
static void say_other(const struct run *run)
{
    static const struct kind dicom = {"", 0, "a DICOM file", BY_IMPORT};
    const struct input *in = &run->input;
    if (in->len >= 132 && memcmp(in->bytes + 128, "DICM", 4) == 0)
        say_kind(run, &dicom);
    else if (in->len >= 3 && memcmp(in->bytes, "\xff\xd8\xff", 3) == 0)
        say_more("It is a JPEG, whose packing alters greys: have the scan given as PNG, TIFF or DICONDE, for station/import.");
    else
        say_more("It begins with byte %u where P, %u, stands in a PGM.", (unsigned)in->bytes[0], (unsigned)'P');
}

static void say_broken(const struct input *in)
{
    struct front f = front_of(in);
    say_more("It begins with P%c, and behind %d of its three numbers the header %s, at byte %zu.", f.plain ? '2' : '5',
             f.numbers, f.raster >= in->len ? "ends" : "breaks off", f.raster);
    say_more("Due are width, height and maxval, of up to five digits, each behind white space, and one white space byte.");
}

static void more_header(const struct run *run)
{
    const struct input *in = &run->input;
    int broken = is_plain(in) && run->job->command != LISTING;
    for (unsigned i = 0; i < sizeof kinds / sizeof kinds[0] && !broken; i++)
        if (in->len >= kinds[i].length && memcmp(in->bytes, kinds[i].begins, kinds[i].length) == 0) {
            say_kind(run, &kinds[i]);
            return;
        }
    if (in->len == 0)
        say_more("It is empty.");
    else if (broken || (in->len >= 2 && memcmp(in->bytes, "P5", 2) == 0))
        say_broken(in);
    else
        say_other(run);
}

static void more_comment(const struct run *run)
{
    struct front f = front_of(&run->input);
    uint32_t maxval = f.maxval < TZ_MOST_GREY ? f.maxval : TZ_MOST_GREY;
    way_by_import(run, "makes the same film without one.");
    if (f.plain)
        way_without_comments(run);
    else if (f.numbers == 3 && maxval > 0 && run->input.len - f.raster == f.bytes && greatest_sample(&run->input, &f) <= maxval)
        way_by_header(run, &f, maxval);
}

static void more_size(const struct run *run)
{
    struct front f = front_of(&run->input);
    if (run->job->command == LISTING)
        say_more("A listing is made of a film of at most 8192 pixels, in a file of at most 32768 bytes.");
    if (f.numbers < 2)
        return;
    say_more("The header says %u by %u pixels; sides of 1 to %u are taken.", (unsigned)f.width, (unsigned)f.height,
             TZ_MOST_SIDE);
    if (f.width > TZ_MOST_SIDE || f.height > TZ_MOST_SIDE)
        way_by_import(run, "--cut makes films of it that overlap.");
}

static void more_maxval(const struct run *run)
{
    struct front f = front_of(&run->input);
    if (f.numbers < 3)
        return;
    uint32_t greatest = greatest_sample(&run->input, &f);
    say_more("The file's maxval is %u, and its greatest sample %u; maxvals of 1 to %u are taken.", (unsigned)f.maxval,
             (unsigned)greatest, TZ_MOST_GREY);
    if (f.maxval > TZ_MOST_GREY && greatest <= TZ_MOST_GREY && in_order(&run->input, &f))
        way_by_header(run, &f, TZ_MOST_GREY);
    else if (f.maxval > TZ_MOST_GREY && greatest - least_sample(&run->input, &f) <= TZ_MOST_GREY)
        way_by_import(run, "keeps every grey, less the least of them.");
    else if (f.maxval > TZ_MOST_GREY)
        way_by_import(run, "takes an even step of greys for one, and says how many became one.");
}

/* Up to 20 bytes of a sample in text, and two dots where there are more; a 0 as messages show what steers a terminal. */
static void show_sample(const struct walk *w, char text[96])
{
    size_t used = 0, at = w->from;
    for (; at < w->to && at < w->from + 20; at++)
        used += (size_t)snprintf(text + used, 96 - used, w->in->bytes[at] == 0 ? "\\000" : "%c", w->in->bytes[at]);
    snprintf(text + used, 96 - used, "%s", at < w->to ? ".." : "");
}

/* In text the file ends too early, or a sample is no number; the first one decides. */
static void more_plain(const struct run *run, const struct front *f)
{
    char text[96];
    struct walk w = walk_over(&run->input, f);
    while (next_sample(&w) && w.good)
        ;
    if (w.good) {
        say_more("The header says %u by %u pixels; behind it stand %zu samples.", (unsigned)f->width, (unsigned)f->height,
                 w.which);
        return;
    }
    show_sample(&w, text);
    say_more("At column %u, row %u, which is byte %zu, stands no number of 1 to 5 digits: %s", (unsigned)(w.which % f->width),
             (unsigned)(w.which / f->width), w.from, text);
    if (memchr(run->input.bytes + w.from, '#', w.to - w.from) != NULL)
        way_without_comments(run);
}

/* In text, behind the last sample. */
static void more_behind(const struct run *run, const struct front *f)
{
    struct walk w = walk_over(&run->input, f);
    while (next_sample(&w))
        ;
    say_more("The header says %u by %u pixels; the last of these %zu samples ends at byte %zu, and more than white space follows.",
             (unsigned)f->width, (unsigned)f->height, f->count, w.to);
}

static void more_raster(const struct run *run)
{
    struct front f = front_of(&run->input);
    if (f.numbers < 3)
        return;
    size_t there = run->input.len - f.raster;
    say_more("The header says %u by %u pixels of %s, %zu bytes; behind it stand %s%zu.", (unsigned)f.width, (unsigned)f.height,
             f.maxval < 256 ? "one byte" : "two bytes", f.bytes, run->input.cut ? "more than " : "", there);
}

static void more_short(const struct run *run)
{
    struct front f = front_of(&run->input);
    if (f.plain)
        more_plain(run, &f);
    else
        more_raster(run);
}

static void more_long(const struct run *run)
{
    struct front f = front_of(&run->input);
    if (f.plain)
        more_behind(run, &f);
    else
        more_raster(run);
}

static void more_sample(const struct run *run)
{
    struct front f = front_of(&run->input);
    struct walk w = walk_over(&run->input, &f);
    int found = 0;
    while (!found && next_sample(&w))
        found = w.good && w.grey > f.maxval;
    if (!found)
        return;
    uint32_t greatest = greatest_sample(&run->input, &f);
    say_more("The file's maxval is %u. The first above it is at column %u, row %u: %u; the greatest is %u.",
             (unsigned)f.maxval, (unsigned)(w.which % f.width), (unsigned)(w.which / f.width), (unsigned)w.grey,
             (unsigned)greatest);
    if (greatest <= TZ_MOST_GREY && in_order(&run->input, &f))
        way_by_header(run, &f, greatest);
}

/* ---- the refusals ---- */

typedef void (*more_function)(const struct run *);

/* What is told of a refusal behind its sentence; of any that stands here not, the settings. */
static more_function more_of(uint32_t refusal)
{
    static const more_function more[] = {
        [TZ_GRID_ACROSS] = more_grid,    [TZ_GRID_DOWN] = more_grid,     [TZ_WIDTH_SHORT] = more_sides,
        [TZ_HEIGHT_SHORT] = more_sides,  [TZ_RANGE_MAX] = more_range,    [TZ_RANGE_MIN] = more_range,
        [TZ_PIXEL_OUTSIDE] = more_pixel, [TZ_WINDOW] = more_window,      [TZ_HEADER] = more_header,
        [TZ_COMMENT] = more_comment,     [TZ_FILE_SIZE] = more_size,     [TZ_MAXVAL] = more_maxval,
        [TZ_RASTER_SHORT] = more_short,  [TZ_RASTER_LONG] = more_long,   [TZ_SAMPLE] = more_sample,
        [TZ_BINS_UNREACHED] = more_bins, [TZ_PROFILE] = more_profile,    [TZ_REGION_SIDE] = more_side,
    };
    more_function found = refusal < sizeof more / sizeof more[0] ? more[refusal] : NULL;
    return found != NULL ? found : more_settings;
}

/* A listing has settings of its own, for which nobody asked. */
static void more_listing(void) { say_more("A listing takes grid 2 by 2, 4 bins, range 0 to maxval and factor 2."); }

static const char *sentence_of(uint32_t refusal, const struct run *run)
{
    if (run->job->command == LISTING && refusal == TZ_BINS_UNREACHED)
        return "The listing has 4 bins, and a film of this maxval has fewer greys.";
    return tz_refusal_text(refusal);
}

int refuse(uint32_t refusal, const struct run *run)
{
    int of_file = refusal >= TZ_HEADER && refusal <= TZ_TARGET_SHORT;
    say("%s: refused, %u: %s", input_name(run->task.in), (unsigned)refusal, sentence_of(refusal, run));
    if (run->job->command == LISTING && !of_file)
        more_listing();
    else
        more_of(refusal)(run);
    return (int)refusal;
}

int refuse_rendering(const struct run *run)
{
    say("%s: refused, %u: The rendering has greys above the file's maxval: the top of the range is above it.",
        input_name(run->task.in), (unsigned)TZ_SAMPLE);
    say_more("The file's maxval is %u, the top of the range %u: --range %u:%u keeps below it.", (unsigned)run->sizes.maxval,
             (unsigned)run->settings.max, 0u, (unsigned)run->sizes.maxval);
    return (int)TZ_SAMPLE;
}

int too_long(const struct run *run)
{
    say("%s is longer than %zu bytes, the largest %sfilm and 64 KiB of header: not read further", input_name(run->task.in),
        bound_of(&run->input), is_plain(&run->input) ? "plain " : "");
    return TOO_LONG;
}
