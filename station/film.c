#include "film.h"

#include <stdio.h>
#include <stdlib.h>
#include <string.h>
#include <unistd.h>

#include "advice.h"
#include "bins.h"
#include "check.h"
#include "messages.h"
#include "outputs.h"
#include "painting.h"
#include "png.h"
#include "record.h"
#include "refuse.h"
#include "text.h"

/* One film is open, so any number does. */
#define FILM 1u

/* ---- the film ---- */

static void doing(const struct run *run, const char *what)
{
    if (run->task.of > 1)
        progress("%d of %d: %s: %s", run->task.which, run->task.of, input_name(run->task.in), what);
    else
        progress("%s: %s", input_name(run->task.in), what);
}

/* What the front of a file settles, whatever stands behind it. The other answers about a file hang on where it ends. */
static int settled(uint32_t refusal)
{
    return refusal == TZ_COMMENT || refusal == TZ_FILE_SIZE || refusal == TZ_MAXVAL || refusal == TZ_RASTER_LONG;
}

/* The greys: of a raw file from its raster on, of a plain one from its text. */
static int read_greys(struct run *run, size_t start)
{
    run->pixels = (size_t)run->sizes.width * run->sizes.height;
    run->picture = calloc(run->pixels, sizeof *run->picture);
    if (run->picture == NULL)
        return no_memory();
    uint32_t refusal = is_plain(&run->input)
                           ? tzofnadir_read_plain(run->input.bytes, run->input.len, &run->sizes, run->picture, run->pixels)
                           : tzofnadir_read_greys(run->input.bytes, run->input.len, start, &run->sizes, run->picture, run->pixels);
    return refusal == TZ_DONE ? 0 : refuse(refusal, run);
}

/* The film as bytes: its raster as it lies in the file, or its greys, none of which is above 255. */
static int as_bytes(struct run *run, size_t start)
{
    run->film = run->input.bytes + start;
    if (!is_plain(&run->input))
        return 0;
    run->film = run->narrow = malloc(run->pixels);
    if (run->narrow == NULL)
        return no_memory();
    for (size_t i = 0; i < run->pixels; i++)
        run->narrow[i] = (uint8_t)run->picture[i];
    return 0;
}

static int fetch(struct run *run)
{
    doing(run, "reading");
    int code = read_input(run->task.in, &run->input);
    if (code == 0 && run->task.record != NULL)
        sha256_text(run->input.bytes, run->input.len, run->digest);
    return code;
}

/* Raw or plain, by the file's second byte. Of a plain one this looks at the header alone. */
static int read_film(struct run *run)
{
    tz_part part = {0, 0};
    int bytes = (run->job->given & BYTES) != 0;
    int code = fetch(run);
    if (code != 0)
        return code;
    int plain = is_plain(&run->input);
    uint32_t refusal = plain ? tzofnadir_plain_sizes(run->input.bytes, run->input.len, &run->sizes)
                             : tzofnadir_read_sizes(run->input.bytes, run->input.len, &run->sizes);
    if (run->input.cut && !settled(refusal))
        return too_long(run);
    if (refusal == TZ_DONE && bytes && run->sizes.maxval > 255)
        return bad_words("--bytes takes a film of one byte a sample, of maxval 255 at most, and no other", input_name(run->task.in));
    if (refusal == TZ_DONE && !plain)
        refusal = tzofnadir_read_raster(run->input.bytes, run->input.len, &part);
    if (refusal != TZ_DONE)
        return refuse(refusal, run);
    code = read_greys(run, part.start);
    return code == 0 && bytes ? as_bytes(run, part.start) : code;
}

/* The greys are all that is needed of the input from here on, unless its bytes are the film. */
static void drop_input(struct run *run)
{
    if (run->film != NULL && run->narrow == NULL)
        return;
    free(run->input.bytes);
    run->input.bytes = NULL;
}

/* ---- rendering ---- */

/* From the film's least to its greatest grey; of a film of one grey, which has no range, 0 to maxval. */
static void settle_own_range(struct run *run)
{
    struct span greys = span_of(run->picture, run->pixels);
    int flat = greys.least == greys.greatest;
    run->settings.min = flat ? 0 : greys.least;
    run->settings.max = flat ? run->sizes.maxval : greys.greatest;
}

static uint32_t chosen(const struct run *run)
{
    const tz_settings *s = &run->settings;
    uint32_t width = run->sizes.width, height = run->sizes.height;
    if (is_around(run))
        return chosen_around(s, run->job->side, width, height);
    return (run->job->given & BYTES) != 0 ? chosen_byte_bins(s, width, height) : chosen_bins(s, width, height);
}

/* Settles by the film what the words leave open. */
static void settle(struct run *run)
{
    tz_settings *s = &run->settings;
    if ((run->job->given & RANGE) == 0) {
        s->min = 0;
        s->max = (run->job->given & BYTES) != 0 ? 255 : run->sizes.maxval;
    }
    if ((run->job->given & OWN_RANGE) != 0)
        settle_own_range(run);
    if ((run->job->given & BINS) == 0)
        s->bins = chosen(run);
}

/* Reads the film, settles the settings and lends map and scratch. */
static int begin(struct run *run)
{
    int code = read_film(run);
    if (code != 0)
        return code;
    drop_input(run);
    settle(run);
    run->seen = greys_of(run->picture, run->pixels);
    doing(run, "rendering");
    const tz_settings *s = &run->settings;
    /* one entry more, so that there is memory to point at whatever the settings say */
    size_t entries = tz_map_entries(s) + 1;
    if (run->film != NULL)
        run->byte_map = calloc(entries, sizeof *run->byte_map);
    else
        run->map = calloc(entries, sizeof *run->map);
    run->scratch = calloc(tz_around_scratch(s) + 1, sizeof *run->scratch); /* what any of the calls takes */
    run->looks = calloc(tz_looks_entries(s) + 1, sizeof *run->looks);
    return (run->map == NULL && run->byte_map == NULL) || run->scratch == NULL || run->looks == NULL ? no_memory() : 0;
}

/* The writer takes greys of 16 bits. */
static void widen(const uint8_t *from, size_t count, uint16_t *to)
{
    for (size_t i = 0; i < count; i++)
        to[i] = from[i];
}

/* Whose limit it is, where clipping had limits that may differ: by their pixels, where not all tiles or regions have as many. */
static const char *whose_limit(const struct run *run)
{
    const tz_settings *s = &run->settings;
    uint32_t width = run->sizes.width, height = run->sizes.height, half = run->job->side / 2;
    if (run->footer.limit == 0)
        return "";
    if (is_around(run))
        return width > half + 1 || height > half + 1 ? " (of the region of column 0, row 0; others are larger)" : "";
    return width % s->across != 0 || height % s->down != 0 ? " (of tile 0, 0; some tiles are larger)" : "";
}

/* All settings, as words that give the same film again. */
static void tell_settings(const struct run *run, const char *name, const char *mark)
{
    char words[SETTINGS_TEXT];
    settings_words(run, words);
    tell("%s%s%u by %u pixels, maxval %u: %s%s", name, mark, (unsigned)run->sizes.width, (unsigned)run->sizes.height,
         (unsigned)run->sizes.maxval, words, run->film != NULL ? " --bytes" : "");
}

/* What was chosen, and what clipping did; of several films behind each one's name. */
static void tell_footer(const struct run *run)
{
    const tz_footer *footer = &run->footer;
    int named = (run->job->given & INTO) != 0;
    const char *name = named ? run->task.in : "", *mark = named ? ": " : "";
    if ((run->job->given & VERBOSE) != 0)
        tell_settings(run, name, mark);
    if ((run->job->given & OWN_RANGE) != 0)
        tell("%s%srange %u to %u, the film's own", name, mark, (unsigned)run->settings.min, (unsigned)run->settings.max);
    if ((run->job->given & BINS) == 0)
        tell("%s%sbins %u, chosen by the range %u to %u and %s of %u pixels", name, mark,
             (unsigned)run->settings.bins, (unsigned)run->settings.min, (unsigned)run->settings.max,
             is_around(run) ? "regions" : "tiles", (unsigned)judged_pixels(run));
    tell("%s%slimit %u, factor asked %.9g, factor used %.17g%s%s", name, mark, (unsigned)footer->limit,
         (double)footer->asked, footer->used, whose_limit(run),
         run->settings.edition == TZ_OURS ? "" : ", edition of 1986");
}

/* The record gets its place before the film does: there is never a new film without it. */
static int put_film(struct run *run, const tz_sizes *sizes, size_t count)
{
    struct output outs[MOST_OUTPUTS];
    int many = 0, replace = (run->job->given & FORCE) != 0;
    if (run->task.record != NULL) {
        run->record = record_text(run, sizes, run->file, count);
        if (run->record == NULL)
            return no_memory();
        outs[many++] = (struct output){.name = run->task.record, .bytes = (const uint8_t *)run->record,
                                       .count = strlen(run->record), .replace = replace};
    }
    outs[many++] = (struct output){.name = run->task.out, .bytes = run->file, .count = count, .replace = replace};
    return put_outputs(outs, many);
}

/* The rendering is no more a PGM but a PNG. */
static int turn_to_png(struct run *run, const uint16_t *picture, const tz_sizes *sizes, size_t *count)
{
    free(run->file);
    run->file = png_of(picture, sizes, count);
    return run->file != NULL;
}

static int write_film(struct run *run, const uint16_t *picture, const tz_sizes *sizes)
{
    size_t pixels = (size_t)sizes->width * sizes->height;
    size_t room = tz_write_bytes(sizes->width, sizes->height);
    size_t count = 0;
    doing(run, "writing");
    run->file = malloc(room);
    if (run->file == NULL)
        return no_memory();
    uint32_t refusal = tzofnadir_write(picture, pixels, sizes, run->file, room, &count);
    if (refusal == TZ_SAMPLE) /* the film's own samples were in order, or it would not have been read */
        return refuse_rendering(run);
    if (refusal != TZ_DONE)
        return refuse(refusal, run);
    if (ends_in(run->task.out, ".png") && !turn_to_png(run, picture, sizes, &count))
        return no_memory();
    if (run->task.keep != NULL)
        return run->task.keep(run, sizes, count);
    int code = put_film(run, sizes, count);
    if (code == 0) {
        tell_footer(run);
        advise(run);
    }
    return code;
}

/* The film's mappings, its record and footer, and of each tile its excess and looks. */
static uint32_t prepare(struct run *run, tz_record *record)
{
    const tz_settings *s = &run->settings;
    if (run->film != NULL)
        return tzofnadir_prepare_bytes(FILM, run->sizes.width, run->sizes.height, run->film, run->pixels, s,
                                       run->byte_map, tz_map_entries(s), run->scratch, tz_scratch_entries(s), record,
                                       &run->footer, run->looks, tz_looks_entries(s));
    return tzofnadir_prepare(FILM, run->sizes.width, run->sizes.height, run->picture, run->pixels, s, run->map,
                             tz_map_entries(s), run->scratch, tz_scratch_entries(s), record, &run->footer, run->looks,
                             tz_looks_entries(s));
}

static uint32_t enhance_bytes(struct run *run)
{
    const tz_settings *s = &run->settings;
    uint32_t refusal = tzofnadir_enhance_bytes(run->sizes.width, run->sizes.height, run->film, run->pixels, s,
                                               run->byte_map, tz_map_entries(s), run->scratch, tz_scratch_entries(s),
                                               &run->footer);
    if (refusal == TZ_DONE)
        widen(run->film, run->pixels, run->picture);
    return refusal;
}

static uint32_t enhance_greys(struct run *run)
{
    const tz_settings *s = &run->settings;
    return tzofnadir_enhance(run->sizes.width, run->sizes.height, run->picture, run->pixels, s, run->map,
                             tz_map_entries(s), run->scratch, tz_scratch_entries(s), &run->footer);
}

static int enhance(struct run *run)
{
    tz_record record;
    int code = begin(run);
    if (code != 0)
        return code;
    /* enhance is lent no list: what a record says of the tiles is prepare's, of the film as it is */
    uint32_t refusal = run->task.record != NULL ? prepare(run, &record) : TZ_DONE;
    if (refusal == TZ_DONE)
        refusal = run->film != NULL ? enhance_bytes(run) : enhance_greys(run);
    return refusal == TZ_DONE ? write_film(run, run->picture, &run->sizes) : refuse(refusal, run);
}

static uint32_t draw_bytes(struct run *run, const tz_record *record, size_t area)
{
    const tz_settings *s = &run->settings;
    uint32_t refusal = tzofnadir_draw_bytes(FILM, run->sizes.width, run->sizes.height, run->film, run->pixels, s, record,
                                            &run->job->window, run->byte_map, tz_map_entries(s), run->byte_drawn, area);
    if (refusal == TZ_DONE)
        widen(run->byte_drawn, area, run->drawn);
    return refusal;
}

static uint32_t draw_greys(struct run *run, const tz_record *record, size_t area)
{
    const tz_settings *s = &run->settings;
    return tzofnadir_draw(FILM, run->sizes.width, run->sizes.height, run->picture, run->pixels, s, record,
                          &run->job->window, run->map, tz_map_entries(s), run->drawn, area);
}

static int window(struct run *run)
{
    int code = begin(run);
    if (code != 0)
        return code;
    const tz_window *at = &run->job->window;
    /* a window of more pixels than the film is refused before its output is looked at */
    uint64_t wanted = (uint64_t)at->width * at->height;
    size_t area = wanted <= run->pixels ? (size_t)wanted : run->pixels;
    tz_sizes sizes = {at->width, at->height, run->sizes.maxval};
    run->drawn = calloc(area + 1, sizeof *run->drawn);
    if (run->film != NULL)
        run->byte_drawn = calloc(area + 1, sizeof *run->byte_drawn);
    if (run->drawn == NULL || (run->film != NULL && run->byte_drawn == NULL))
        return no_memory();
    tz_record record;
    uint32_t refusal = prepare(run, &record);
    if (refusal == TZ_DONE)
        refusal = run->film != NULL ? draw_bytes(run, &record, area) : draw_greys(run, &record, area);
    return refusal == TZ_DONE ? write_film(run, run->drawn, &sizes) : refuse(refusal, run);
}

/* ---- pixel by pixel ---- */

/* Direct and around. Nothing of the fast engine is asked but, for a record of direct, what it lists of the tiles. */
static int by_pixels(struct run *run)
{
    tz_record record;
    int code = begin(run);
    if (code != 0)
        return code;
    run->drawn = calloc(run->pixels, sizeof *run->drawn);
    if (run->drawn == NULL)
        return no_memory();
    struct painting p = painting_of(run, run->drawn);
    uint32_t refusal = run->task.record != NULL && !is_around(run) ? prepare(run, &record) : TZ_DONE;
    if (refusal == TZ_DONE) {
        tell_time(&p);
        refusal = paint(&p);
    }
    run->footer = p.footer;
    return refusal == TZ_DONE ? write_film(run, run->drawn, &run->sizes) : refuse(refusal, run);
}

static int check(struct run *run)
{
    int code = begin(run);
    return code == 0 ? check_engines(run) : code;
}

/* ---- the other form ---- */

static const char *form(int plain) { return plain ? "plain" : "raw"; }

/* Of several films behind each one's name. */
static void tell_move(const struct run *run, int was_plain, int plain)
{
    int named = (run->job->given & INTO) != 0;
    tell("%s%s%u by %u pixels, maxval %u, %s to %s", named ? run->task.in : "", named ? ": " : "",
         (unsigned)run->sizes.width, (unsigned)run->sizes.height, (unsigned)run->sizes.maxval, form(was_plain), form(plain));
}

/* The film as it is, in the form that the command names. */
static int move(struct run *run)
{
    int plain = run->job->command == PLAIN;
    size_t count = 0;
    if (ends_in(run->task.out, ".png"))
        return bad_words("what is written is a PGM, and this name is a PNG's", run->task.out);
    int code = read_film(run);
    if (code != 0)
        return code;
    int was_plain = is_plain(&run->input);
    drop_input(run);
    doing(run, "writing");
    size_t room = plain ? tz_plain_bytes(run->sizes.width, run->sizes.height)
                        : tz_write_bytes(run->sizes.width, run->sizes.height);
    run->file = malloc(room);
    if (run->file == NULL)
        return no_memory();
    uint32_t refusal = plain ? tzofnadir_write_plain(run->picture, run->pixels, &run->sizes, run->file, room, &count)
                             : tzofnadir_write(run->picture, run->pixels, &run->sizes, run->file, room, &count);
    if (refusal != TZ_DONE)
        return refuse(refusal, run);
    code = put_film(run, &run->sizes, count);
    if (code == 0)
        tell_move(run, was_plain, plain);
    return code;
}

/* ---- what is printed of a film ---- */

/* The number of a listing that says `refused`, tab, number; else 0. */
static uint32_t listed_refusal(const uint8_t *text, size_t count)
{
    static const char word[] = "refused\t";
    uint32_t number = 0;
    if (count < sizeof word || memcmp(text, word, sizeof word - 1) != 0)
        return TZ_DONE;
    for (size_t i = sizeof word - 1; i < count && text[i] >= '0' && text[i] <= '9'; i++)
        number = number * 10 + (uint32_t)(text[i] - '0');
    return number;
}

static int listing(struct run *run)
{
    uint8_t text[TZ_LISTING_BYTES] = {0};
    size_t count = 0;
    int code = fetch(run);
    if (code != 0)
        return code;
    uint32_t refusal = tzofnadir_listing(run->input.bytes, run->input.len, text, sizeof text, &count);
    if (refusal != TZ_DONE)
        return refuse(refusal, run);
    code = put_straight(STDOUT_FILENO, output_name("-"), text, count);
    refusal = listed_refusal(text, count);
    return refusal == TZ_DONE ? code : refuse(refusal, run);
}

/* The numbers of tiles that fit, as JSON has lists. */
static void add_grids(struct text *t, const char *name, uint32_t side)
{
    char grids[64];
    grids_that_fit(side, grids, sizeof grids);
    add(t, ",\n  \"%s\": [", name);
    for (const char *at = grids; *at != '\0' && strcmp(grids, "none") != 0; at++)
        add(t, *at == ' ' ? ", " : "%c", *at);
    add(t, "]");
}

static void info_as_json(const struct run *run, struct span greys, struct text *t)
{
    add(t, "{\n  \"file\": ");
    add_name(t, run->task.in);
    add(t, ",\n  \"width\": %u,\n  \"height\": %u,\n  \"maxval\": %u,\n  \"least\": %u,\n  \"greatest\": %u",
        (unsigned)run->sizes.width, (unsigned)run->sizes.height, (unsigned)run->sizes.maxval, (unsigned)greys.least,
        (unsigned)greys.greatest);
    add_grids(t, "across", run->sizes.width);
    add_grids(t, "down", run->sizes.height);
    add(t, "\n}\n");
}

static void info_as_text(const struct run *run, struct span greys, struct text *t)
{
    char across[64], down[64];
    grids_that_fit(run->sizes.width, across, sizeof across);
    grids_that_fit(run->sizes.height, down, sizeof down);
    add(t, "width\t%u\nheight\t%u\nmaxval\t%u\nleast\t%u\ngreatest\t%u\nacross\t%s\ndown\t%s\n",
        (unsigned)run->sizes.width, (unsigned)run->sizes.height, (unsigned)run->sizes.maxval, (unsigned)greys.least,
        (unsigned)greys.greatest, across, down);
}

static int info(struct run *run)
{
    struct text t = {NULL, 0, 1024 + 6 * strlen(run->task.in)};
    int code = read_film(run);
    if (code != 0)
        return code;
    t.at = run->record = malloc(t.room);
    if (t.at == NULL)
        return no_memory();
    struct span greys = span_of(run->picture, run->pixels);
    if ((run->job->given & AS_JSON) != 0)
        info_as_json(run, greys, &t);
    else
        info_as_text(run, greys, &t);
    return put_straight(STDOUT_FILENO, output_name("-"), (const uint8_t *)t.at, t.len);
}

/* ---- the frame ---- */

static void let_go(struct run *run)
{
    free(run->input.bytes);
    free(run->picture);
    free(run->map);
    free(run->byte_map);
    free(run->scratch);
    free(run->looks);
    free(run->narrow);
    free(run->drawn);
    free(run->byte_drawn);
    free(run->file);
    free(run->record);
}

int run_film(const struct job *job, const struct task *task)
{
    static int (*const commands[])(struct run *) = {
        [ENHANCE] = enhance, [WINDOW] = window, [LISTING] = listing, [INFO] = info,
        [RAW] = move,        [PLAIN] = move,    [DIRECT] = by_pixels, [CHECK] = check,
        [AROUND] = by_pixels};
    struct run run = {.job = job, .task = *task, .settings = job->settings};
    int code = commands[job->command](&run);
    end_progress();
    let_go(&run);
    return code;
}
