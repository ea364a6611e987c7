#include "calls.h"

#include <stdio.h>
#include <stdlib.h>
#include <string.h>

#include "clahe1994.h"

#define FILM 7u
#define FIRST 1u /* the numbers of the films in a room: this one and the next ones, */
#define LAST (FIRST + TZ_ROOM_SETS - 1) /* up to this one */

void end(const char *why, long number)
{
    fprintf(stderr, "bench: %s (%ld)\n", why, number);
    exit(1);
}

static void *room(size_t bytes)
{
    void *at = malloc(bytes);
    if (at == NULL)
        end("no memory for so many bytes", (long)bytes);
    memset(at, 0, bytes);
    return at;
}

static void open_bytes(struct bench *b)
{
    b->bytes = room(b->pixels);
    b->byte_picture = room(b->pixels);
    b->byte_drawn = room(b->pixels);
    b->byte_map = room(tz_map_entries(&b->settings));
    for (size_t i = 0; i < b->pixels; i++)
        b->bytes[i] = (uint8_t)b->film[i];
}

static uint32_t least(uint32_t a, uint32_t b) { return a < b ? a : b; }

void open_bench(struct bench *b, const struct subject *of)
{
    uint32_t wide = least(of->width, of->window), high = least(of->height, of->window);
    memset(b, 0, sizeof *b);
    b->of = *of;
    b->pixels = (size_t)of->width * of->height;
    b->sizes = (tz_sizes){of->width, of->height, of->bits == 8 ? 255 : 4095};
    b->settings = (tz_settings){of->grid, of->grid, of->bins, 0, b->sizes.maxval, 1, 3.0f, TZ_OURS};
    b->window = (tz_window){(of->width - wide) / 2, (of->height - high) / 2, wide, high};
    b->area = (size_t)wide * high;
    b->film = room(2 * b->pixels);
    b->picture = room(2 * b->pixels);
    b->drawn = room(2 * b->pixels);
    b->map = room(2 * tz_map_entries(&b->settings));
    b->scratch = room(4 * tz_around_scratch(&b->settings));
    b->list = room(8 * tz_looks_entries(&b->settings));
    b->counts = room(4 * tz_counts_entries(&b->settings));
    b->mapped = room(2 * tz_map_entries(&b->settings));
    b->file = room(tz_write_bytes(of->width, of->height));
    film_draw(b->film, of->kind, of->width, of->height, of->bits);
    if (of->bits == 8)
        open_bytes(b);
}

void open_plain(struct bench *b)
{
    b->text = room(tz_plain_bytes(b->of.width, b->of.height));
    if (call_write(b) != 0 || call_to_plain(b) != 0)
        end("a film cannot be laid down as text", b->of.width);
}

static size_t shelf_entries(const struct bench *b) { return tz_room_entries(&b->settings, TZ_ROOM_SETS); }

static long store(struct bench *b, uint32_t number)
{
    const tz_settings *s = &b->settings;
    return tzofnadir_room_store(number, b->of.width, b->of.height, b->film, b->pixels, s, b->shelf, shelf_entries(b),
                                b->scratch, tz_scratch_entries(s), &b->room, &b->footer, b->list, tz_looks_entries(s));
}

void open_room(struct bench *b)
{
    b->shelf = room(2 * shelf_entries(b));
    tzofnadir_room_empty(&b->room);
    for (uint32_t number = FIRST; number <= LAST; number++) {
        b->but_one = b->room;
        if (store(b, number) != 0)
            end("a film cannot be stored", number);
    }
    b->all = b->room;
    free(b->map);
    b->map = b->shelf + (TZ_ROOM_SETS - 1) * tz_map_entries(&b->settings);
}

void close_bench(struct bench *b)
{
    free(b->film);
    free(b->picture);
    free(b->drawn);
    free(b->shelf == NULL ? b->map : b->shelf);
    free(b->scratch);
    free(b->list);
    free(b->counts);
    free(b->mapped);
    free(b->file);
    free(b->text);
    free(b->bytes);
    free(b->byte_picture);
    free(b->byte_drawn);
    free(b->byte_map);
}

/* ---- the calls ---- */

void lay_out(struct bench *b) { memcpy(b->picture, b->film, 2 * b->pixels); }

void lay_out_bytes(struct bench *b) { memcpy(b->byte_picture, b->bytes, b->pixels); }

long call_enhance(struct bench *b)
{
    return tzofnadir_enhance(b->of.width, b->of.height, b->picture, b->pixels, &b->settings, b->map,
                             tz_map_entries(&b->settings), b->scratch, tz_scratch_entries(&b->settings), &b->footer);
}

static long prepare_by(struct bench *b, const tz_settings *s)
{
    return tzofnadir_prepare(FILM, b->of.width, b->of.height, b->film, b->pixels, s, b->map, tz_map_entries(s),
                             b->scratch, tz_scratch_entries(s), &b->record, &b->footer, b->list, tz_looks_entries(s));
}

long call_prepare(struct bench *b) { return prepare_by(b, &b->settings); }

long call_scan(struct bench *b)
{
    uint16_t *last = &b->film[b->pixels - 1], was = *last;
    *last = (uint16_t)(b->settings.max + 1);
    long answer = call_prepare(b);
    *last = was;
    return answer == TZ_PIXEL_OUTSIDE ? 0 : answer == 0 ? -1 : answer;
}

long call_unclipped(struct bench *b)
{
    tz_settings off = b->settings;
    off.clip = 0;
    return prepare_by(b, &off);
}

long call_near_one(struct bench *b)
{
    tz_settings near = b->settings;
    near.factor = 1.0001f;
    return prepare_by(b, &near);
}

long call_of_1986(struct bench *b)
{
    tz_settings older = b->settings;
    older.edition = TZ_1986;
    return prepare_by(b, &older);
}

long call_count(struct bench *b)
{
    return tzofnadir_count(b->of.width, b->of.height, b->film, b->pixels, &b->settings, b->counts,
                           tz_counts_entries(&b->settings));
}

static long map_by(struct bench *b, const tz_settings *s, size_t counts)
{
    return tzofnadir_map(FILM, b->of.width, b->of.height, s, b->counts, counts, b->mapped, tz_map_entries(s), b->scratch,
                         tz_scratch_entries(s), &b->record, &b->footer, b->list, tz_looks_entries(s));
}

long call_map(struct bench *b) { return map_by(b, &b->settings, tz_counts_entries(&b->settings)); }

long call_draw(struct bench *b)
{
    return tzofnadir_draw(FILM, b->of.width, b->of.height, b->film, b->pixels, &b->settings, &b->record, &b->window,
                          b->map, tz_map_entries(&b->settings), b->drawn, b->area);
}

long call_around(struct bench *b)
{
    return tzofnadir_around(b->of.width, b->of.height, b->film, b->pixels, b->region, &b->settings, b->drawn, b->pixels,
                            b->scratch, tz_around_scratch(&b->settings), &b->footer);
}

long call_write(struct bench *b)
{
    return tzofnadir_write(b->film, b->pixels, &b->sizes, b->file, tz_write_bytes(b->of.width, b->of.height),
                           &b->file_len);
}

long call_read(struct bench *b)
{
    tz_sizes sizes;
    tz_part part;
    uint32_t refusal = tzofnadir_read_sizes(b->file, b->file_len, &sizes);
    if (refusal == TZ_DONE)
        refusal = tzofnadir_read_raster(b->file, b->file_len, &part);
    if (refusal == TZ_DONE)
        refusal = tzofnadir_read_greys(b->file, b->file_len, part.start, &sizes, b->picture, b->pixels);
    return refusal;
}

long call_to_raw(struct bench *b)
{
    tz_sizes sizes;
    uint32_t refusal = tzofnadir_read_plain(b->text, b->text_len, &sizes, b->picture, b->pixels);
    if (refusal == TZ_DONE)
        refusal = tzofnadir_write(b->picture, b->pixels, &sizes, b->file, tz_write_bytes(b->of.width, b->of.height),
                                  &b->file_len);
    return refusal;
}

long call_to_plain(struct bench *b)
{
    long refusal = call_read(b);
    if (refusal == TZ_DONE)
        refusal = tzofnadir_write_plain(b->picture, b->pixels, &b->sizes, b->text,
                                        tz_plain_bytes(b->of.width, b->of.height), &b->text_len);
    return refusal;
}

long call_1994(struct bench *b)
{
    const tz_settings *s = &b->settings;
    return clahe1994(b->picture, b->of.width, b->of.height, s->min, s->max, s->across, s->down, s->bins, s->factor);
}

long call_copy(struct bench *b)
{
    memcpy(b->drawn, b->film, 2 * b->pixels);
    return 0;
}

long call_enhance_bytes(struct bench *b)
{
    const tz_settings *s = &b->settings;
    return tzofnadir_enhance_bytes(b->of.width, b->of.height, b->byte_picture, b->pixels, s, b->byte_map,
                                   tz_map_entries(s), b->scratch, tz_scratch_entries(s), &b->footer);
}

long call_prepare_bytes(struct bench *b)
{
    const tz_settings *s = &b->settings;
    return tzofnadir_prepare_bytes(FILM, b->of.width, b->of.height, b->bytes, b->pixels, s, b->byte_map,
                                   tz_map_entries(s), b->scratch, tz_scratch_entries(s), &b->record, &b->footer, b->list,
                                   tz_looks_entries(s));
}

long call_draw_bytes(struct bench *b)
{
    return tzofnadir_draw_bytes(FILM, b->of.width, b->of.height, b->bytes, b->pixels, &b->settings, &b->record,
                                &b->window, b->byte_map, tz_map_entries(&b->settings), b->byte_drawn, b->area);
}

/* ---- a room's calls ---- */

void lay_but_one(struct bench *b) { b->room = b->but_one; }

void lay_all(struct bench *b) { b->room = b->all; }

long call_store(struct bench *b) { return store(b, LAST); }

long call_room_draw(struct bench *b)
{
    return tzofnadir_room_draw(LAST, b->of.width, b->of.height, b->film, b->pixels, &b->settings, &b->room, &b->window,
                               b->shelf, shelf_entries(b), b->drawn, b->area);
}

long call_drop(struct bench *b) { return tzofnadir_room_drop(FIRST, b->shelf, shelf_entries(b), &b->room); }

long call_move(struct bench *b)
{
    size_t of_one = tz_map_entries(&b->settings);
    memmove(b->shelf, b->shelf + of_one, 2 * (shelf_entries(b) - of_one));
    return 0;
}

long call_direct(struct bench *b)
{
    return tzofnadir_direct(b->of.width, b->of.height, b->film, b->pixels, &b->settings, b->drawn, b->pixels, b->scratch,
                            tz_scratch_entries(&b->settings), &b->footer);
}

/* ---- the check ---- */

static void must(const char *call, long answer)
{
    if (answer != 0)
        end(call, answer);
}

static void check_file(struct bench *b)
{
    must("write", call_write(b));
    must("read", call_read(b));
    if (memcmp(b->picture, b->film, 2 * b->pixels) != 0)
        end("a film written and read back is another", b->of.width);
}

static void check_window(struct bench *b)
{
    must("prepare", call_prepare(b));
    must("draw", call_draw(b));
    lay_out(b);
    must("enhance", call_enhance(b));
    for (uint32_t y = 0; y < b->window.height; y++)
        if (memcmp(b->drawn + (size_t)y * b->window.width,
                   b->picture + (size_t)(b->window.top + y) * b->of.width + b->window.left, 2 * b->window.width) != 0)
            end("a drawn row is not enhance's", y);
}

static void check_same(const char *what, const uint8_t *bytes, const uint16_t *greys, size_t count)
{
    for (size_t i = 0; i < count; i++)
        if (bytes[i] != greys[i])
            end(what, (long)i);
}

/* Behind check_window, which leaves the wide calls' picture, window and mappings. */
static void check_bytes(struct bench *b)
{
    must("prepare on bytes", call_prepare_bytes(b));
    check_same("a mapping on bytes is another", b->byte_map, b->map, tz_map_entries(&b->settings));
    must("draw on bytes", call_draw_bytes(b));
    check_same("a grey drawn on bytes is another", b->byte_drawn, b->drawn, b->area);
    lay_out_bytes(b);
    must("enhance on bytes", call_enhance_bytes(b));
    check_same("a grey rendered on bytes is another", b->byte_picture, b->picture, b->pixels);
}

void check(struct bench *b)
{
    check_file(b);
    check_window(b);
    if (b->bytes != NULL)
        check_bytes(b);
}

/* One clip setting over the counts as they stand: mapping leaves what prepare does, at factor 1.0 nothing new. */
static void check_mapped(struct bench *b, uint32_t clip, float factor, uint32_t edition)
{
    tz_settings s = b->settings;
    s.clip = clip;
    s.factor = factor;
    s.edition = edition;
    must("prepare", prepare_by(b, &s));
    tz_record record = b->record;
    tz_footer footer = b->footer;
    must("mapping", map_by(b, &s, tz_counts_entries(&s)));
    if (memcmp(b->mapped, b->map, 2 * tz_map_entries(&s)) != 0)
        end("a mapping from counts is not prepare's", b->of.width);
    if (memcmp(&b->record, &record, sizeof record) != 0 || memcmp(&b->footer, &footer, sizeof footer) != 0)
        end("mapping's record or footer is not prepare's", b->of.width);
}

void check_counts(struct bench *b)
{
    size_t entries = tz_counts_entries(&b->settings);
    must("counting", call_count(b));
    for (uint32_t edition = TZ_OURS; edition <= TZ_1986; edition++) {
        check_mapped(b, 0, 0.0f, edition);
        check_mapped(b, 1, 1.0001f, edition);
        check_mapped(b, 1, 1.0f, edition);
        check_mapped(b, 1, b->settings.factor, edition);
    }
    if (map_by(b, &b->settings, entries - 1) != TZ_COUNTS_SHORT)
        end("counts that are too few are not refused", b->of.width);
    b->counts[0]++;
    if (call_map(b) != TZ_COUNTS_SUM)
        end("counts that do not add up are not refused", b->of.width);
    b->counts[0]--;
}

/* The bin of a grey: as many of the range's greys below it as there are times the bins, over all of them. */
static uint32_t bin_of(const struct bench *b, size_t at)
{
    const tz_settings *s = &b->settings;
    return (b->film[at] - s->min) * s->bins / (s->max - s->min + 1);
}

/* The region around a pixel counted anew, four times over: as the tiles of a grid of 2 by 2. */
static tz_window count_region(struct bench *b, uint32_t x, uint32_t y)
{
    uint32_t half = b->region / 2, left = x - least(x, half), top = y - least(y, half), bins = b->settings.bins;
    uint32_t right = least(x + half + 1, b->of.width), bottom = least(y + half + 1, b->of.height);
    memset(b->counts, 0, 4 * 4 * (size_t)bins);
    for (uint32_t row = top; row < bottom; row++)
        for (uint32_t column = left; column < right; column++)
            b->counts[bin_of(b, (size_t)row * b->of.width + column)]++;
    for (uint32_t tile = 1; tile < 4; tile++)
        memcpy(b->counts + (size_t)tile * bins, b->counts, 4 * (size_t)bins);
    return (tz_window){left, top, right - left, bottom - top};
}

/* Mapping is told of a film whose four tiles are as large as the region. */
static void check_pixel(struct bench *b, uint32_t x, uint32_t y)
{
    size_t at = (size_t)y * b->of.width + x;
    tz_window region = count_region(b, x, y);
    tz_settings s = b->settings;
    s.across = s.down = 2;
    must("mapping a region", tzofnadir_map(FILM, 2 * region.width, 2 * region.height, &s, b->counts, tz_counts_entries(&s),
                                           b->mapped, tz_map_entries(&s), b->scratch, tz_scratch_entries(&s), &b->record,
                                           &b->footer, b->list, tz_looks_entries(&s)));
    if (b->drawn[at] != b->mapped[bin_of(b, at)])
        end("a grey around a pixel is another, pixel", (long)at);
}

void check_around(struct bench *b)
{
    for (uint32_t i = 0; i <= 8; i++)
        for (uint32_t k = 0; k <= 8; k++)
            check_pixel(b, (b->of.width - 1) * i / 8, (b->of.height - 1) * k / 8);
}

/* The largest level from the limit down for which what stands above it fits beside the others. */
static uint32_t level_of(const uint32_t *counts, uint32_t bins, uint32_t limit)
{
    for (uint32_t level = limit;; level--) {
        uint64_t above = 0;
        for (uint32_t i = 0; i < bins; i++)
            above += counts[i] > level ? counts[i] - level : 0;
        if (above <= (uint64_t)bins * (limit - level))
            return level;
    }
}

void check_of_1986(struct bench *b)
{
    const tz_settings *s = &b->settings;
    must("counting", call_count(b));
    must("prepare by the edition of 1986", call_of_1986(b));
    for (uint32_t tile = 0; tile < s->across * s->down; tile++) {
        const uint32_t *counts = b->counts + (size_t)tile * s->bins;
        uint32_t limit = b->footer.limit, lift = limit - level_of(counts, s->bins, limit);
        uint64_t total = 0, sum = 0;
        for (uint32_t i = 0; i < s->bins; i++)
            total += least(counts[i] + lift, limit);
        for (uint32_t i = 0; i < s->bins; i++) {
            sum += least(counts[i] + lift, limit);
            if (b->map[(size_t)tile * s->bins + i] != s->min + sum * (s->max - s->min) / total)
                end("a mapping by the edition of 1986 is another, tile", tile);
        }
    }
}

/* A store beside prepare, which it is. */
static void check_stored(struct bench *b)
{
    size_t maps = 2 * tz_map_entries(&b->settings), looks = 8 * tz_looks_entries(&b->settings);
    uint64_t *list = room(looks);
    must("prepare", call_prepare(b));
    memcpy(b->mapped, b->map, maps);
    memcpy(list, b->list, looks);
    tz_footer footer = b->footer;
    memset(b->map, 0, maps);
    memset(b->list, 0, looks);
    lay_but_one(b);
    must("store", call_store(b));
    if (memcmp(b->map, b->mapped, maps) != 0 || memcmp(b->list, list, looks) != 0 ||
        memcmp(&b->footer, &footer, sizeof footer) != 0)
        end("a store is not prepare's", b->of.width);
    free(list);
}

void check_room(struct bench *b)
{
    size_t entries = shelf_entries(b), of_one = tz_map_entries(&b->settings);
    uint16_t *wanted = room(2 * entries);
    check_stored(b);
    must("draw", call_draw(b));
    memcpy(b->picture, b->drawn, 2 * b->area);
    memset(b->drawn, 0, 2 * b->area);
    must("draw from a room", call_room_draw(b));
    if (memcmp(b->drawn, b->picture, 2 * b->area) != 0)
        end("a window drawn from a room is another", b->of.width);
    for (size_t i = 0; i < entries; i++)
        b->shelf[i] = (uint16_t)(b->shelf[i] + i / of_one);
    memcpy(wanted, b->shelf, 2 * entries);
    memmove(wanted, wanted + of_one, 2 * (entries - of_one));
    must("drop", call_drop(b));
    if (memcmp(b->shelf, wanted, 2 * entries) != 0)
        end("a drop is not one move of what lies behind it", b->of.width);
    free(wanted);
}

void check_direct(struct bench *b)
{
    lay_out(b);
    must("enhance", call_enhance(b));
    tz_footer footer = b->footer;
    must("direct", call_direct(b));
    if (memcmp(b->drawn, b->picture, 2 * b->pixels) != 0 || memcmp(&b->footer, &footer, sizeof footer) != 0)
        end("the plain engine's picture or footer is not enhance's", b->of.width);
}

void check_plain(struct bench *b)
{
    must("write", call_write(b));
    must("raw to plain", call_to_plain(b));
    memset(b->picture, 0, 2 * b->pixels);
    memset(b->file, 0, b->file_len);
    must("plain to raw", call_to_raw(b));
    if (memcmp(b->picture, b->film, 2 * b->pixels) != 0)
        end("a film moved to text and back is another", b->of.width);
    uint8_t *before = room(b->file_len);
    memcpy(before, b->file, b->file_len);
    must("write", call_write(b));
    if (memcmp(b->file, before, b->file_len) != 0)
        end("a raw file moved to text and back is another", b->of.width);
    free(before);
}

void check_near_one(struct bench *b)
{
    const tz_settings *s = &b->settings;
    must("prepare near one", call_near_one(b));
    if ((uint64_t)b->footer.limit * s->bins * s->across * s->down != b->pixels)
        end("the bins hold more than a tile's pixels, limit", b->footer.limit);
    for (size_t i = 0; i < tz_map_entries(s); i++)
        if (b->map[i] != s->min + (i % s->bins + 1) * (s->max - s->min) / s->bins)
            end("a mapping near one does not rise as it should, entry", (long)i);
}
