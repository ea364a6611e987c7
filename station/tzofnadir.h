/*
 * tzofnadir.h: contrast-limited local histogram equalization for weld radiographs, for C.
 *
 * The functions named tz_.. are in the archive that station/build makes, target/lib/libtzofnadir.a, and in the shared
 * library that station/install makes of it. They are proved: each call ends with the answer that the rules give, for any
 * numbers and any contents of the buffers. The functions named tzofnadir_.. stand in front of them and take structs. They
 * do nothing else, and are in the library too, for languages that do not read this header.
 *
 * Every call returns 0 when it is done, else the number of the first refusal that applies, in the order that
 * stands beside the call. After a refusal all lent memory, the places for answers included, holds what it held.
 *
 * What C has to see to, since no proof reaches it:
 *   - no pointer is null, also where the length beside it is 0;
 *   - a length is in elements, and that many are there;
 *   - a buffer that a call writes overlaps no other buffer of the same call.
 *
 * Calls may run on any threads at once, each on buffers of its own: the library has no variables, keeps nothing from one
 * call to the next, and allocates nothing. Buffers that calls only read may be shared. It needs x86-64 Linux, or aarch64
 * where it was made for that (station/install --aarch64), and, of a C library, memset; linked with the toolchain's C library,
 * as the command line is, glibc 2.34 or later.
 *
 * A picture is `width` times `height` greys, row by row from the top, each 0 to 4095 in 16 bits. The calls named .._bytes
 * take a film of bytes: picture, mappings and output are bytes, each 0 to 255, by the same rules.
 */
#ifndef TZOFNADIR_H
#define TZOFNADIR_H

#include <stddef.h>
#include <stdint.h>

#ifdef __cplusplus
extern "C" {
#endif

/* The edition of this header and of the library, as in the file VERSION. */
#define TZ_VERSION "4.13.0"

/* The functions with bodies are compiled into what includes this header. station/structs.c, which is a part of the library,
   says otherwise, and so they have names in it as well. */
#ifndef TZ_FUNCTION
#define TZ_FUNCTION static inline
#endif

/* The edition of the library that is linked or loaded. It has no body here: what is compiled with this header and loads
   another edition is told that one's. */
const char *tz_version(void);

/* ---- limits ---- */

#define TZ_MOST_SIDE 4096u    /* a film's width or height */
#define TZ_MOST_GREY 4095u    /* a grey, and so Max and a file's maxval */
#define TZ_LEAST_GRID 2u      /* tiles across, tiles down */
#define TZ_MOST_GRID 16u
#define TZ_MOST_BINS 4096u
#define TZ_USUAL_BINS 128u    /* what bins 0 means */
#define TZ_ROOM_SETS 8u       /* the films that one room holds */
#define TZ_LEAST_REGION 3u    /* the side of the region around a pixel, which is odd */
#define TZ_MOST_REGION 63u
#define TZ_WRITE_HEADER 18u   /* the longest header that tz_write lays down: "P5\n4096 4096\n4095\n" */
#define TZ_PLAIN_SAMPLE 5u    /* the longest sample that tz_write_plain lays down: "4095\n" */
#define TZ_LISTING_BYTES 512u /* what tz_listing wants lent */

/* ---- refusals ---- */

enum tz_refusal {
    TZ_DONE = 0,
    TZ_SIZE = 1,             /* width or height is 0 or above 4096 */
    TZ_PICTURE_LENGTH = 2,   /* picture length is not width x height */
    TZ_GRID_ACROSS = 3,      /* grid across is not 2 to 16 */
    TZ_GRID_DOWN = 4,        /* grid down is not 2 to 16 */
    TZ_WIDTH_SHORT = 5,      /* width is less than grid across */
    TZ_HEIGHT_SHORT = 6,     /* height is less than grid down */
    TZ_RANGE_MAX = 7,        /* Max above 4095 */
    TZ_RANGE_MIN = 8,        /* Min not below Max */
    TZ_BINS = 9,             /* bins 1 or above 4096 */
    TZ_FACTOR = 10,          /* factor NaN, infinite, below 1.0 or above 1024.0 */
    TZ_MAP_SHORT = 11,       /* map buffer shorter than (grid across) x (grid down) x B */
    TZ_SCRATCH_SHORT = 12,   /* scratch shorter than B; around: than 2 x B */
    TZ_PIXEL_OUTSIDE = 13,   /* a pixel outside Min to Max */
    TZ_RECORD = 15,          /* record differs in film number, size or any setting, the edition too, or in an edge or centre */
    TZ_WINDOW = 16,          /* window empty or not inside the film */
    TZ_OUTPUT_LENGTH = 17,   /* output length is not the window's area, or not the film's */
    TZ_MAP_OUTSIDE = 18,     /* a map entry outside Min to Max */
    TZ_HEADER = 20,          /* not the header of a PGM of this form, raw (P5) or plain (P2) */
    TZ_COMMENT = 21,         /* # in the header */
    TZ_FILE_SIZE = 22,       /* size as in 1, of a file */
    TZ_MAXVAL = 23,          /* maxval 0 or above 4095 */
    TZ_RASTER_SHORT = 24,    /* raster too short; of a plain PGM a sample that is missing or not 1 to 5 digits */
    TZ_RASTER_LONG = 25,     /* bytes behind the raster; of a plain PGM others than white space */
    TZ_SAMPLE = 26,          /* a sample above maxval */
    TZ_TARGET_SHORT = 27,    /* the caller's target too short */
    TZ_PROFILE = 30,         /* a film of bytes: not grid 8 by 8, range 0 to 255, bins 64, 128 or 256, edition ours */
    TZ_BINS_UNREACHED = 31,  /* bins, 0 read as 128, above Max - Min + 1 */
    TZ_LOOKS_SHORT = 32,     /* list of excesses and looks shorter than 2 x (grid across) x (grid down) */
    TZ_COUNTS_SHORT = 33,    /* counts buffer shorter than (grid across) x (grid down) x B */
    TZ_COUNTS_SUM = 34,      /* a tile's counts do not add up to its pixels */
    TZ_STORED = 35,          /* store: the film's number is already stored in the room */
    TZ_ROOM_FULL = 36,       /* store: eight films are stored */
    TZ_ROOM_SHORT = 37,      /* store: the free entries of the room's buffer are fewer than the set needs */
    TZ_NOT_STORED = 38,      /* a room's draw or drop: the film's number is not stored */
    TZ_REGION_SIDE = 39,     /* around: side even or not 3 to 63 */
    TZ_ROOM_RECORD = 40      /* a room record with over eight sets, a number twice, or sets that end to end exceed the buffer */
};

/* One plain sentence for a refusal's number, to show to a person. */
TZ_FUNCTION const char *tz_refusal_text(uint32_t refusal)
{
    static const char *const text[] = {
        "Done.",
        "The film's width or height is 0 or above 4096.",
        "The picture's length is not its width times its height.",
        "The grid across is not 2 to 16.",
        "The grid down is not 2 to 16.",
        "The film's width is less than the grid across.",
        "The film's height is less than the grid down.",
        "The top of the grey range is above 4095.",
        "The bottom of the grey range is not below its top.",
        "The number of bins is 1 or above 4096.",
        "The clip factor is not a number from 1.0 to 1024.0.",
        "The map buffer is shorter than the grid across times the grid down times the bins.",
        "The scratch buffer is shorter than the bins, or, around each pixel, than twice the bins.",
        "A pixel of the film lies outside the grey range.",
        "There is no refusal of this number.",
        "The mappings are those of another film, another size, other settings, another edition or other tiles.",
        "The window is empty or does not lie inside the film.",
        "The output's length is not the window's area, or not the film's.",
        "An entry of the mappings lies outside the grey range.",
        "There is no refusal of this number.",
        "The file does not begin with the header of a PGM of this form.",
        "The file's header holds a comment, and none is taken.",
        "The size that the file gives is 0 or above what is taken.",
        "The file's maxval is 0 or above 4095.",
        "The file ends before its last pixel, or a sample of a plain PGM is not a number of 1 to 5 digits.",
        "The file has bytes behind its last pixel.",
        "A sample is above the file's maxval.",
        "The buffer for the result is too short.",
        "There is no refusal of this number.",
        "There is no refusal of this number.",
        "The settings are outside the byte profile: grid 8 by 8, range 0 to 255, bins 64, 128 or 256, edition ours.",
        "There are more bins (0 stands for 128) than greys in the range: ask for fewer, on the command line by --bins.",
        "The list of excesses and looks is shorter than twice the grid across times the grid down.",
        "The counts buffer is shorter than the grid across times the grid down times the bins.",
        "The counts of a tile do not add up to that tile's pixels.",
        "A film of this number is already stored in the room.",
        "Eight films are stored in the room, and it holds no more.",
        "The free entries of the room's buffer are fewer than this film needs.",
        "No film of this number is stored in the room.",
        "The side of the region around a pixel is even or not 3 to 63.",
        "The room's record has more than eight films, a number twice, or films that end to end exceed the buffer.",
    };
    return refusal < sizeof text / sizeof text[0] ? text[refusal] : text[19];
}

/* ---- records ---- */

/* By which rule the bins of a tile are clipped: ours, or the one of 1986. Off and factor 1.0 are the same in both. */
enum tz_edition { TZ_OURS = 0, TZ_1986 = 1 };

/* What the interpreter chooses. clip 0: off, and factor does not count; any other: the factor counts. edition 0, as in a
   struct that was cleared or whose initializer leaves it out: ours; any other number: that of 1986, as with clip. There are
   two editions, so every number means one of them, and no refusal had to be made up for a third; a record has TZ_OURS or
   TZ_1986 in it and never another number. */
typedef struct tz_settings {
    uint32_t across, down; /* tiles across and down, 2 to 16 each, and at most the film's width and height */
    uint32_t bins;         /* 2 to 4096; 0 means 128; at most max - min + 1, so that each bin has a grey */
    uint32_t min, max;     /* the grey range: all pixels lie in it, and so does the rendering */
    uint32_t clip;
    float factor;          /* 1.0 to 1024.0; exactly 1.0 returns the film unchanged */
    uint32_t edition;      /* TZ_OURS or TZ_1986 */
} tz_settings;

/* The tile columns of a film of `width` pixels, or likewise its tile rows. Tile i is the columns from edges[i] up to, not
   with, edges[i + 1], where edge i is i x width / grid, rounded down; so tiles differ by at most one pixel. centres[i] is half
   of the sum of the two, rounded down. Entries behind the last edge and the last centre are 0. */
typedef struct tz_axis { uint32_t edges[17], centres[16]; } tz_axis;

/* What tz_prepare and tz_map say their mappings belong to. bins is never 0 in it; clip is 0 or 1; factor 0.0 where clip is 0;
   edition is TZ_OURS or TZ_1986. */
typedef struct tz_record {
    uint32_t film, width, height;
    tz_settings settings;
    tz_axis columns, rows;
} tz_record;

/* A set: the mappings of one film in a room, and what they were made for. In a set that a call wrote bins is never 0; clip is
   0 or 1; factor 0.0 where clip is 0; edition is TZ_OURS or TZ_1986. */
typedef struct tz_set {
    uint32_t film, width, height;
    tz_settings settings;
} tz_set;

/* Which films' mappings lie in a room's buffer: the first `count` sets, end to end from entry 0 in the order of storing, each
   of across x down x bins entries. Its edges and centres follow from size and grid, and are not kept. A record with count 0,
   as one that was cleared, is an empty room. Hand it on as the last call left it, always with the same buffer. */
typedef struct tz_room {
    uint32_t count;
    tz_set sets[TZ_ROOM_SETS];
} tz_room;

/* What clipping did. Clip off: 0, 0.0, 0.0. Factor 1.0: 0, 1.0, 1.0. Each tile has a limit by its own pixels, N; limit and
   factor used are those of tile 0, 0, the upper left one, which has the fewest. L is the same in both editions. */
typedef struct tz_footer {
    uint32_t limit; /* L: no bin of the tile holds more */
    float asked;    /* the factor asked */
    double used;    /* the factor used: L x B / N, divided once */
} tz_footer;

typedef struct tz_window {
    uint32_t left, top, width, height;
} tz_window;

/* A PGM file's three numbers. */
typedef struct tz_sizes {
    uint32_t width, height, maxval;
} tz_sizes;

/* A part of the caller's bytes. */
typedef struct tz_part {
    size_t start, length;
} tz_part;

/* ---- the flat functions of the archive ---- */

/*
 * A record is ten numbers, film, width, height, across, down, bins, min, max, clip, edition, its factor apart, and the edges
 * and centres of its tile columns and tile rows. The edition of the settings is the last argument of all; in a room's calls
 * the room stands behind it. A room is its count, such ten numbers for each of its eight sets, and the factor of each.
 * `sizes` is three numbers, width, height, maxval. `part` is two, where the raster starts and how long it is.
 * What each call does stands at the function with structs, below.
 */
uint32_t tz_prepare(uint32_t film, uint32_t width, uint32_t height,
                    const uint16_t *picture, size_t picture_len,
                    uint32_t across, uint32_t down, uint32_t bins, uint32_t min, uint32_t max,
                    uint32_t clip, float factor,
                    uint16_t *map, size_t map_len, uint32_t *scratch, size_t scratch_len,
                    uint32_t *record, float *record_factor, uint32_t *limit, float *asked, double *used,
                    uint32_t column_edges[17], uint32_t column_centres[16],
                    uint32_t row_edges[17], uint32_t row_centres[16], uint64_t *looks, size_t looks_len,
                    uint32_t edition);

uint32_t tz_enhance(uint32_t width, uint32_t height, uint16_t *picture, size_t picture_len,
                    uint32_t across, uint32_t down, uint32_t bins, uint32_t min, uint32_t max,
                    uint32_t clip, float factor,
                    uint16_t *map, size_t map_len, uint32_t *scratch, size_t scratch_len,
                    uint32_t *limit, float *asked, double *used, uint32_t edition);

uint32_t tz_direct(uint32_t width, uint32_t height, const uint16_t *picture, size_t picture_len,
                   uint32_t across, uint32_t down, uint32_t bins, uint32_t min, uint32_t max,
                   uint32_t clip, float factor,
                   uint16_t *target, size_t target_len, uint32_t *scratch, size_t scratch_len,
                   uint32_t *limit, float *asked, double *used, uint32_t edition);

uint32_t tz_around(uint32_t width, uint32_t height, const uint16_t *picture, size_t picture_len, uint32_t side,
                   uint32_t bins, uint32_t min, uint32_t max, uint32_t clip, float factor,
                   uint16_t *target, size_t target_len, uint32_t *scratch, size_t scratch_len,
                   uint32_t *limit, float *asked, double *used, uint32_t edition);

uint32_t tz_draw(uint32_t film, uint32_t width, uint32_t height,
                 const uint16_t *picture, size_t picture_len,
                 uint32_t across, uint32_t down, uint32_t bins, uint32_t min, uint32_t max,
                 uint32_t clip, float factor,
                 const uint32_t *record, float record_factor,
                 uint32_t left, uint32_t top, uint32_t window_width, uint32_t window_height,
                 const uint16_t *map, size_t map_len, uint16_t *out, size_t out_len,
                 const uint32_t column_edges[17], const uint32_t column_centres[16],
                 const uint32_t row_edges[17], const uint32_t row_centres[16], uint32_t edition);

uint32_t tz_count(uint32_t width, uint32_t height, const uint16_t *picture, size_t picture_len,
                  uint32_t across, uint32_t down, uint32_t bins, uint32_t min, uint32_t max,
                  uint32_t *counts, size_t counts_len);

uint32_t tz_map(uint32_t film, uint32_t width, uint32_t height,
                uint32_t across, uint32_t down, uint32_t bins, uint32_t min, uint32_t max,
                uint32_t clip, float factor, const uint32_t *counts, size_t counts_len,
                uint16_t *map, size_t map_len, uint32_t *scratch, size_t scratch_len,
                uint32_t *record, float *record_factor, uint32_t *limit, float *asked, double *used,
                uint32_t column_edges[17], uint32_t column_centres[16],
                uint32_t row_edges[17], uint32_t row_centres[16], uint64_t *looks, size_t looks_len,
                uint32_t edition);

void tz_room_empty(uint32_t *count, uint32_t numbers[80], float factors[8]);

uint32_t tz_room_store(uint32_t film, uint32_t width, uint32_t height,
                       const uint16_t *picture, size_t picture_len,
                       uint32_t across, uint32_t down, uint32_t bins, uint32_t min, uint32_t max,
                       uint32_t clip, float factor,
                       uint16_t *map, size_t map_len, uint32_t *scratch, size_t scratch_len,
                       uint32_t *limit, float *asked, double *used, uint64_t *looks, size_t looks_len,
                       uint32_t edition, uint32_t *count, uint32_t numbers[80], float factors[8]);

uint32_t tz_room_draw(uint32_t film, uint32_t width, uint32_t height,
                      const uint16_t *picture, size_t picture_len,
                      uint32_t across, uint32_t down, uint32_t bins, uint32_t min, uint32_t max,
                      uint32_t clip, float factor,
                      uint32_t left, uint32_t top, uint32_t window_width, uint32_t window_height,
                      const uint16_t *map, size_t map_len, uint16_t *out, size_t out_len,
                      uint32_t edition, uint32_t count, const uint32_t numbers[80], const float factors[8]);

uint32_t tz_room_drop(uint32_t film, uint16_t *map, size_t map_len,
                      uint32_t *count, uint32_t numbers[80], float factors[8]);

uint32_t tz_prepare_bytes(uint32_t film, uint32_t width, uint32_t height,
                          const uint8_t *picture, size_t picture_len,
                          uint32_t across, uint32_t down, uint32_t bins, uint32_t min, uint32_t max,
                          uint32_t clip, float factor,
                          uint8_t *map, size_t map_len, uint32_t *scratch, size_t scratch_len,
                          uint32_t *record, float *record_factor, uint32_t *limit, float *asked, double *used,
                          uint32_t column_edges[17], uint32_t column_centres[16],
                          uint32_t row_edges[17], uint32_t row_centres[16], uint64_t *looks, size_t looks_len,
                          uint32_t edition);

uint32_t tz_enhance_bytes(uint32_t width, uint32_t height, uint8_t *picture, size_t picture_len,
                          uint32_t across, uint32_t down, uint32_t bins, uint32_t min, uint32_t max,
                          uint32_t clip, float factor,
                          uint8_t *map, size_t map_len, uint32_t *scratch, size_t scratch_len,
                          uint32_t *limit, float *asked, double *used, uint32_t edition);

uint32_t tz_draw_bytes(uint32_t film, uint32_t width, uint32_t height,
                       const uint8_t *picture, size_t picture_len,
                       uint32_t across, uint32_t down, uint32_t bins, uint32_t min, uint32_t max,
                       uint32_t clip, float factor,
                       const uint32_t *record, float record_factor,
                       uint32_t left, uint32_t top, uint32_t window_width, uint32_t window_height,
                       const uint8_t *map, size_t map_len, uint8_t *out, size_t out_len,
                       const uint32_t column_edges[17], const uint32_t column_centres[16],
                       const uint32_t row_edges[17], const uint32_t row_centres[16], uint32_t edition);

uint32_t tz_read_sizes(const uint8_t *bytes, size_t len, uint32_t *sizes);

uint32_t tz_read_raster(const uint8_t *bytes, size_t len, size_t *part);

uint32_t tz_read_greys(const uint8_t *bytes, size_t len, size_t start,
                       uint32_t width, uint32_t height, uint32_t maxval,
                       uint16_t *target, size_t target_len);

uint32_t tz_write(const uint16_t *picture, size_t picture_len,
                  uint32_t width, uint32_t height, uint32_t maxval,
                  uint8_t *out, size_t out_len, size_t *count);

uint32_t tz_plain_sizes(const uint8_t *bytes, size_t len, uint32_t *sizes);

uint32_t tz_read_plain(const uint8_t *bytes, size_t len, uint32_t *sizes, uint16_t *target, size_t target_len);

uint32_t tz_write_plain(const uint16_t *picture, size_t picture_len,
                        uint32_t width, uint32_t height, uint32_t maxval,
                        uint8_t *out, size_t out_len, size_t *count);

uint32_t tz_listing(const uint8_t *bytes, size_t len, uint8_t *out, size_t out_len, size_t *count);

/* ---- how much to lend ---- */

/* The number of bins that a setting stands for. */
TZ_FUNCTION uint32_t tz_bins_of(const tz_settings *s)
{
    return s->bins == 0 ? TZ_USUAL_BINS : s->bins;
}

/* Entries of the scratch buffer. Never above 4096, whatever the settings hold: what is more is refused anyway. */
TZ_FUNCTION size_t tz_scratch_entries(const tz_settings *s)
{
    return tz_bins_of(s) < TZ_MOST_BINS ? tz_bins_of(s) : TZ_MOST_BINS;
}

/* Entries of the scratch buffer of around: twice the bins. Never above 8192, for the same reason. */
TZ_FUNCTION size_t tz_around_scratch(const tz_settings *s)
{
    return 2 * tz_scratch_entries(s);
}

/* Entries of the map buffer. Never above 16 x 16 x 4096, for the same reason. */
TZ_FUNCTION size_t tz_map_entries(const tz_settings *s)
{
    size_t across = s->across < TZ_MOST_GRID ? s->across : TZ_MOST_GRID;
    size_t down = s->down < TZ_MOST_GRID ? s->down : TZ_MOST_GRID;
    return across * down * tz_scratch_entries(s);
}

/* Entries of a room's buffer that holds so many films of these settings; of several settings it is the sum of theirs. Never
   above those of eight films, for the same reason. */
TZ_FUNCTION size_t tz_room_entries(const tz_settings *s, uint32_t films)
{
    return (films < TZ_ROOM_SETS ? films : TZ_ROOM_SETS) * tz_map_entries(s);
}

/* Entries of the counts buffer: as many as of the map buffer. */
TZ_FUNCTION size_t tz_counts_entries(const tz_settings *s)
{
    return tz_map_entries(s);
}

/* Entries of the list of excesses and looks: two for each tile. Never above 512, for the same reason. */
TZ_FUNCTION size_t tz_looks_entries(const tz_settings *s)
{
    size_t across = s->across < TZ_MOST_GRID ? s->across : TZ_MOST_GRID;
    size_t down = s->down < TZ_MOST_GRID ? s->down : TZ_MOST_GRID;
    return 2 * across * down;
}

/* Bytes that hold the written film. Never above those of a film of 4096 by 4096, whatever the sides are: what is larger is
   refused anyway. */
TZ_FUNCTION size_t tz_write_bytes(uint32_t width, uint32_t height)
{
    size_t across = width < TZ_MOST_SIDE ? width : TZ_MOST_SIDE;
    size_t down = height < TZ_MOST_SIDE ? height : TZ_MOST_SIDE;
    return TZ_WRITE_HEADER + 2 * across * down;
}

/* Bytes that hold the film written as plain PGM, likewise: never above 18 + 5 x 4096 x 4096. */
TZ_FUNCTION size_t tz_plain_bytes(uint32_t width, uint32_t height)
{
    size_t across = width < TZ_MOST_SIDE ? width : TZ_MOST_SIDE;
    size_t down = height < TZ_MOST_SIDE ? height : TZ_MOST_SIDE;
    return TZ_WRITE_HEADER + TZ_PLAIN_SAMPLE * across * down;
}

/* ---- the calls, with structs ---- */

/* A record's ten numbers, in the order in which the flat functions have them. */
TZ_FUNCTION void tz_record_numbers(const tz_record *record, uint32_t numbers[10])
{
    const tz_settings *s = &record->settings;
    const uint32_t n[10] = {record->film, record->width, record->height, s->across, s->down,
                            s->bins, s->min, s->max, s->clip, s->edition};
    for (int i = 0; i < 10; i++)
        numbers[i] = n[i];
}

/* A record of its ten numbers, its factor, and its tile columns and rows. */
TZ_FUNCTION tz_record tz_record_of(const uint32_t n[10], float factor, const tz_axis *columns, const tz_axis *rows)
{
    tz_settings kept = {n[3], n[4], n[5], n[6], n[7], n[8], factor, n[9]};
    tz_record record = {n[0], n[1], n[2], kept, *columns, *rows};
    return record;
}

/* A footer of its three numbers. */
TZ_FUNCTION tz_footer tz_footer_of(uint32_t limit, float asked, double used)
{
    tz_footer footer = {limit, asked, used};
    return footer;
}

/*
 * Prepare: makes the tile mappings of a film.
 *
 * Afterwards the first (across x down x bins) entries of `map` are the mappings, tiles row by row, bins upward;
 * the first `bins` entries of `scratch` are 0; all other entries keep their contents. `record` names the film,
 * its size, its settings and its tiles' edges and centres, and `footer` says what clipping did. The first
 * (2 x across x down) entries of `looks` are, for each tile, tiles row by row, its excess over its limit and the number of
 * bins that the leftover walk of the rule looks at, a look at a full bin counted too; with clip off both are 0. The edition
 * of 1986 has no such walk, and its looks are 0. At factor 1.0 map, scratch and list stay as they were, in both editions.
 * Give each film that is open at the same time a number of its own.
 *
 * A film may have any width from the grid across up and any height from the grid down up (else 5 and 6), to 4096 (1).
 *
 * Sizes: picture_len is width x height; map_len at least tz_map_entries, scratch_len at least tz_scratch_entries,
 * looks_len at least tz_looks_entries.
 * Refusals, the first that applies: 1 to 9 upward, 31, then 10 to 12, 32, 13.
 */
TZ_FUNCTION uint32_t tzofnadir_prepare(uint32_t film, uint32_t width, uint32_t height,
                                       const uint16_t *picture, size_t picture_len, const tz_settings *s,
                                       uint16_t *map, size_t map_len, uint32_t *scratch, size_t scratch_len,
                                       tz_record *record, tz_footer *footer, uint64_t *looks, size_t looks_len)
{
    uint32_t r[10] = {0}, limit = 0;
    tz_axis columns = {{0}, {0}}, rows = {{0}, {0}};
    float factor = 0, asked = 0;
    double used = 0;
    uint32_t refusal = tz_prepare(film, width, height, picture, picture_len, s->across, s->down, s->bins, s->min,
                                  s->max, s->clip, s->factor, map, map_len, scratch, scratch_len, r, &factor,
                                  &limit, &asked, &used, columns.edges, columns.centres, rows.edges, rows.centres,
                                  looks, looks_len, s->edition);
    if (refusal == TZ_DONE) {
        *record = tz_record_of(r, factor, &columns, &rows);
        *footer = tz_footer_of(limit, asked, used);
    }
    return refusal;
}

/*
 * Enhance: renders the whole film in place. Map, scratch and footer as prepare leaves them. At factor 1.0
 * nothing changes.
 *
 * Sizes and refusals as for prepare, but for the list: none is lent, and 32 is never given.
 */
TZ_FUNCTION uint32_t tzofnadir_enhance(uint32_t width, uint32_t height, uint16_t *picture, size_t picture_len,
                                       const tz_settings *s, uint16_t *map, size_t map_len,
                                       uint32_t *scratch, size_t scratch_len, tz_footer *footer)
{
    uint32_t limit = 0;
    float asked = 0;
    double used = 0;
    uint32_t refusal = tz_enhance(width, height, picture, picture_len, s->across, s->down, s->bins, s->min, s->max,
                                  s->clip, s->factor, map, map_len, scratch, scratch_len, &limit, &asked, &used,
                                  s->edition);
    if (refusal == TZ_DONE)
        *footer = tz_footer_of(limit, asked, used);
    return refusal;
}

/*
 * Direct: the whole film by the plain engine, which checks the fast one and is not for films of a station. For each pixel it
 * counts the tiles of the pixel's rule straight from `picture`, clips and sums them; it keeps no mappings, and wants no map
 * buffer. `picture` stays as it is; `target` then holds the very greys that enhance leaves in place, on every film that is
 * accepted, and scratch and footer are as enhance leaves them. At factor 1.0 the target is the film, and scratch stays.
 *
 * Each pixel costs its four tiles' pixels, 0.6 to 0.9 ns each, and four times the bins, 2 ns each (docs/BENCHMARK.md). So with
 * 128 bins and grid 8 by 8 a film 64 square takes 5 ms, 256 square 0.2 s, 512 square 3 s, 1024 square 40 s, 2048 square 14
 * minutes and 4096 square 4 hours. Grid 2 by 2 takes up to 16 times as long, 4096 square three days.
 *
 * Sizes: picture_len and target_len are width x height; scratch_len at least tz_scratch_entries.
 * Refusals, the first that applies: 1 to 9 upward, 31, 10, 12, 17 (the target's length), 13. 11 and 32 are never given: what
 * enhance refuses with 11 alone is done here.
 */
TZ_FUNCTION uint32_t tzofnadir_direct(uint32_t width, uint32_t height, const uint16_t *picture, size_t picture_len,
                                      const tz_settings *s, uint16_t *target, size_t target_len,
                                      uint32_t *scratch, size_t scratch_len, tz_footer *footer)
{
    uint32_t limit = 0;
    float asked = 0;
    double used = 0;
    uint32_t refusal = tz_direct(width, height, picture, picture_len, s->across, s->down, s->bins, s->min, s->max,
                                 s->clip, s->factor, target, target_len, scratch, scratch_len, &limit, &asked, &used,
                                 s->edition);
    if (refusal == TZ_DONE)
        *footer = tz_footer_of(limit, asked, used);
    return refusal;
}

/*
 * Around: the whole film with a window around each pixel. Every pixel has a region of its own in the place of tiles: the
 * square of `side` pixels whose middle it is, cut off at the film's border. `target` then holds, for each pixel, the mapping of
 * its own bin by the counts of its region, with a limit by the pixels that are left of it; nothing is blended. `picture` stays
 * as it is. `footer` is that of the region of column 0, row 0, which is cut off on two sides and has the fewest pixels. The first
 * (2 x bins) entries of `scratch` are 0, all others keep their contents. At factor 1.0 the target is the film, and scratch stays.
 *
 * A pixel's grey hangs on its region alone: a part of the film with a margin of half a side, or up to the film's border, shows
 * the same greys in it. So a film may be rendered in strips, on several threads.
 *
 * Each pixel costs the bins, 2 ns each, and the rows of its region, 4.5 ns each (docs/BENCHMARK.md). So with 128 bins and side 31 a
 * film 512 square takes 0.1 s and 4096 square 6.5 s, with 1024 bins 38 s. With many more bins than one
 * for eight pixels of a region patches show that are not in the film (docs/STATION.md).
 *
 * `side` is odd, 3 to 63, and may be above the film's own sides. across and down are not looked at: a film of one pixel is
 * taken. Nothing is kept, so there is no record and nothing to draw from.
 *
 * Sizes: picture_len and target_len are width x height; scratch_len at least tz_around_scratch.
 * Refusals, the first that applies: 1, 2, 39, 7 to 9, 31, 10, 12 (twice the bins), 17 (the target's length), 13. 3 to 6, 11 and
 * 32 are never given.
 */
TZ_FUNCTION uint32_t tzofnadir_around(uint32_t width, uint32_t height, const uint16_t *picture, size_t picture_len,
                                      uint32_t side, const tz_settings *s, uint16_t *target, size_t target_len,
                                      uint32_t *scratch, size_t scratch_len, tz_footer *footer)
{
    uint32_t limit = 0;
    float asked = 0;
    double used = 0;
    uint32_t refusal = tz_around(width, height, picture, picture_len, side, s->bins, s->min, s->max, s->clip, s->factor,
                                 target, target_len, scratch, scratch_len, &limit, &asked, &used, s->edition);
    if (refusal == TZ_DONE)
        *footer = tz_footer_of(limit, asked, used);
    return refusal;
}

/*
 * Draw: renders a window of the film from mappings that prepare left. `out` then holds the window's pixels row by
 * row, worked out from the map entries as lent, whoever wrote them; at factor 1.0 the film's own pixels. With the
 * record and the mappings that prepare left for this film, and the film's pixels as they were then, each pixel is
 * the one that enhance gives.
 *
 * The film number, the size and the settings are those of the film to be drawn: refusal 15 compares them with the
 * record (bins 0 read as 128 on both sides), so that no film is drawn with the mappings of another. The edition is compared
 * too, also with clip off and at factor 1.0, where both editions give the same picture. It also compares all
 * entries of the record's edges and centres, those behind the last too, with what the rule gives for that size and grid.
 *
 * Sizes: picture_len is width x height; map_len at least tz_map_entries; out_len exactly the window's area.
 * Refusals, the first that applies: 1 to 9, 31, 10, 11, 15, 16, 17, then 13 over the window, then 18 (not at factor
 * 1.0).
 */
TZ_FUNCTION uint32_t tzofnadir_draw(uint32_t film, uint32_t width, uint32_t height,
                                    const uint16_t *picture, size_t picture_len, const tz_settings *s,
                                    const tz_record *record, const tz_window *window,
                                    const uint16_t *map, size_t map_len, uint16_t *out, size_t out_len)
{
    uint32_t r[10];
    tz_record_numbers(record, r);
    return tz_draw(film, width, height, picture, picture_len, s->across, s->down, s->bins, s->min, s->max, s->clip,
                   s->factor, r, record->settings.factor, window->left, window->top, window->width, window->height,
                   map, map_len, out, out_len, record->columns.edges, record->columns.centres, record->rows.edges,
                   record->rows.centres, s->edition);
}

/*
 * Count: the first half of prepare, the one that looks at the film. Afterwards the first (across x down x bins) entries
 * of `counts` say how many pixels of each tile are in each bin, tiles row by row, bins upward; all other entries keep
 * their contents. Neither the clip setting nor the edition is looked at: the same counts serve every factor, clip off, and
 * both editions.
 *
 * Sizes: picture_len is width x height; counts_len at least tz_counts_entries.
 * Refusals, the first that applies: 1 to 9 upward, 31, 33, 13.
 */
TZ_FUNCTION uint32_t tzofnadir_count(uint32_t width, uint32_t height, const uint16_t *picture, size_t picture_len,
                                     const tz_settings *s, uint32_t *counts, size_t counts_len)
{
    return tz_count(width, height, picture, picture_len, s->across, s->down, s->bins, s->min, s->max, counts,
                    counts_len);
}

/*
 * Map: the second half of prepare. It makes the mappings, the record and the footer from counts, and looks at no pixel,
 * so that a new factor or the other edition asks no new count. With the counts that count left for this film, with the same
 * sizes, grid, bins and range, it leaves in map, scratch, list, record and footer what prepare leaves, at factor 1.0 too;
 * the counts stay, for the next factor.
 *
 * The counts are taken as lent, whoever wrote them. Counts of another film that add up cannot be told apart: mapped under
 * this film's number they give the other film's mappings, and draw takes them. Keep a film's counts beside its number.
 *
 * Sizes: counts_len at least tz_counts_entries, map_len at least tz_map_entries, scratch_len at least
 * tz_scratch_entries, looks_len at least tz_looks_entries.
 * Refusals, the first that applies: 1, 3 to 9 upward, 31, 10, 11, 12, 32, 33, 34. At factor 1.0 and with clip off 32, 33
 * and 34 are given too.
 */
TZ_FUNCTION uint32_t tzofnadir_map(uint32_t film, uint32_t width, uint32_t height, const tz_settings *s,
                                   const uint32_t *counts, size_t counts_len, uint16_t *map, size_t map_len,
                                   uint32_t *scratch, size_t scratch_len, tz_record *record, tz_footer *footer,
                                   uint64_t *looks, size_t looks_len)
{
    uint32_t r[10] = {0}, limit = 0;
    tz_axis columns = {{0}, {0}}, rows = {{0}, {0}};
    float factor = 0, asked = 0;
    double used = 0;
    uint32_t refusal = tz_map(film, width, height, s->across, s->down, s->bins, s->min, s->max, s->clip, s->factor,
                              counts, counts_len, map, map_len, scratch, scratch_len, r, &factor, &limit, &asked,
                              &used, columns.edges, columns.centres, rows.edges, rows.centres, looks, looks_len,
                              s->edition);
    if (refusal == TZ_DONE) {
        *record = tz_record_of(r, factor, &columns, &rows);
        *footer = tz_footer_of(limit, asked, used);
    }
    return refusal;
}

/* A room's numbers and factors, in the order in which the flat functions have them. */
TZ_FUNCTION void tz_room_numbers(const tz_room *room, uint32_t numbers[80], float factors[8])
{
    for (uint32_t i = 0; i < TZ_ROOM_SETS; i++) {
        const tz_set *set = &room->sets[i];
        const tz_settings *s = &set->settings;
        const uint32_t n[10] = {set->film, set->width, set->height, s->across, s->down,
                                s->bins, s->min, s->max, s->clip, s->edition};
        for (uint32_t k = 0; k < 10; k++)
            numbers[10 * i + k] = n[k];
        factors[i] = s->factor;
    }
}

/* A room of its count, numbers and factors. */
TZ_FUNCTION tz_room tz_room_of(uint32_t count, const uint32_t numbers[80], const float factors[8])
{
    tz_room room;
    room.count = count;
    for (uint32_t i = 0; i < TZ_ROOM_SETS; i++) {
        const uint32_t *n = numbers + 10 * i;
        tz_settings kept = {n[3], n[4], n[5], n[6], n[7], n[8], factors[i], n[9]};
        tz_set set = {n[0], n[1], n[2], kept};
        room.sets[i] = set;
    }
    return room;
}

/*
 * A room: the mappings of up to eight films in one buffer, `map`, which is lent to each of the calls below. Films are stored,
 * drawn and dropped by their numbers, so that two of one size and grid are never taken for each other.
 *
 * As long as nobody else writes the buffer, and the record is handed on as the last call left it, each film that was stored
 * and not dropped, its pixels as they were then, draws as if it alone had been prepared, with 16 and 17 too.
 *
 * The record is looked at whoever wrote it. One with more than eight films, with a number twice, or whose films end to end
 * exceed the buffer is refused with 40 by store, draw and drop; so is a buffer that is shorter than it was.
 *
 * Empty: leaves a record without films, all of it 0. The buffer may hold anything.
 */
TZ_FUNCTION void tzofnadir_room_empty(tz_room *room)
{
    uint32_t count = 0, numbers[80] = {0};
    float factors[8] = {0};
    tz_room_empty(&count, numbers, factors);
    *room = tz_room_of(count, numbers, factors);
}

/*
 * Store: prepares a film into the room. Its (across x down x bins) mappings lie behind those of the films stored before it,
 * at factor 1.0 too, where they are taken and not written; all other entries of `map` keep their contents. Scratch, list and
 * footer as prepare leaves them. The record has one set more, and is written as a whole: in a set that somebody made up a factor
 * beside clip 0 becomes 0.0, and a clip or an edition other than 0 becomes 1.
 *
 * Sizes: as for prepare, but map_len is the whole buffer's, and what is free in it has to take the film; tz_room_entries says
 * how much several of them take.
 * Refusals, the first that applies: 40, 35, 36, then as prepare gives them with 37 for 11: 1 to 9 upward, 31, 10, 37, 12,
 * 32, 13.
 */
TZ_FUNCTION uint32_t tzofnadir_room_store(uint32_t film, uint32_t width, uint32_t height,
                                          const uint16_t *picture, size_t picture_len, const tz_settings *s,
                                          uint16_t *map, size_t map_len, uint32_t *scratch, size_t scratch_len,
                                          tz_room *room, tz_footer *footer, uint64_t *looks, size_t looks_len)
{
    uint32_t count = room->count, numbers[80], limit = 0;
    float factors[8], asked = 0;
    double used = 0;
    tz_room_numbers(room, numbers, factors);
    uint32_t refusal = tz_room_store(film, width, height, picture, picture_len, s->across, s->down, s->bins, s->min,
                                     s->max, s->clip, s->factor, map, map_len, scratch, scratch_len, &limit, &asked,
                                     &used, looks, looks_len, s->edition, &count, numbers, factors);
    if (refusal == TZ_DONE) {
        *room = tz_room_of(count, numbers, factors);
        *footer = tz_footer_of(limit, asked, used);
    }
    return refusal;
}

/*
 * Draw from a room: renders a window of a film that is stored in it, as draw does of a film that was prepared alone. Nothing
 * in the room changes. 15 compares size and settings with those of the set of this number, bins 0 read as 128 on both sides.
 * The set's entries are taken as lent, whoever wrote them, and no other film's are looked at.
 *
 * Sizes: picture_len is width x height; out_len exactly the window's area.
 * Refusals, the first that applies: 40, 38, then 1 to 9, 31, 10, 15, 16, 17, then 13 over the window, then 18 over the set's
 * entries (not at factor 1.0). 11 is never given.
 */
TZ_FUNCTION uint32_t tzofnadir_room_draw(uint32_t film, uint32_t width, uint32_t height,
                                         const uint16_t *picture, size_t picture_len, const tz_settings *s,
                                         const tz_room *room, const tz_window *window,
                                         const uint16_t *map, size_t map_len, uint16_t *out, size_t out_len)
{
    uint32_t numbers[80];
    float factors[8];
    tz_room_numbers(room, numbers, factors);
    return tz_room_draw(film, width, height, picture, picture_len, s->across, s->down, s->bins, s->min, s->max, s->clip,
                        s->factor, window->left, window->top, window->width, window->height, map, map_len, out, out_len,
                        s->edition, room->count, numbers, factors);
}

/*
 * Drop: takes a film out of the room. The sets behind it move down, in the buffer and in the record, so that all that is free
 * lies at the end and is used by the next store; entries behind the last set, and places of the record behind it, keep what
 * they held. The record is written as a whole, as by store.
 *
 * Refusals, the first that applies: 40, 38.
 */
TZ_FUNCTION uint32_t tzofnadir_room_drop(uint32_t film, uint16_t *map, size_t map_len, tz_room *room)
{
    uint32_t count = room->count, numbers[80];
    float factors[8];
    tz_room_numbers(room, numbers, factors);
    uint32_t refusal = tz_room_drop(film, map, map_len, &count, numbers, factors);
    if (refusal == TZ_DONE)
        *room = tz_room_of(count, numbers, factors);
    return refusal;
}

/*
 * Prepare, enhance and draw on a film of bytes: picture, map and output are bytes, and all else is as in the call of
 * the same name above. Inside the profile (grid 8 by 8, range 0 to 255, bins 64, 128 or 256, and 0 read as 128, edition
 * ours) each leaves the very numbers that the wide call leaves. So a record made by either prepare serves either draw, with
 * the mappings in bytes here and in 16 bits there. A call takes up to 80 KiB of stack: rows and mappings are widened there.
 *
 * Sizes as for the wide calls; an entry of the map buffer is a byte.
 * Refusals, the first that applies: 1 to 9 upward, 31, 10, 30, 11, 12, and of prepare 32. A byte lies in 0 to 255, so 13 is never given.
 */
TZ_FUNCTION uint32_t tzofnadir_prepare_bytes(uint32_t film, uint32_t width, uint32_t height,
                                             const uint8_t *picture, size_t picture_len, const tz_settings *s,
                                             uint8_t *map, size_t map_len, uint32_t *scratch, size_t scratch_len,
                                             tz_record *record, tz_footer *footer, uint64_t *looks, size_t looks_len)
{
    uint32_t r[10] = {0}, limit = 0;
    tz_axis columns = {{0}, {0}}, rows = {{0}, {0}};
    float factor = 0, asked = 0;
    double used = 0;
    uint32_t refusal = tz_prepare_bytes(film, width, height, picture, picture_len, s->across, s->down, s->bins,
                                        s->min, s->max, s->clip, s->factor, map, map_len, scratch, scratch_len, r,
                                        &factor, &limit, &asked, &used, columns.edges, columns.centres, rows.edges,
                                        rows.centres, looks, looks_len, s->edition);
    if (refusal == TZ_DONE) {
        *record = tz_record_of(r, factor, &columns, &rows);
        *footer = tz_footer_of(limit, asked, used);
    }
    return refusal;
}

/* Enhance on bytes, in place. Refusals as for prepare on bytes. */
TZ_FUNCTION uint32_t tzofnadir_enhance_bytes(uint32_t width, uint32_t height, uint8_t *picture, size_t picture_len,
                                             const tz_settings *s, uint8_t *map, size_t map_len,
                                             uint32_t *scratch, size_t scratch_len, tz_footer *footer)
{
    uint32_t limit = 0;
    float asked = 0;
    double used = 0;
    uint32_t refusal = tz_enhance_bytes(width, height, picture, picture_len, s->across, s->down, s->bins, s->min,
                                        s->max, s->clip, s->factor, map, map_len, scratch, scratch_len, &limit,
                                        &asked, &used, s->edition);
    if (refusal == TZ_DONE)
        *footer = tz_footer_of(limit, asked, used);
    return refusal;
}

/*
 * Draw on bytes. Refusals, the first that applies: 1 to 9 upward, 31, 10, 30, 11, 15, 16, 17. Neither 13 nor 18 is ever
 * given: a byte lies in 0 to 255.
 */
TZ_FUNCTION uint32_t tzofnadir_draw_bytes(uint32_t film, uint32_t width, uint32_t height,
                                          const uint8_t *picture, size_t picture_len, const tz_settings *s,
                                          const tz_record *record, const tz_window *window,
                                          const uint8_t *map, size_t map_len, uint8_t *out, size_t out_len)
{
    uint32_t r[10];
    tz_record_numbers(record, r);
    return tz_draw_bytes(film, width, height, picture, picture_len, s->across, s->down, s->bins, s->min, s->max,
                         s->clip, s->factor, r, record->settings.factor, window->left, window->top, window->width,
                         window->height, map, map_len, out, out_len, record->columns.edges, record->columns.centres,
                         record->rows.edges, record->rows.centres, s->edition);
}

/*
 * Read, first question: the width, height and maxval of a raw PGM file that is held in `bytes`, whole.
 *
 * Refusals: header bytes from the front, where, behind "P5", a '#' instead of white space or a digit is 21 and any
 * other misfit, or the end of input, is 20; then 22, 23, 24, 25. Nothing of the samples is looked at.
 */
TZ_FUNCTION uint32_t tzofnadir_read_sizes(const uint8_t *bytes, size_t len, tz_sizes *sizes)
{
    uint32_t n[3] = {0};
    uint32_t refusal = tz_read_sizes(bytes, len, n);
    if (refusal == TZ_DONE) {
        sizes->width = n[0];
        sizes->height = n[1];
        sizes->maxval = n[2];
    }
    return refusal;
}

/*
 * Read, second question, over the same bytes: which part of them is the raster. Refusals as for the first.
 */
TZ_FUNCTION uint32_t tzofnadir_read_raster(const uint8_t *bytes, size_t len, tz_part *part)
{
    size_t n[2] = {0};
    uint32_t refusal = tz_read_raster(bytes, len, n);
    if (refusal == TZ_DONE) {
        part->start = n[0];
        part->length = n[1];
    }
    return refusal;
}

/*
 * Turns the raster, the bytes from `start` to the end, into width x height greys in `target`. Entries behind the
 * last grey keep their contents.
 *
 * Sizes: target_len at least width x height. Refusals, the first that applies: 22, 23, 24, 25, 27, 26.
 */
TZ_FUNCTION uint32_t tzofnadir_read_greys(const uint8_t *bytes, size_t len, size_t start, const tz_sizes *sizes,
                                          uint16_t *target, size_t target_len)
{
    return tz_read_greys(bytes, len, start, sizes->width, sizes->height, sizes->maxval, target, target_len);
}

/*
 * Write: lays the film down in `out` as raw PGM, one byte a sample where maxval is below 256, else two, high byte
 * first. `count` is how many bytes; those behind them keep their contents.
 *
 * Sizes: picture_len is width x height; out_len at least the count, and tz_write_bytes is always enough.
 * Refusals, the first that applies: 22, 23, 2, 26, 27.
 */
TZ_FUNCTION uint32_t tzofnadir_write(const uint16_t *picture, size_t picture_len, const tz_sizes *sizes,
                                     uint8_t *out, size_t out_len, size_t *count)
{
    return tz_write(picture, picture_len, sizes->width, sizes->height, sizes->maxval, out, out_len, count);
}

/*
 * Plain PGM, "P2": the same header, and then width x height samples as numbers in text, parted by white space. White space is
 * space, tab, CR and LF; a sample is all bytes up to white space or the end. Whether a file is raw or plain its second byte
 * tells: '5' or '2'. Each reader gives 20 to the other's files.
 *
 * First question: the width, height and maxval of a plain PGM file that is held in `bytes`, whole. Nothing of the samples
 * is looked at.
 *
 * Refusals, the first that applies: 20 or 21 as for a raw file, with "P2", then 22, 23.
 */
TZ_FUNCTION uint32_t tzofnadir_plain_sizes(const uint8_t *bytes, size_t len, tz_sizes *sizes)
{
    uint32_t n[3] = {0};
    uint32_t refusal = tz_plain_sizes(bytes, len, n);
    if (refusal == TZ_DONE) {
        sizes->width = n[0];
        sizes->height = n[1];
        sizes->maxval = n[2];
    }
    return refusal;
}

/*
 * Reads a plain PGM file: its width x height greys go to `target`, and `sizes` says its three numbers. Entries behind the
 * last grey keep their contents. No sample is written before all of them are known to be in order.
 *
 * Sizes: target_len at least width x height. Refusals, the first that applies: 20 or 21, 22, 23, 27; then, at the first
 * sample that is not in order, 24 where it is missing or not 1 to 5 digits (a sign, a '#', six digits) and 26 where it is
 * above maxval; then 25 where more than white space stands behind the last one.
 */
TZ_FUNCTION uint32_t tzofnadir_read_plain(const uint8_t *bytes, size_t len, tz_sizes *sizes,
                                          uint16_t *target, size_t target_len)
{
    uint32_t n[3] = {0};
    uint32_t refusal = tz_read_plain(bytes, len, n, target, target_len);
    if (refusal == TZ_DONE) {
        sizes->width = n[0];
        sizes->height = n[1];
        sizes->maxval = n[2];
    }
    return refusal;
}

/*
 * Writes the film to `out` as plain PGM: "P2", width and height, maxval, a line each as write has them, and then a line for
 * each sample. `count` is how many bytes; those behind them keep their contents. What write and this one made of a film is
 * read back as the same film, so a raw file that write made comes back to the byte by way of a plain one, and the other way
 * round.
 *
 * Sizes: picture_len is width x height; out_len at least the count, and tz_plain_bytes is always enough.
 * Refusals as for write: 22, 23, 2, 26, 27.
 */
TZ_FUNCTION uint32_t tzofnadir_write_plain(const uint16_t *picture, size_t picture_len, const tz_sizes *sizes,
                                           uint8_t *out, size_t out_len, size_t *count)
{
    return tz_write_plain(picture, picture_len, sizes->width, sizes->height, sizes->maxval, out, out_len, count);
}

/*
 * Listing: the tile listing of a raw PGM file with grid 2 by 2, 4 bins, range 0 to maxval, factor 2, as text in
 * `out`, `count` bytes of it, fields parted by tabs, each line ended by a line feed: width, height, grid across,
 * grid down, bins, Min, Max, L of tile 0, 0; then a line per tile with row, column, excess over its own L, and the mapping.
 *
 * Sizes: out_len at least TZ_LISTING_BYTES, else 27. A film's refusal is part of the text, `refused`, tab, number:
 * 22 for an input above 32,768 bytes before all else, then as read gives them, where a film above 8,192 pixels is 22
 * too, then 26, then as prepare gives them, and so 31 where maxval is 1 or 2.
 */
TZ_FUNCTION uint32_t tzofnadir_listing(const uint8_t *bytes, size_t len, uint8_t *out, size_t out_len, size_t *count)
{
    return tz_listing(bytes, len, out, out_len, count);
}

#ifdef __cplusplus
}
#endif

#endif
