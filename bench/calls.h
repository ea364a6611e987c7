/* A film with its settings and all the memory that the calls want, and the calls that are measured on it. */
#ifndef CALLS_H
#define CALLS_H

#include <stddef.h>
#include <stdint.h>

#include "film.h"
#include "tzofnadir.h"

/* What a bench is opened for. The range is 0 to maxval and the factor 3.0, but where a call says otherwise. */
struct subject {
    enum kind kind;
    uint32_t width, height, bits;
    uint32_t grid, bins;
    uint32_t window; /* the side of the drawn window; the film's own where that is less */
};

struct bench {
    struct subject of;
    size_t pixels;
    tz_sizes sizes;
    tz_settings settings;
    tz_window window;
    size_t area;       /* the window's pixels */
    uint16_t *film;    /* as made */
    uint16_t *picture; /* what is rendered in place */
    uint16_t *drawn;   /* what is drawn or copied */
    uint16_t *map;
    uint32_t *scratch;
    uint64_t *list;
    uint32_t *counts; /* what counting leaves, */
    uint16_t *mapped; /* and the mappings that are made of it */
    uint8_t *bytes; /* of a film of 8 bits: the same as bytes, and what the calls on bytes want */
    uint8_t *byte_picture;
    uint8_t *byte_drawn;
    uint8_t *byte_map;
    uint8_t *file; /* the film as raw PGM */
    size_t file_len;
    uint8_t *text; /* and as plain PGM, where open_plain made room for it */
    size_t text_len;
    uint32_t region; /* the side of the region around a pixel, for around */
    uint16_t *shelf; /* a room's buffer, where open_room made it, with eight films like this one stored; `map` is its end */
    tz_room all, but_one; /* its record with all of them, and without the last */
    tz_room room;         /* the one that the calls change */
    tz_record record;
    tz_footer footer;
};

/* Says why on the standard error, and ends the program. */
__attribute__((noreturn)) void end(const char *why, long number);

void open_bench(struct bench *b, const struct subject *of);
void close_bench(struct bench *b);

/* Makes room for the film as plain PGM and lays both files down. */
void open_plain(struct bench *b);

/*
 * Makes a room's buffer and stores the film in it eight times, by eight numbers. From then on `map` is the last set's part of
 * it, so that prepare and draw work on the very memory that store and draw from the room work on.
 */
void open_room(struct bench *b);

/* The room's record laid out anew: with all films but the last one, for a store, or with all. */
void lay_but_one(struct bench *b);
void lay_all(struct bench *b);

/* Lays the film out anew, where it is rendered in place. */
void lay_out(struct bench *b);
void lay_out_bytes(struct bench *b);

/*
 * Each call answers 0 where it ended as it should.
 * scan:      prepare of the film with its last pixel outside the range. That is known when all pixels were looked at,
 *            and nothing else is done. It is as it should be if prepare refuses with 13.
 * .. bytes:  the calls on bytes, for a film of 8 bits with a grid of 8 by 8 and 64, 128 or 256 bins.
 * unclipped: prepare with clip off. Its record is not that of the settings: draw wants prepare before it.
 * near one:  prepare at the factor 1.0001, and so is its record not that of the settings.
 * of 1986:   prepare by the clip rule of 1986, and so is its record not that of the settings.
 * map:       mapping from the counts. It wants counting before it; the mappings go to `mapped`.
 * around:    the film rendered into `drawn`, with a region of the side `region` around each pixel.
 * to raw:    the plain file read, and written as raw; to plain the other way round. They want open_plain before them.
 * store:     the film stored as the last of eight; room draw draws it from there; drop takes the first one out, so that
 *            seven move down, and move is what memmove takes for these. They want open_room before them.
 * direct:    the plain engine, into `drawn`.
 */
long call_enhance(struct bench *b);
long call_prepare(struct bench *b);
long call_scan(struct bench *b);
long call_unclipped(struct bench *b);
long call_near_one(struct bench *b);
long call_of_1986(struct bench *b);
long call_count(struct bench *b);
long call_map(struct bench *b);
long call_draw(struct bench *b);
long call_around(struct bench *b);
long call_write(struct bench *b);
long call_read(struct bench *b);
long call_to_raw(struct bench *b);
long call_to_plain(struct bench *b);
long call_1994(struct bench *b);
long call_copy(struct bench *b);
long call_enhance_bytes(struct bench *b);
long call_prepare_bytes(struct bench *b);
long call_draw_bytes(struct bench *b);
long call_store(struct bench *b);
long call_room_draw(struct bench *b);
long call_drop(struct bench *b);
long call_move(struct bench *b);
long call_direct(struct bench *b);

/*
 * What is measured is worth nothing if it is wrong. Ends the program where a film written and read back is another, a
 * drawn window is not enhance's, or a call on bytes leaves other greys or mappings. Leaves enhance's picture in `picture`.
 */
void check(struct bench *b);

/*
 * Ends the program where a store leaves other mappings, list or footer than prepare, a room draw is not draw's, or a drop does
 * not leave what memmove leaves.
 */
void check_room(struct bench *b);

/* Ends the program where the plain engine's picture or footer is not enhance's. */
void check_direct(struct bench *b);

/*
 * Behind around: ends the program where the grey that it left for a pixel is not the one that mapping gives for the counts of the
 * pixel's region, counted anew. Corners, borders and some pixels inside are looked at.
 */
void check_around(struct bench *b);

/* Ends the program where a film moved from raw to plain and back, or from plain to raw, is not the same bytes. */
void check_plain(struct bench *b);

/*
 * Near one, where the bins hold a tile's pixels and no more, every bin ends full and every mapping rises evenly.
 * Ends the program where one does not.
 */
void check_near_one(struct bench *b);

/*
 * Counts once and maps with one clip setting after the other, and in both editions. Ends the program where mappings, record
 * or footer are not prepare's, or where counts that are too few or do not add up are not refused. Leaves the counts.
 */
void check_counts(struct bench *b);

/*
 * Clips each tile's counts as the rule of 1986 says it, level by level from the limit down. Ends the program where prepare
 * by that edition leaves another mapping. For sides that the grid divides.
 */
void check_of_1986(struct bench *b);

#endif
