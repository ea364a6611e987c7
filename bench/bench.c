/*
 * bench films FOLDER                  writes the films as PGM, for what else is to be measured on them: raw, .pgm, and some as
 *                                     text, .txt
 * bench run [OPENCV.txt NETPBM.txt]   measures, and prints tables; the files have others' times, "SIDE BITS FILM CALL NS" a line
 *
 * The calls take turns, in several rounds, so that a slow spell of the machine meets all of them. In each turn a call is
 * run twice and the second run is measured: its memory is there, and the caches are as warm as they get. Nothing is
 * cleared in between. The best turn counts. The picture that is rendered in place is laid out anew before each run,
 * outside the time measured. Time is the processor's, as the system counts it for this process.
 */
#define _POSIX_C_SOURCE 200809L
#include <stdint.h>
#include <stdio.h>
#include <stdlib.h>
#include <string.h>
#include <time.h>

#include "aims.h"
#include "beside.h"
#include "calls.h"
#include "film.h"
#include "products.h"

#define GRID 8u
#define BINS 128u
#define WINDOW 1024u      /* the side of the window that is drawn, */
#define SMALL_WINDOW 256u /* and of that which shows how drawing grows */
#define FEW 3             /* rounds for the plain engine, which takes seconds */
#define MANY(list) (sizeof(list) / sizeof(list)[0])

static const uint32_t sides[] = {512, 2048, 4096};

/* At 8 bits and 128 bins a bin is the same part of the range as at 12: a calm film of 8 bits would tell nothing new. */
static const struct reel {
    enum kind kind;
    uint32_t bits;
} reels[] = {{NOISY, 8}, {NOISY, 12}, {CALM, 12}};

/* ---- measuring ---- */

/* In the order in which they take turns: draw comes behind prepare, with whose mappings it draws. */
enum call {
    ENHANCE, ENHANCE_BYTES, BY_1994, COPY, SCAN, UNCLIPPED, NEAR_ONE, OF_1986, PREPARE, DRAW, PREPARE_BYTES, DRAW_BYTES,
    COUNT, MAP, TO_RAW, TO_PLAIN, WRITE, READ, STORE, ROOM_DRAW, DROP, MOVE, DIRECT, AROUND, CALLS
};

#define ONE(call) (1u << (call))
#define BYTES (ONE(ENHANCE_BYTES) | ONE(PREPARE_BYTES) | ONE(DRAW_BYTES)) /* for films of 8 bits alone */
#define COUNTS (ONE(COUNT) | ONE(MAP)) /* in this order: mapping wants the counts */
#define TEXT (ONE(TO_RAW) | ONE(TO_PLAIN)) /* for films that were laid down as text */
#define ROOM (ONE(STORE) | ONE(ROOM_DRAW) | ONE(DROP) | ONE(MOVE)) /* in this order: draw and drop want the store */
#define ALL \
    ((ONE(CALLS) - 1) & ~BYTES & ~COUNTS & ~TEXT & ~ROOM & ~ONE(DIRECT) & ~ONE(AROUND) & ~ONE(NEAR_ONE) & ~ONE(OF_1986))

static const struct {
    void (*before)(struct bench *);
    long (*call)(struct bench *);
} calls[CALLS] = {
    [ENHANCE] = {lay_out, call_enhance}, [BY_1994] = {lay_out, call_1994},     [COPY] = {NULL, call_copy},
    [SCAN] = {NULL, call_scan},          [UNCLIPPED] = {NULL, call_unclipped}, [PREPARE] = {NULL, call_prepare},
    [DRAW] = {NULL, call_draw},          [WRITE] = {NULL, call_write},         [READ] = {NULL, call_read},
    [NEAR_ONE] = {NULL, call_near_one},  [COUNT] = {NULL, call_count},         [MAP] = {NULL, call_map},
    [OF_1986] = {NULL, call_of_1986},    [ENHANCE_BYTES] = {lay_out_bytes, call_enhance_bytes},
    [PREPARE_BYTES] = {NULL, call_prepare_bytes},
    [DRAW_BYTES] = {NULL, call_draw_bytes},
    [TO_RAW] = {NULL, call_to_raw},      [TO_PLAIN] = {NULL, call_to_plain},
    [STORE] = {lay_but_one, call_store}, [ROOM_DRAW] = {lay_all, call_room_draw},
    [DROP] = {lay_all, call_drop},       [MOVE] = {NULL, call_move},           [DIRECT] = {NULL, call_direct},
    [AROUND] = {NULL, call_around},
};

/* What was measured of a film: the best turn of each call, in nanoseconds. */
struct result {
    double pixels, area;
    double share; /* of the pixels, in their left neighbour's bin */
    double best[CALLS];
};

static double now(void)
{
    struct timespec t;
    clock_gettime(CLOCK_PROCESS_CPUTIME_ID, &t);
    return (double)t.tv_sec * 1e9 + (double)t.tv_nsec;
}

static double run_once(struct bench *b, enum call c)
{
    if (calls[c].before != NULL)
        calls[c].before(b);
    double began = now();
    long answer = calls[c].call(b);
    double took = now() - began;
    if (answer != 0)
        end("a call did not end well", answer);
    return took;
}

/*
 * Where a call's own arrays lie on the stack, against the lent memory, is worth up to 2 % of its time, and two calls that do the
 * same lie apart by what their arguments take. So from turn to turn a call lies elsewhere in a page, and the best turn counts.
 */
static void take_turn(struct bench *b, enum call c, int turn, double *best)
{
    volatile char deeper[1 + 256 * (turn * 7 % 16)];
    deeper[0] = 0;
    run_once(b, c);
    double took = run_once(b, c);
    if (*best == 0 || took < *best)
        *best = took;
    deeper[0] = 1;
}

static int rounds(uint32_t side) { return side > 2048 ? 15 : side > 1024 ? 30 : side > 512 ? 60 : 100; }

/* A room's calls are held to a hundredth of another's time, and to a microsecond, so they take more turns. */
static int turns(const struct subject *of, unsigned which)
{
    if ((which & ONE(DIRECT)) != 0)
        return FEW;
    return (which & ROOM) != 0 ? 6 * rounds(of->height) : rounds(of->height);
}

static double share_of(const struct bench *b)
{
    return film_share(b->film, b->of.width, b->of.height, b->settings.bins, b->settings.max + 1);
}

/* What the calls of the set `which` want besides, and their checks. */
static void check_calls(struct bench *b, unsigned which)
{
    check(b);
    if ((which & ONE(DIRECT)) != 0)
        check_direct(b);
    if ((which & ONE(NEAR_ONE)) != 0)
        check_near_one(b);
    if ((which & ONE(OF_1986)) != 0)
        check_of_1986(b);
    if ((which & COUNTS) != 0)
        check_counts(b);
    if ((which & TEXT) != 0) {
        open_plain(b);
        check_plain(b);
    }
    if ((which & ROOM) != 0) {
        open_room(b);
        check_room(b);
    }
}

/* Measures the calls of the set `which` on a film, when its checks are passed. */
static struct result measure(const struct subject *of, unsigned which)
{
    struct bench b;
    open_bench(&b, of);
    check_calls(&b, which);
    struct result r = {.pixels = (double)b.pixels, .area = (double)b.area, .share = share_of(&b)};
    for (int i = turns(of, which); i > 0; i--)
        for (int c = 0; c < CALLS; c++)
            if ((which & ONE(c)) != 0)
                take_turn(&b, (enum call)c, i, &r.best[c]);
    close_bench(&b);
    return r;
}

static struct subject usual(enum kind kind, uint32_t side, uint32_t bits)
{
    return (struct subject){kind, side, side, bits, GRID, BINS, WINDOW};
}

/* Notes an aim of a row that two numbers name. */
__attribute__((format(printf, 3, 0))) static void aim_row(double aim, double measured, const char *form, uint32_t a, uint32_t b)
{
    char row[96];
    snprintf(row, sizeof row, form, (unsigned)a, (unsigned)b);
    aim_note(row, aim, measured);
}

/* ---- the films ---- */

static void film_row(const struct reel *reel)
{
    static const uint32_t all[] = {256, 512, 1024, 2048, 4096};
    printf("| %-5s | %2u |", film_name(reel->kind), (unsigned)reel->bits);
    for (size_t i = 0; i < MANY(all); i++) {
        struct bench b;
        struct subject of = usual(reel->kind, all[i], reel->bits);
        open_bench(&b, &of);
        printf(" %4.1f |", 100 * share_of(&b));
        close_bench(&b);
    }
    printf("\n");
}

static void films_table(void)
{
    printf("### Films\n\n"
           "Percent of the pixels that lie in their left neighbour's bin, at %u bins, by the side.\n\n", BINS);
    printf("| film | bits | 256 | 512 | 1024 | 2048 | 4096 |\n|---|---|---|---|---|---|---|\n");
    for (size_t i = 0; i < MANY(reels); i++)
        film_row(&reels[i]);
}

/* ---- the calls ---- */

/* Another's time for a call on a film, in nanoseconds a pixel; 0 where there is none. */
static double time_of(const char *path, const struct subject *of, const char *call)
{
    char line[128], name[16], of_call[16];
    unsigned side, bits;
    double ns, found = 0;
    FILE *from = path == NULL ? NULL : fopen(path, "r");
    if (from == NULL)
        return 0;
    while (fgets(line, sizeof line, from) != NULL)
        if (sscanf(line, "%u %u %15s %15s %lf", &side, &bits, name, of_call, &ns) == 5 && side == of->width &&
            bits == of->bits && strcmp(name, film_name(of->kind)) == 0 && strcmp(of_call, call) == 0)
            found = ns;
    fclose(from);
    return found;
}

/* What a call is held against, in nanoseconds a pixel. */
struct against {
    double by_1994, opencv, copy;
};

static void ratio(double ours, double theirs)
{
    if (theirs > 0)
        printf(" %8.2f |", ours / theirs);
    else
        printf("        - |");
}

static void call_row(const struct subject *of, const char *call, double ns, const struct against *a)
{
    printf("| %4u | %2u | %-5s |", (unsigned)of->width, (unsigned)of->bits, film_name(of->kind));
    printf(" %-9s | %8.3f |", call, ns);
    ratio(ns, a->by_1994);
    ratio(ns, a->opencv);
    ratio(ns, a->copy);
    printf("\n");
}

static void draw_aim(const struct subject *of, double draw, double rendering)
{
    char row[96];
    snprintf(row, sizeof row, "draw of %u in %u, %u bits, %s, of rendering a pixel", WINDOW, (unsigned)of->width,
             (unsigned)of->bits, film_name(of->kind));
    aim_note(row, of->width == 4096 ? 1.10 : 0, draw / rendering);
}

static void call_rows(const struct subject *of, const char *opencv)
{
    struct result r = measure(of, ALL);
    const double *best = r.best;
    struct against a = {best[BY_1994] / r.pixels, time_of(opencv, of, "enhance"), best[COPY] / r.pixels};
    call_row(of, "enhance", best[ENHANCE] / r.pixels, &a);
    call_row(of, "prepare", best[PREPARE] / r.pixels, &a);
    call_row(of, "scan", best[SCAN] / r.pixels, &a);
    call_row(of, "counting", (best[UNCLIPPED] - best[SCAN]) / r.pixels, &a);
    call_row(of, "rendering", (best[ENHANCE] - best[PREPARE]) / r.pixels, &a);
    call_row(of, "draw", best[DRAW] / r.area, &a);
    draw_aim(of, best[DRAW] / r.area, (best[ENHANCE] - best[PREPARE]) / r.pixels);
    call_row(of, "write", best[WRITE] / r.pixels, &a);
    call_row(of, "read", best[READ] / r.pixels, &a);
    call_row(of, "1994", a.by_1994, &a);
    if (a.opencv > 0)
        call_row(of, "OpenCV", a.opencv, &a);
    call_row(of, "copy", a.copy, &a);
    fflush(stdout);
}

/* On a film of 2 by 2 pixels a tile nearly all time goes to what a tile costs however many pixels it has. */
static void tiles_alone(void)
{
    struct subject of = usual(NOISY, 2 * GRID, 12);
    struct result r = measure(&of, ONE(UNCLIPPED));
    printf("\nIn counting, %u tiles of %u bins take %.1f µs whatever their pixels (measured on a film %u square).\n",
           GRID * GRID, BINS, r.best[UNCLIPPED] / 1e3, 2 * GRID);
}

static void calls_table(const char *opencv)
{
    printf("\n### Calls\n\nA ratio below 1 is faster than what it is held against.\n\n");
    printf("| side | bits | film | call | ns a pixel | of 1994 | of OpenCV | of copy |\n"
           "|---|---|---|---|---|---|---|---|\n");
    for (size_t i = 0; i < MANY(sides); i++)
        for (size_t j = 0; j < MANY(reels); j++) {
            struct subject of = usual(reels[j].kind, sides[i], reels[j].bits);
            call_rows(&of, opencv);
        }
    tiles_alone();
}

/* ---- where the station works ---- */

static void station_row(const struct reel *reel, uint32_t side, const char *opencv)
{
    struct subject of = usual(reel->kind, side, reel->bits);
    of.bins = 1024;
    struct result r = measure(&of, ONE(ENHANCE) | ONE(PREPARE) | ONE(DRAW) | ONE(BY_1994));
    const double *best = r.best;
    printf("| %4u | %-5s |", (unsigned)side, film_name(reel->kind));
    printf(" %8.3f | %8.3f | %8.3f | %8.3f |", best[ENHANCE] / r.pixels, best[PREPARE] / r.pixels,
           (best[ENHANCE] - best[PREPARE]) / r.pixels, best[DRAW] / r.area);
    ratio(best[ENHANCE], best[BY_1994]);
    ratio(best[ENHANCE] / r.pixels, time_of(opencv, &of, "enhance"));
    printf("\n");
    fflush(stdout);
}

/* What our own programs choose for 12 bits: the headline. */
static void station_table(const char *opencv)
{
    printf("\n### Where the station works: 1024 bins, 12 bits\n\nNanoseconds a pixel; a ratio below 1 is faster.\n\n");
    printf("| side | film | enhance | prepare | rendering | draw | enhance of 1994 | of OpenCV |\n"
           "|---|---|---|---|---|---|---|---|\n");
    for (size_t i = 0; i < MANY(sides); i++)
        for (size_t j = 0; j < MANY(reels); j++)
            if (reels[j].bits == 12)
                station_row(&reels[j], sides[i], opencv);
}

/* ---- bytes ---- */

static void bytes_row(uint32_t side, const char *call, double bytes, double wide, double opencv)
{
    printf("| %4u | %-7s | %8.3f | %8.3f |", (unsigned)side, call, bytes, wide);
    ratio(bytes, wide);
    ratio(bytes, opencv);
    printf("\n");
}

static void bytes_aims(uint32_t side, double bytes, double wide, double opencv)
{
    aim_row(1.00, bytes / wide, "bytes: enhance %u, %u bins, of the wide call", side, BINS);
    if (opencv > 0)
        aim_row(side == 512 ? 0.50 : side == 4096 ? 0.38 : 0, bytes / opencv, "bytes: enhance %u, %u bins, of OpenCV's 8 bits", side,
                BINS);
}

static void bytes_rows(uint32_t side, const char *opencv)
{
    struct subject of = usual(NOISY, side, 8);
    struct result r = measure(&of, BYTES | ONE(ENHANCE) | ONE(PREPARE) | ONE(DRAW));
    const double *best = r.best;
    double theirs = time_of(opencv, &of, "bytes"), bytes = best[ENHANCE_BYTES] / r.pixels;
    bytes_row(side, "enhance", bytes, best[ENHANCE] / r.pixels, theirs);
    bytes_aims(side, bytes, best[ENHANCE] / r.pixels, theirs);
    bytes_row(side, "prepare", best[PREPARE_BYTES] / r.pixels, best[PREPARE] / r.pixels, 0);
    bytes_row(side, "draw", best[DRAW_BYTES] / r.area, best[DRAW] / r.area, 0);
    fflush(stdout);
}

/* What enhance wants lent: the picture, the map buffer and the scratch. */
static void memory_row(uint32_t side)
{
    tz_settings s = {.across = GRID, .down = GRID, .bins = BINS};
    double entries = (double)side * side + (double)tz_map_entries(&s), scratch = 4.0 * (double)tz_scratch_entries(&s);
    printf("| %4u | %9.1f | %9.1f |", (unsigned)side, (entries + scratch) / 1024, (2 * entries + scratch) / 1024);
    ratio(entries + scratch, 2 * entries + scratch);
    printf("\n");
}

static void bytes_table(const char *opencv)
{
    printf("\n### Bytes\n\n"
           "The calls on bytes against the wide ones on the same noisy film of 8 bits, nanoseconds a pixel, and against OpenCV's\n"
           "CLAHE at its own 8 bits.\n\n");
    printf("| side | call | bytes | wide | bytes of wide | of OpenCV's 8 bits |\n|---|---|---|---|---|---|\n");
    for (size_t i = 0; i < MANY(sides); i++)
        bytes_rows(sides[i], opencv);
    printf("\nWhat enhance wants lent, KiB: picture, map buffer and scratch.\n\n"
           "| side | bytes | wide | bytes of wide |\n|---|---|---|---|\n");
    for (size_t i = 0; i < MANY(sides); i++)
        memory_row(sides[i]);
}

/* ---- the rendering of 1994 ---- */

/* How far the rendering of 1994 is from ours, which stands in `picture`. */
static void compare(struct bench *b)
{
    size_t differ = 0;
    int most = 0;
    memcpy(b->drawn, b->picture, 2 * b->pixels);
    run_once(b, BY_1994);
    for (size_t i = 0; i < b->pixels; i++) {
        int by = (int)b->picture[i] - (int)b->drawn[i];
        by = by < 0 ? -by : by;
        differ += by != 0;
        most = by > most ? by : most;
    }
    printf("\n%u square, %u bits, %s: ", (unsigned)b->of.width, (unsigned)b->of.bits, film_name(b->of.kind));
    printf("the 1994 rendering differs from ours in %.1f%% of the pixels, by at most %d greys.\n",
           100.0 * (double)differ / (double)b->pixels, most);
}

static void comparison(void)
{
    for (size_t j = 0; j < MANY(reels); j++) {
        struct bench b;
        struct subject of = usual(reels[j].kind, sides[0], reels[j].bits);
        open_bench(&b, &of);
        check(&b);
        compare(&b);
        close_bench(&b);
    }
}

/* ---- the bins ---- */

/* What enhance is to take of the 1994 rendering with the same bins. */
static const struct {
    uint32_t side, bins;
    double aims[KINDS];
} bins_aims[] = {
    {4096, 128, {[NOISY] = 0.52, [CALM] = 0.42}}, {4096, 1024, {[NOISY] = 0.62, [CALM] = 0.62, [EVEN] = 1.10}},
    {4096, 4096, {[NOISY] = 0.75, [CALM] = 0.70}}, {512, 128, {[NOISY] = 0.70, [CALM] = 0.50}},
    {512, 1024, {[NOISY] = 0.85, [CALM] = 0.80, [EVEN] = 1.10}}, {512, 4096, {[NOISY] = 0.80, [CALM] = 0.75}},
};

static void bins_aim(enum kind kind, uint32_t side, uint32_t bins, double of_1994)
{
    char row[96];
    snprintf(row, sizeof row, "enhance %u, %u bins, %s, of 1994", (unsigned)side, (unsigned)bins, film_name(kind));
    for (size_t i = 0; i < MANY(bins_aims); i++)
        if (bins_aims[i].side == side && bins_aims[i].bins == bins)
            aim_note(row, bins_aims[i].aims[kind], of_1994);
}

static void bins_row(enum kind kind, uint32_t side, uint32_t bins)
{
    struct subject of = usual(kind, side, 12);
    of.bins = bins;
    struct result r = measure(&of, ONE(ENHANCE) | ONE(PREPARE) | ONE(BY_1994));
    const double *best = r.best;
    printf("| %4u | %-5s | %4u | %4.1f |", (unsigned)side, film_name(kind), (unsigned)bins, 100 * r.share);
    printf(" %8.3f | %8.3f | %8.3f | %8.3f |", best[ENHANCE] / r.pixels, best[PREPARE] / r.pixels,
           (best[ENHANCE] - best[PREPARE]) / r.pixels, best[BY_1994] / r.pixels);
    ratio(best[ENHANCE], best[BY_1994]);
    printf("\n");
    bins_aim(kind, side, bins, best[ENHANCE] / best[BY_1994]);
    fflush(stdout);
}

static void bins_table(void)
{
    static const uint32_t ends[] = {512, 4096}, bins[] = {128, 256, 1024, 4096};
    static const enum kind plates[] = {NOISY, CALM};
    printf("\n### Bins\n\n"
           "Nanoseconds a pixel, 12 bits. Share: percent of the pixels that lie in their left neighbour's bin.\n\n");
    printf("| side | film | bins | share | enhance | prepare | rendering | 1994 | enhance of 1994 |\n"
           "|---|---|---|---|---|---|---|---|---|\n");
    for (size_t i = 0; i < MANY(ends); i++)
        for (size_t j = 0; j < MANY(plates); j++)
            for (size_t k = 0; k < MANY(bins); k++)
                bins_row(plates[j], ends[i], bins[k]);
}

/* ---- the edition of 1986 ---- */

static void edition_row(enum kind kind, uint32_t side, uint32_t bins)
{
    struct subject of = usual(kind, side, 12);
    of.bins = bins;
    struct result r = measure(&of, ONE(PREPARE) | ONE(OF_1986));
    printf("| %4u | %-5s | %4u | %8.3f | %8.3f |", (unsigned)side, film_name(kind), (unsigned)bins,
           r.best[PREPARE] / r.pixels, r.best[OF_1986] / r.pixels);
    ratio(r.best[OF_1986], r.best[PREPARE]);
    printf("\n");
    aim_row(1.00, r.best[OF_1986] / r.best[PREPARE],
            kind == CALM ? "prepare with 1986 %u calm, %u bins, of ours" : "prepare with 1986 %u noisy, %u bins, of ours", side, bins);
    fflush(stdout);
}

static void edition_table(void)
{
    static const uint32_t ends[] = {512, 4096}, bins[] = {128, 1024, 4096};
    static const enum kind plates[] = {NOISY, CALM};
    printf("\n### The edition of 1986\n\nPrepare by either clip rule, nanoseconds a pixel, 12 bits.\n\n");
    printf("| side | film | bins | prepare | prepare with 1986 | 1986 of ours |\n|---|---|---|---|---|---|\n");
    for (size_t i = 0; i < MANY(ends); i++)
        for (size_t j = 0; j < MANY(plates); j++)
            for (size_t k = 0; k < MANY(bins); k++)
                edition_row(plates[j], ends[i], bins[k]);
}

/* ---- an even film ---- */

/* Made to be bad for rendering: no pixel has its neighbour's bin, and a run has more bins than tables pay for. */
static void even_table(void)
{
    printf("\n### An even film\n\n"
           "Each pixel has any grey of the range. Nanoseconds a pixel, 12 bits.\n\n");
    printf("| side | film | bins | share | enhance | prepare | rendering | 1994 | enhance of 1994 |\n"
           "|---|---|---|---|---|---|---|---|---|\n");
    bins_row(EVEN, 512, 1024);
    bins_row(EVEN, 4096, 1024);
}

/* ---- products ---- */

/* The sample film, read by the library. */
static uint16_t *sample_film(const char *path, tz_sizes *sizes)
{
    static uint8_t file[2 * 512 * 512 + 64];
    tz_part part;
    FILE *from = fopen(path, "rb");
    size_t count = from == NULL ? 0 : fread(file, 1, sizeof file, from);
    if (from == NULL || fclose(from) != 0 || tzofnadir_read_sizes(file, count, sizes) != TZ_DONE ||
        tzofnadir_read_raster(file, count, &part) != TZ_DONE)
        end("the sample film cannot be read", (long)count);
    size_t pixels = (size_t)sizes->width * sizes->height;
    uint16_t *film = calloc(pixels, sizeof *film);
    if (film == NULL || tzofnadir_read_greys(file, count, part.start, sizes, film, pixels) != TZ_DONE)
        end("the sample film has no greys", (long)pixels);
    return film;
}

static void products_row(const char *name, struct weighed of, uint32_t bins)
{
    of.bins = bins;
    struct products p = products_of(&of);
    double pixels = (double)p.pixels;
    printf("| %-6s | %4u by %-4u | %4u by %-4u | %4u |", name, (unsigned)of.width, (unsigned)of.height, (unsigned)of.wide,
           (unsigned)of.high, (unsigned)bins);
    printf(" %5.2f | %5.2f | %5.2f | %5.2f | %5.1f |\n", 6.0, (double)p.tables / pixels, (double)p.each / pixels,
           (double)(p.tables + p.each) / pixels, 100 * (double)p.moved / pixels);
}

/* The whole film, or a window of 100 by 100 in its middle. */
static void products_rows(const char *name, const uint16_t *film, uint32_t width, uint32_t height, int window)
{
    static const uint32_t bins[] = {64, 128, 256, 512, 1024, 2048, 4096};
    struct weighed of = {film, width, height, 4096, GRID, 0, 0, 0, width, height};
    if (window) {
        of.left = width / 2 - 50;
        of.top = height / 2 - 50;
        of.wide = of.high = 100;
    }
    for (size_t i = 0; i < MANY(bins); i++)
        products_row(name, of, bins[i]);
}

static void products_of_plate(enum kind kind, uint32_t side, int window)
{
    uint16_t *film = calloc((size_t)side * side, sizeof *film);
    if (film == NULL)
        end("no memory for a film of side", side);
    film_draw(film, kind, side, side, 12);
    products_rows(film_name(kind), film, side, side, window);
    free(film);
}

static void products_table(void)
{
    tz_sizes sizes;
    uint16_t *sample = sample_film("docs/weld.pgm", &sizes);
    printf("\n### Weighted products\n\n"
           "A pixel's own and those of the tables, 12 bits; the plain rule has six. Moved: percent of the pixels whose sum moves.\n\n");
    printf("| film | sides | rendered | bins | plain | tables | pixels | both | moved |\n|---|---|---|---|---|---|---|---|---|\n");
    for (int window = 0; window < 2; window++) {
        products_rows("sample", sample, sizes.width, sizes.height, window);
        products_of_plate(NOISY, 512, window);
        products_of_plate(CALM, 512, window);
        products_of_plate(NOISY, 4096, window);
        products_of_plate(CALM, 4096, window);
    }
    free(sample);
}

/* ---- clipping near one ---- */

/* Prepare with clip off does all that prepare at a factor does but clipping. */
static void near_one_row(enum kind kind, uint32_t grid, uint32_t bins)
{
    struct subject of = {kind, 4096, 4096, 12, grid, bins, SMALL_WINDOW};
    struct result r = measure(&of, ONE(UNCLIPPED) | ONE(NEAR_ONE));
    double off = r.best[UNCLIPPED] / 1e6, near = r.best[NEAR_ONE] / 1e6;
    printf("| %4u | %-6s | %u by %u | %4u |", (unsigned)of.width, film_name(kind), (unsigned)grid, (unsigned)grid,
           (unsigned)bins);
    printf(" %7.1f | %7.1f | %7.1f |\n", off, near, near - off);
    fflush(stdout);
}

static void near_one_table(void)
{
    printf("\n### Clipping near one\n\n"
           "Prepare with clip off and at factor 1.0001, milliseconds; the difference is clipping. 12 bits.\n"
           "All bins end full.\n\n");
    printf("| side | film | grid | bins | clip off | 1.0001 | clipping |\n|---|---|---|---|---|---|---|\n");
    near_one_row(NOISY, GRID, BINS);
    near_one_row(CALM, GRID, BINS);
    near_one_row(COMBED, 2, 2048);
}

/* ---- a new factor ---- */

static void counts_row(enum kind kind)
{
    struct subject of = usual(kind, 4096, 12);
    struct result r = measure(&of, COUNTS | ONE(PREPARE));
    double prepare = r.best[PREPARE] / 1e6, count = r.best[COUNT] / 1e6, map = r.best[MAP] / 1e6;
    printf("| %4u | %-5s | %7.3f | %7.3f | %7.3f | %6.4f |\n", (unsigned)of.width, film_name(kind), prepare, count, map,
           map / prepare);
    fflush(stdout);
}

static void counts_table(void)
{
    printf("\n### Mapping from counts\n\n"
           "A new factor over counts that are there, against prepare on the same film, milliseconds. 12 bits.\n\n");
    printf("| side | film | prepare | counting | mapping from counts | mapping of prepare |\n|---|---|---|---|---|---|\n");
    counts_row(NOISY);
    counts_row(CALM);
}

/* ---- plain files ---- */

static void text_row(const struct subject *of, const char *move, double ns, double netpbm)
{
    printf("| %4u | %2u | %-5s | %-12s | %8.3f |", (unsigned)of->width, (unsigned)of->bits, film_name(of->kind), move, ns);
    if (netpbm > 0)
        printf(" %8.3f |", netpbm);
    else
        printf("        - |");
    ratio(ns, netpbm);
    printf("\n");
}

static void text_rows(const struct reel *reel, uint32_t side, const char *netpbm)
{
    struct subject of = usual(reel->kind, side, reel->bits);
    struct result r = measure(&of, TEXT);
    text_row(&of, "plain to raw", r.best[TO_RAW] / r.pixels, time_of(netpbm, &of, "raw"));
    text_row(&of, "raw to plain", r.best[TO_PLAIN] / r.pixels, time_of(netpbm, &of, "plain"));
    fflush(stdout);
}

static const uint32_t text_sides[] = {2048, 4096};

static void text_table(const char *netpbm)
{
    printf("\n### Plain files\n\n"
           "A film read in one form and written in the other, in memory, nanoseconds a sample; beside it the user time of\n"
           "Netpbm's pamtopnm and pnmtoplainpnm on the same files, their start taken off.\n\n");
    printf("| side | bits | film | move | ours | Netpbm | of Netpbm |\n|---|---|---|---|---|---|---|\n");
    for (size_t i = 0; i < MANY(text_sides); i++)
        for (size_t j = 0; j < MANY(reels); j++)
            text_rows(&reels[j], text_sides[i], netpbm);
}

/* ---- one room ---- */

static void store_row(uint32_t side, uint32_t bins)
{
    struct subject of = usual(NOISY, side, 12);
    of.bins = bins;
    struct result r = measure(&of, ONE(PREPARE) | ONE(STORE));
    double prepare = r.best[PREPARE] / 1e3, store = r.best[STORE] / 1e3;
    printf("| %4u | %4u | %9.1f | %9.1f | %7.4f |\n", (unsigned)side, (unsigned)bins, prepare, store, store / prepare);
    aim_row(1.01, store / prepare, "room: store %u, %u bins, of prepare", side, bins);
    fflush(stdout);
}

/* Of a window of one pixel nearly all of a draw is the look at all mappings, and the rest of the difference the room's. */
static void room_draw_row(uint32_t window, uint32_t bins)
{
    struct subject of = {NOISY, 1024, 1024, 12, GRID, bins, window};
    struct result r = measure(&of, ONE(PREPARE) | ONE(DRAW) | ONE(STORE) | ONE(ROOM_DRAW));
    double draw = r.best[DRAW] / 1e3, from_room = r.best[ROOM_DRAW] / 1e3;
    printf("| %4u | %4u | %9.2f | %9.2f | %6.2f |\n", (unsigned)window, (unsigned)bins, draw, from_room, from_room - draw);
    aim_row(1.00, from_room - draw, "room: draw of %u, %u bins, µs more than draw", window, bins);
    fflush(stdout);
}

static void drop_row(uint32_t grid, uint32_t bins)
{
    struct subject of = {NOISY, 512, 512, 12, grid, bins, SMALL_WINDOW};
    struct result r = measure(&of, ONE(MOVE) | ONE(DROP));
    printf("| %2u by %-2u | %4u | %7u | %8.2f | %8.2f |", (unsigned)grid, (unsigned)grid, (unsigned)bins,
           (unsigned)(7 * grid * grid * bins), r.best[MOVE] / 1e3, r.best[DROP] / 1e3);
    ratio(r.best[DROP], r.best[MOVE]);
    printf("\n");
    aim_row(2.00, r.best[DROP] / r.best[MOVE], "room: drop, grid %u, %u bins, of memmove", grid, bins);
    fflush(stdout);
}

static void room_table(void)
{
    static const uint32_t windows[] = {1, SMALL_WINDOW, WINDOW}, bins[] = {128, 1024};
    printf("\n### One room\n\nEight noisy films of 12 bits in a room, microseconds. The last one stored, against prepare:\n\n");
    printf("| side | bins | prepare | store | store of prepare |\n|---|---|---|---|---|\n");
    for (size_t i = 0; i < MANY(sides); i++)
        for (size_t k = 0; k < MANY(bins); k++)
            store_row(sides[i], bins[k]);
    printf("\nA window of the last one drawn from the room, against draw, films of 1024 square:\n\n");
    printf("| window | bins | draw | room draw | more |\n|---|---|---|---|---|\n");
    for (size_t i = 0; i < MANY(windows); i++)
        for (size_t k = 0; k < MANY(bins); k++)
            room_draw_row(windows[i], bins[k]);
    printf("\nThe first one dropped, so that seven move down, against memmove of their entries:\n\n");
    printf("| grid | bins | entries | memmove | drop | drop of memmove |\n|---|---|---|---|---|---|\n");
    drop_row(GRID, 128);
    drop_row(GRID, 1024);
    drop_row(GRID, 4096);
    drop_row(16, 1024);
}

/* ---- the plain engine ---- */

/* It counts four tiles for each pixel. */
static void direct_row(uint32_t side, uint32_t grid, uint32_t bins)
{
    struct subject of = {NOISY, side, side, 12, grid, bins, SMALL_WINDOW};
    struct result r = measure(&of, ONE(ENHANCE) | ONE(DIRECT));
    double direct = r.best[DIRECT], counted = 4 * r.pixels * r.pixels / (grid * grid);
    printf("| %4u | %u by %u | %4u | %8.1f | %8.1f | %8.0f | %7.2f | %6.3f |\n", (unsigned)side, (unsigned)grid,
           (unsigned)grid, (unsigned)bins, r.best[ENHANCE] / 1e3, direct / 1e6, direct / r.best[ENHANCE],
           direct / r.pixels / 1e3, direct / counted);
    fflush(stdout);
}

static void direct_table(void)
{
    static const uint32_t lengths[] = {64, 128, 256}, grids[] = {8, 2}, bins[] = {128, 1024};
    printf("\n### The plain engine\n\n"
           "Direct beside enhance on the same noisy film of 12 bits; the best of %d rounds.\n\n", FEW);
    printf("| side | grid | bins | enhance, µs | direct, ms | direct of enhance | direct, µs a pixel | ns a pixel counted |\n"
           "|---|---|---|---|---|---|---|---|\n");
    for (size_t k = 0; k < MANY(bins); k++)
        for (size_t j = 0; j < MANY(grids); j++)
            for (size_t i = 0; i < MANY(lengths); i++)
                direct_row(lengths[i], grids[j], bins[k]);
}

/* ---- around each pixel ---- */

/* A run takes so long that its memory is there and its caches are warm from its own front: two of them serve, and the better
   one counts. */
static double around_ns(struct bench *b)
{
    double first = run_once(b, AROUND);
    check_around(b);
    double second = run_once(b, AROUND);
    double best = (first < second ? first : second) / (double)b->pixels;
    close_bench(b);
    return best;
}

static void around_row(uint32_t bins, uint32_t region, uint32_t edition, double aim)
{
    struct bench b;
    struct subject of = {NOISY, 4096, 256, 12, GRID, bins, WINDOW};
    open_bench(&b, &of);
    b.region = region;
    b.settings.edition = edition;
    double ns = around_ns(&b);
    printf("| %4u | %2u | %-4s | %8.1f |\n", (unsigned)bins, (unsigned)region, edition == TZ_OURS ? "ours" : "1986", ns);
    aim_row(aim, ns, "around: %u bins, side %u, ns a pixel", bins, region);
    fflush(stdout);
}

/* The greys and the width of a bin stay, and the range grows with the bins: all that are more are empty. The factor grows too,
   so that the limit stays, and the bins that are not empty are clipped alike. */
static void empty_row(uint32_t times)
{
    struct bench b;
    struct subject of = {NOISY, 4096, 256, 8, GRID, BINS * times, WINDOW};
    open_bench(&b, &of);
    b.region = 31;
    b.settings.max = 256 * times - 1;
    b.settings.factor = 3.0f * (float)times;
    printf("| %4u | %4u | %8.1f |\n", (unsigned)b.settings.bins, (unsigned)(BINS * (times - 1)), around_ns(&b));
    fflush(stdout);
}

static void around_table(void)
{
    printf("\n### Around each pixel\n\n"
           "Nanoseconds a pixel of a noisy film of 4096 by 256 and 12 bits, by the bins and the region's side.\n\n");
    printf("| bins | side | edition | ns a pixel |\n|---|---|---|---|\n");
    around_row(128, 7, TZ_OURS, 0);
    around_row(128, 31, TZ_OURS, 150);
    around_row(128, 63, TZ_OURS, 250);
    around_row(1024, 31, TZ_OURS, 300);
    around_row(1024, 63, TZ_OURS, 300);
    around_row(128, 31, TZ_1986, 0);
    printf("\nThe same greys of 8 bits in bins of the same width, side 31, with more and more bins that are empty:\n\n");
    printf("| bins | empty in every region, at least | ns a pixel |\n|---|---|---|\n");
    for (uint32_t times = 1; times <= 16; times *= 2)
        empty_row(times);
}

/* ---- odd sides ---- */

/* Prints a film's times beside those of the square one, where it is not that itself, and gives them. */
static struct result sides_row(uint32_t width, uint32_t height, const struct result *square)
{
    struct subject of = {NOISY, width, height, 12, GRID, BINS, WINDOW};
    struct result r = measure(&of, COUNTS | ONE(ENHANCE) | ONE(PREPARE) | ONE(DRAW));
    const double *best = r.best;
    printf("| %4u by %-4u |", (unsigned)width, (unsigned)height);
    printf(" %8.3f | %8.3f | %8.3f | %8.3f |", best[ENHANCE] / r.pixels, best[PREPARE] / r.pixels,
           (best[ENHANCE] - best[PREPARE]) / r.pixels, best[DRAW] / r.area);
    ratio(best[ENHANCE] / r.pixels, square == NULL ? 0 : square->best[ENHANCE] / square->pixels);
    ratio(best[PREPARE] / r.pixels, square == NULL ? 0 : square->best[PREPARE] / square->pixels);
    printf("\n");
    fflush(stdout);
    return r;
}

static void sides_table(void)
{
    printf("\n### Odd sides\n\n"
           "A film whose sides the grid does not divide, beside the square one: nanoseconds a pixel, noisy, 12 bits.\n\n");
    printf("| sides | enhance | prepare | rendering | draw | enhance of the square one's | prepare of it |\n"
           "|---|---|---|---|---|---|---|\n");
    struct result square = sides_row(4096, 4096, NULL), odd = sides_row(4095, 4093, &square);
    aim_note("prepare 4095 by 4093, of 4096 square", 1.05,
             odd.best[PREPARE] / odd.pixels / (square.best[PREPARE] / square.pixels));
}

/* ---- how time grows ---- */

static void growth_row(const char *grows, uint32_t side, uint32_t grid, uint32_t bins)
{
    struct subject of = {NOISY, side, side, 12, grid, bins, SMALL_WINDOW};
    struct result r = measure(&of, ONE(PREPARE) | ONE(ENHANCE) | ONE(DRAW));
    printf("| %-6s | %4u | %2u by %-2u | %4u | %8.3f | %8.3f | %8.1f |\n", grows, (unsigned)side, (unsigned)grid,
           (unsigned)grid, (unsigned)bins, r.best[PREPARE] / r.pixels, r.best[ENHANCE] / r.pixels, r.best[DRAW] / 1e3);
    fflush(stdout);
}

static void growth_table(void)
{
    static const uint32_t lengths[] = {256, 512, 1024, 2048, 4096};
    static const uint32_t bins[] = {16, 64, 128, 256, 512, 1024, 2048, 4096};
    static const uint32_t grids[] = {2, 4, 8, 16};
    printf("\n### How time grows\n\n"
           "Noisy film of 12 bits. The window drawn is %u by %u.\n\n", SMALL_WINDOW, SMALL_WINDOW);
    printf("| grows | side | grid | bins | prepare, ns a pixel | enhance, ns a pixel | draw, µs a window |\n"
           "|---|---|---|---|---|---|---|\n");
    for (size_t i = 0; i < MANY(lengths); i++)
        growth_row("pixels", lengths[i], GRID, BINS);
    for (size_t i = 0; i < MANY(bins); i++)
        growth_row("bins", 2048, GRID, bins[i]);
    for (size_t i = 0; i < MANY(grids); i++)
        growth_row("tiles", 2048, grids[i], BINS);
}

/* ---- side by side ---- */

/* Ours with one process and with one for each processor, and OpenCV's with one thread and with one for each. */
static void beside_row(uint32_t side, uint32_t bins, const char *opencv)
{
    struct subject of = usual(NOISY, side, 12);
    of.bins = bins;
    int runs = rounds(side);
    double one = beside_ns(&of, 1, runs), all = beside_ns(&of, processors(), runs);
    double their_one = time_of(opencv, &of, "clock"), their_all = time_of(opencv, &of, "threads");
    printf("| %4u | %4u | %8.3f | %8.3f | %8.3f | %8.3f |", (unsigned)side, (unsigned)bins, one, all, their_one, their_all);
    ratio(one, their_one);
    ratio(all, their_all);
    printf("\n");
    fflush(stdout);
}

static void beside_table(const char *opencv)
{
    printf("\n### Side by side\n\n"
           "By the clock, nanoseconds for a pixel: one film by one thread, and %d films at once, each by a process of its own, as\n"
           "`--jobs` renders them; OpenCV at 16 bits with one thread, and with one for each of the %d processors on one film.\n\n",
           processors(), processors());
    printf("| side | bins | one film | films at once | OpenCV, one thread | OpenCV, all | one of one | at once of all |\n"
           "|---|---|---|---|---|---|---|---|\n");
    for (size_t i = 0; i < MANY(sides); i++) {
        beside_row(sides[i], BINS, opencv);
        beside_row(sides[i], 1024, opencv);
    }
}

/* ---- what is asked ---- */

static void write_file(const char *folder, const struct subject *of, const char *form, const uint8_t *file, size_t len)
{
    char path[4096];
    snprintf(path, sizeof path, "%s/%u-%u-%s.%s", folder, (unsigned)of->width, (unsigned)of->bits, film_name(of->kind),
             form);
    FILE *to = fopen(path, "wb");
    if (to == NULL || fwrite(file, 1, len, to) != len || fclose(to) != 0)
        end("a film cannot be written", of->width);
}

static void write_film(const char *folder, const struct subject *of)
{
    struct bench b;
    open_bench(&b, of);
    open_plain(&b);
    write_file(folder, of, "pgm", b.file, b.file_len);
    for (size_t i = 0; i < MANY(text_sides); i++)
        if (of->width == text_sides[i])
            write_file(folder, of, "txt", b.text, b.text_len);
    close_bench(&b);
}

static void films(const char *folder)
{
    for (size_t i = 0; i < MANY(sides); i++)
        for (size_t j = 0; j < MANY(reels); j++) {
            struct subject of = usual(reels[j].kind, sides[i], reels[j].bits);
            write_film(folder, &of);
        }
}

static void run(const char *opencv, const char *netpbm)
{
    films_table();
    station_table(opencv);
    calls_table(opencv);
    bytes_table(opencv);
    comparison();
    bins_table();
    even_table();
    products_table();
    edition_table();
    near_one_table();
    counts_table();
    text_table(netpbm);
    room_table();
    direct_table();
    around_table();
    sides_table();
    growth_table();
    beside_table(opencv);
    aims_table();
}

int main(int argc, char **argv)
{
    if (argc == 3 && strcmp(argv[1], "films") == 0)
        films(argv[2]);
    else if ((argc == 2 || argc == 4) && strcmp(argv[1], "run") == 0)
        run(argv[2], argc == 4 ? argv[3] : NULL);
    else
        end("usage: bench films FOLDER, or bench run [OPENCV.txt NETPBM.txt]", 0);
    return 0;
}
