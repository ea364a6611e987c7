#include "check.h"

#include <stdio.h>
#include <stdlib.h>
#include <string.h>
#include <unistd.h>

#include "messages.h"
#include "outputs.h"
#include "painting.h"
#include "refuse.h"
#include "watch.h"

/* A film of at most so many steps of the plain engine is painted whole, which takes some seconds. Of a larger one it paints
   the first pixels, and parts as films of their own. */
#define WHOLE_STEPS 10000000000u
#define FIRST_STEPS 4000000000u
#define PART_STEPS 1000000000u
#define PARTS 5

/* What stands in scratch beforehand, so that it shows where an engine leaves it otherwise than the other. */
#define BEFORE 0xA5

/* One film, by both engines. */
struct both {
    const struct run *run;
    tz_window at; /* which part of the run's film it is */
    size_t pixels, compared; /* the first ones of them are compared */
    uint16_t *film, *fast, *plain;
    uint32_t *fast_scratch, *plain_scratch;
    size_t scratch_len;
    uint32_t fast_answer, plain_answer;
    tz_footer fast_footer, plain_footer;
};

/* ---- the two engines ---- */

static void let_both_go(struct both *b)
{
    free(b->film);
    free(b->fast);
    free(b->plain);
    free(b->fast_scratch);
    free(b->plain_scratch);
}

static uint32_t *scratch_of(size_t entries)
{
    uint32_t *at = malloc(entries * sizeof *at);
    if (at != NULL)
        memset(at, BEFORE, entries * sizeof *at);
    return at;
}

/* A part of the run's film, copied out, and memory for both; 0 where there is none. */
static int open_both(struct both *b, const struct run *run, const tz_window *at)
{
    *b = (struct both){.run = run, .at = *at, .pixels = (size_t)at->width * at->height};
    b->compared = b->pixels;
    b->scratch_len = tz_scratch_entries(&run->settings) + 1;
    b->film = malloc(b->pixels * sizeof *b->film);
    b->fast = malloc(b->pixels * sizeof *b->fast);
    b->plain = malloc(b->pixels * sizeof *b->plain);
    b->fast_scratch = scratch_of(b->scratch_len);
    b->plain_scratch = scratch_of(b->scratch_len);
    if (b->film == NULL || b->fast == NULL || b->plain == NULL || b->fast_scratch == NULL || b->plain_scratch == NULL)
        return 0;
    for (uint32_t y = 0; y < at->height; y++)
        memcpy(b->film + (size_t)y * at->width, run->picture + (size_t)(at->top + y) * run->sizes.width + at->left,
               at->width * sizeof *b->film);
    return 1;
}

static void by_fast(struct both *b)
{
    const tz_settings *s = &b->run->settings;
    memcpy(b->fast, b->film, b->pixels * sizeof *b->film);
    b->fast_answer = tzofnadir_enhance(b->at.width, b->at.height, b->fast, b->pixels, s, b->run->map, tz_map_entries(s),
                                       b->fast_scratch, b->scratch_len, &b->fast_footer);
}

static struct painting painting_by(const struct both *b)
{
    return (struct painting){.name = input_name(b->run->task.in), .width = b->at.width, .height = b->at.height,
                             .picture = b->film, .settings = &b->run->settings, .target = b->plain,
                             .scratch = b->plain_scratch, .scratch_len = b->scratch_len};
}

static void by_plain(struct both *b)
{
    struct painting p = painting_by(b);
    b->plain_answer = b->compared < b->pixels ? paint_first(&p, b->compared) : paint(&p);
    b->plain_footer = p.footer;
}

/* ---- what is said where they differ ---- */

static int say_differ(const struct both *b)
{
    say("%s: the engines differ", input_name(b->run->task.in));
    if (b->pixels != b->run->pixels)
        say_more("In the part of %u by %u pixels from column %u, row %u on, rendered as a film of its own:",
                 (unsigned)b->at.width, (unsigned)b->at.height, (unsigned)b->at.left, (unsigned)b->at.top);
    return ENGINES_DIFFER;
}

static int differ_in_answer(const struct both *b)
{
    int code = say_differ(b);
    say_more("The fast one answers %u, the plain one %u: %s", (unsigned)b->fast_answer, (unsigned)b->plain_answer,
             tz_refusal_text(b->fast_answer != TZ_DONE ? b->fast_answer : b->plain_answer));
    return code;
}

static int differ_at(const struct both *b, size_t first, size_t count)
{
    int code = say_differ(b);
    say_more("The first pixel that differs is at column %u, row %u: the fast one gives %u, the plain one %u.",
             (unsigned)(first % b->at.width), (unsigned)(first / b->at.width), (unsigned)b->fast[first],
             (unsigned)b->plain[first]);
    say_more("Of the %zu pixels compared %zu differ.", b->compared, count);
    return code;
}

static int differ_in_footer(const struct both *b)
{
    int code = say_differ(b);
    say_more("The fast one's footer is limit %u, factor asked %.9g, factor used %.17g; the plain one's %u, %.9g, %.17g.",
             (unsigned)b->fast_footer.limit, (double)b->fast_footer.asked, b->fast_footer.used,
             (unsigned)b->plain_footer.limit, (double)b->plain_footer.asked, b->plain_footer.used);
    return code;
}

static int differ_in_scratch(const struct both *b)
{
    int code = say_differ(b);
    say_more("Their pictures and footers are the same, but they leave scratch otherwise.");
    return code;
}

/* ---- the comparison ---- */

static int same_footers(const tz_footer *a, const tz_footer *b)
{
    return a->limit == b->limit && a->asked == b->asked && a->used == b->used;
}

/* A call that was left has no footer yet, and its scratch is at work. */
static int compare(const struct both *b)
{
    size_t first = b->compared, count = 0;
    if (b->fast_answer != b->plain_answer)
        return differ_in_answer(b);
    for (size_t i = b->compared; i-- > 0 && b->fast_answer == TZ_DONE;)
        if (b->fast[i] != b->plain[i]) {
            first = i;
            count++;
        }
    if (count > 0)
        return differ_at(b, first, count);
    if (b->compared < b->pixels)
        return 0;
    if (!same_footers(&b->fast_footer, &b->plain_footer))
        return differ_in_footer(b);
    return memcmp(b->fast_scratch, b->plain_scratch, b->scratch_len * sizeof *b->fast_scratch) == 0 ? 0 : differ_in_scratch(b);
}

/* Both engines on a part of the film, of which the first `most` pixels are compared. */
static int compare_part(const struct run *run, const tz_window *at, size_t most)
{
    struct both b;
    int code = open_both(&b, run, at) ? 0 : no_memory();
    if (code == 0) {
        b.compared = most < b.pixels ? most : b.pixels;
        by_fast(&b);
        by_plain(&b);
        code = compare(&b);
        if (code == 0 && b.fast_answer != TZ_DONE)
            code = refuse(b.fast_answer, run);
    }
    let_both_go(&b);
    return code;
}

/* ---- a large film ---- */

/* The sides of a part: as near to a square as the film lets it, and within its steps. */
static tz_window part_of(const struct run *run)
{
    const tz_settings *s = &run->settings;
    uint64_t tiles = (uint64_t)s->across * s->down, bins = 4 * (uint64_t)tz_bins_of(s);
    uint32_t width = s->across, height = s->down;
    for (int grew = 1; grew;) {
        grew = 0;
        uint64_t pixels = (uint64_t)(width + 1) * (height + 1);
        if (4 * pixels * (pixels / tiles + bins) > PART_STEPS)
            break;
        if (width < run->sizes.width)
            grew = ++width > 0;
        if (height < run->sizes.height)
            grew = ++height > 0;
    }
    return (tz_window){0, 0, width, height};
}

static int compare_parts(const struct run *run, const tz_window *part)
{
    uint32_t right = run->sizes.width - part->width, low = run->sizes.height - part->height;
    const uint32_t places[PARTS][2] = {{0, 0}, {right, 0}, {right / 2, low / 2}, {0, low}, {right, low}};
    int code = 0;
    for (int i = 0; i < PARTS && code == 0; i++) {
        tz_window at = {places[i][0], places[i][1], part->width, part->height};
        progress("%s: part %d of %d", input_name(run->task.in), i + 1, PARTS);
        code = compare_part(run, &at, run->pixels);
    }
    return code;
}

/* ---- the verdict ---- */

static int print_verdict(const struct run *run, const char *where, const char *more)
{
    char words[SETTINGS_TEXT], text[1024];
    settings_words(run, words);
    if ((run->job->given & QUIET) != 0)
        return 0;
    int count = snprintf(text, sizeof text, "both engines agree%s: %u by %u pixels, %s\n%s", where, (unsigned)run->sizes.width,
                         (unsigned)run->sizes.height, words, more);
    end_progress();
    return put_straight(STDOUT_FILENO, output_name("-"), (const uint8_t *)text, (size_t)count);
}

/* The film's own first pixels, and parts as films of their own; and all of it is told. */
static int check_sample(const struct run *run, const struct painting *p, uint64_t steps)
{
    char more[512], words[SPAN_TEXT];
    tz_window whole = {0, 0, run->sizes.width, run->sizes.height}, part = part_of(run);
    size_t most = (size_t)(FIRST_STEPS / (steps / run->pixels)) + 1;
    progress("%s: the first pixels", input_name(run->task.in));
    int code = compare_part(run, &whole, most);
    if (code == 0)
        code = compare_parts(run, &part);
    if (code != 0)
        return code;
    snprintf(more, sizeof more,
             "compared: the film's own first %zu pixels of %zu, row by row from the top\n"
             "compared: %d parts of %u by %u pixels, corners and middle, each rendered as a film of its own\n",
             most, run->pixels, PARTS, (unsigned)part.width, (unsigned)part.height);
    code = print_verdict(run, " on a sample", more);
    span_in_words(painting_seconds(p), words);
    tell("%s: --whole compares all pixels, in about %s", p->name, words);
    return code;
}

int check_engines(struct run *run)
{
    struct painting p = painting_of(run, NULL);
    uint64_t steps = painting_steps(&p);
    tz_window whole = {0, 0, run->sizes.width, run->sizes.height};
    if (steps > WHOLE_STEPS && (run->job->given & WHOLE) == 0)
        return check_sample(run, &p, steps);
    tell_time(&p);
    int code = compare_part(run, &whole, run->pixels);
    return code == 0 ? print_verdict(run, "", "") : code;
}
