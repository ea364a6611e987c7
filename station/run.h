/* One film on its way through a command: what is asked of it, what is worked on, and what came out. */
#ifndef TZ_RUN_H
#define TZ_RUN_H

#include "files.h"
#include "greys.h"
#include "sha256.h"
#include "tzofnadir.h"
#include "words.h"

struct run;

/* What a job asks of one film. */
struct task {
    const char *in, *out, *record; /* out and record are null where none is asked for */
    int which, of;                 /* of how many films it is the how manieth */
    /* what is done with the rendering, of these sizes and this many bytes, in place of putting it away; and for whom */
    int (*keep)(struct run *run, const tz_sizes *sizes, size_t count);
    void *judge;
};

/* All memory of a run. What is null was not needed; everything is freed at one place. */
struct run {
    const struct job *job;
    struct task task;
    tz_settings settings; /* as used: range and bins are settled by the film where none are given */
    struct input input;
    char digest[SHA256_TEXT]; /* of the input, for a record */
    tz_sizes sizes;
    uint16_t *picture; /* the film's greys, and then the rendering */
    size_t pixels;
    struct greys seen; /* of the film, before it is rendered */
    uint8_t *film; /* with --bytes, the film as bytes: its raster, inside the input, or */
    uint8_t *narrow; /* those of a plain file, whose raster is text */
    uint16_t *map;
    uint8_t *byte_map;
    uint32_t *scratch;
    uint64_t *looks; /* of each tile, its excess and the looks of its leftover walk */
    uint16_t *drawn; /* the window's pixels, or those that were worked out one by one */
    uint8_t *byte_drawn;
    uint8_t *file; /* the output */
    char *record; /* or what is printed of the film */
    tz_footer footer;
};

/* Whether each pixel has a region of its own, in the place of the grid. */
int is_around(const struct run *run);

/* The pixels by which a factor and bins are judged: those of the least tile, or of a whole region, as nearly all have it. */
uint32_t judged_pixels(const struct run *run);

/* Of the settings what is no number as it stands: the grid or the side with its option, and the factor or `off`. */
struct worded {
    char place[48], clip[32];
};

struct worded worded_of(const struct run *run);

/* Settings as words that give the same film again. */
#define SETTINGS_TEXT 160
void settings_words(const struct run *run, char text[SETTINGS_TEXT]);

/* The numbers of tiles that fit a side of this many pixels, as text. */
void grids_that_fit(uint32_t side, char *text, size_t room);

#endif
