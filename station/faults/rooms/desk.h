/* Films of one size and grid, each prepared alone, and what a room's calls are lent for them, guarded. */
#ifndef DESK_H
#define DESK_H

#include "calls.h"
#include "guarded.h"

#define WIDTH 41u
#define HEIGHT 33u
#define PIXELS ((size_t)WIDTH * HEIGHT)
#define ACROSS 3u
#define DOWN 2u
#define BINS 19u
#define ENTRIES ((size_t)ACROSS * DOWN * BINS) /* of a set */
#define LOOKS (2 * ACROSS * DOWN)
#define FILMS 9u

extern struct calls tz;
extern enum side side; /* on which side of what is lent the guard lies, */
extern int flat;       /* and whether the flat calls are made, or those with structs */
extern unsigned long made, refused; /* calls so far */

struct film {
    uint32_t number;
    struct lent greys; /* may only be read */
    tz_settings settings;
    tz_record record;
    uint16_t map[ENTRIES], whole[PIXELS]; /* its mappings, and all of it drawn */
};

extern struct film films[FILMS];

void make_film(struct film *f, uint32_t i);

struct desk {
    size_t entries, scratch_len, list_len, out_len;
    struct lent map, scratch, list, out, footer;
    struct lent room;                    /* the record, */
    struct lent count, numbers, factors; /* and as the flat calls have it */
};

/* With an empty room and so many entries, and all else of the length that a film wants. */
struct desk open_desk(size_t entries);
void close_desk(struct desk *d);

/* Another length for one of the buffers, straight beside its page again. */
void resize(struct lent *lent, size_t bytes);

/*
 * The calls. Each ends the program where it does not answer as wanted. What is lent is locked where a refusal is wanted, in a
 * draw all but the output in any case.
 */
void store_part(struct desk *d, const struct film *f, size_t pixels, uint32_t wanted);
void store(struct desk *d, const struct film *f, uint32_t wanted);
void draw(struct desk *d, const struct film *f, const tz_window *w, uint32_t wanted);
void drop(struct desk *d, uint32_t number, uint32_t wanted);

/* All three are refused, whatever they are asked. */
void none_of_them(struct desk *d, const struct film *f, uint32_t wanted);

/* Ends the program where the room does not hold these films, in this order, end to end, each drawn as prepared alone. */
void holds(struct desk *d, const struct film *const *open, uint32_t count);

#endif
