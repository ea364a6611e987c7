/*
 * A plain list of films, each prepared alone in memory of its own, and beside it what a room that stored the same films has to
 * hold: each entry of its buffer and each field of its record.
 */
#ifndef ROOM_LIST_H
#define ROOM_LIST_H

#include <stddef.h>

#include "../../tzofnadir.h"

#define MOST_SIDE_HERE 48u
#define MOST_PIXELS ((size_t)MOST_SIDE_HERE * MOST_SIDE_HERE)
#define MOST_ENTRIES ((size_t)65536) /* of a set, and of a room's buffer */
#define MOST_SCRATCH 256u
#define MOST_LOOKS 512u

struct film {
    uint32_t number, width, height;
    tz_settings settings;
    tz_record record; /* as prepare left it */
    uint16_t greys[MOST_PIXELS];
    uint16_t map[MOST_ENTRIES]; /* its mappings, and what lay behind them */
};

struct list {
    struct film *films[TZ_ROOM_SETS];
    uint32_t count;
    size_t entries; /* of the room's buffer */
    uint16_t buffer[MOST_ENTRIES];
    tz_room room;
};

/* The film of this number, or null. */
struct film *film_of(const struct list *l, uint32_t number);

/* The entries that the films take, end to end. */
size_t taken(const struct list *l);

/* Behind the last film, which was prepared with a copy of what is free as its map. */
void list_add(struct list *l, struct film *f);

/* The film's set is taken out and the later ones move down. */
void list_remove(struct list *l, struct film *f);

#endif
