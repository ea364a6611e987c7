/* The calls of the shared library that the trials of rooms make, found by their names as other languages find them. */
#ifndef ROOM_CALLS_H
#define ROOM_CALLS_H

#include "../../tzofnadir.h"

struct calls {
    __typeof__(&tzofnadir_prepare) prepare;
    __typeof__(&tzofnadir_draw) draw;
    __typeof__(&tzofnadir_room_empty) room_empty;
    __typeof__(&tzofnadir_room_store) room_store;
    __typeof__(&tzofnadir_room_draw) room_draw;
    __typeof__(&tzofnadir_room_drop) room_drop;
    __typeof__(&tz_room_empty) flat_empty;
    __typeof__(&tz_room_store) flat_store;
    __typeof__(&tz_room_draw) flat_draw;
    __typeof__(&tz_room_drop) flat_drop;
};

/* Ends the program where the library cannot be loaded or lacks a name. */
struct calls load_calls(const char *path);

/* Says what was not as expected, with a number, and ends the program. */
__attribute__((noreturn)) void fault(const char *what, unsigned long number);

#endif
