/* Bytes in and bytes out. */
#ifndef TZ_FILES_H
#define TZ_FILES_H

#include <stddef.h>
#include <stdint.h>

#include "places.h"
#include "tzofnadir.h"

/* The largest film at two bytes a sample, and 64 KiB of header. White space in a header may be of any length, so
   some bound has to be drawn; an input above it is not read further. In text a sample has up to six bytes, four digits,
   CR and LF. */
#define MOST_BYTES ((size_t)2 * TZ_MOST_SIDE * TZ_MOST_SIDE + 65536)
#define MOST_PLAIN_BYTES ((size_t)6 * TZ_MOST_SIDE * TZ_MOST_SIDE + 65536)

struct input {
    uint8_t *bytes; /* to be freed */
    size_t len;
    int cut; /* it goes on behind its bound */
};

/* By its first two bytes: a plain PGM, "P2"; and how much of it is read at the most. */
int is_plain(const struct input *in);
size_t bound_of(const struct input *in);

/* The functions below that return a status return 0, or that of a message. */

int read_input(const char *name, struct input *in);

/* False where not all could be written; errno says why. */
int write_all(int to, const uint8_t *bytes, size_t count);

/* Closes, and says whether all went well so far; errno is that of the first fault. */
int close_after(int ok, int to);

/* To standard output, a device or a pipe, and closes it. */
int put_straight(int to, const char *name, const uint8_t *bytes, size_t count);

/* A standard stream that came closed would be the next file to be opened, and messages would land in a film. */
int hold_streams(void);

#endif
