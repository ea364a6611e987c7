/* How far a slow call is: a clock of this process's own looks at the picture that the call writes from the top. */
#ifndef TZ_WATCH_H
#define TZ_WATCH_H

#include <stddef.h>
#include <stdint.h>

/* No grey, which is 4095 at the most: what stands in a watched picture where nothing is written yet. */
#define UNWRITTEN 65535u

/* Fills the picture with it. From then on, while a line of progress stands on the terminal, the line says how far the call is
   and about how long it still takes. */
void watch(const char *name, uint16_t *picture, size_t pixels);

/* The same, and the call is left as soon as so many pixels are written: `begun` is called once, and where it returns by
   itself its answer is this one's. Else it is 0. */
uint32_t watch_until(const char *name, uint16_t *picture, size_t pixels, size_t most, uint32_t (*begun)(void *of), void *of);

void end_watch(void);

/* How many pixels of the picture that was watched last are written: behind watch_until, of a call that was not refused, at least
   one. */
size_t watched_so_far(void);

/* A number of seconds in words, as `40 s`, `25 min`, `6 h` and `4 days`; at most SPAN_TEXT bytes with the last 0. */
#define SPAN_TEXT 32
size_t span_in_words(uint64_t seconds, char *to);

#endif
