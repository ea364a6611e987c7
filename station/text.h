/* Text that grows, and names in JSON. */
#ifndef TZ_TEXT_H
#define TZ_TEXT_H

#include <stddef.h>

/* Text that grows in room that is known to be enough. */
struct text {
    char *at;
    size_t len, room;
};

__attribute__((format(printf, 2, 3))) void add(struct text *t, const char *form, ...);

/* A name as a JSON string. A byte that is no UTF-8 becomes the lone surrogate dc80 to dcff, from which Python's
   os.fsencode makes that byte again. A byte of a name becomes six at most. */
void add_name(struct text *t, const char *name);

#endif
