/* JSON, read as far as a record needs it. */
#ifndef TZ_JSON_H
#define TZ_JSON_H

#include <stddef.h>
#include <stdint.h>

/* A value inside a text that was found to be JSON. */
struct json {
    const char *at, *end;
};

/* False where the text is no JSON. */
int json_of(const char *text, size_t length, struct json *whole);

/* The member of an object; false where it has none of that name, or the value is no object. */
int json_member(struct json object, const char *name, struct json *out);

/* A string's bytes with a 0 behind them, a lone surrogate dc80 to dcff as the byte that it stands for; false where it is no
   string, is longer than the room, or holds a 0 or another lone surrogate. */
int json_string(struct json value, char *out, size_t room);

/* A whole number of 32 bits; any number; the words true, false and null. */
int json_whole(struct json value, uint32_t *out);
int json_number(struct json value, double *out);
int json_is(struct json value, const char *word);

#endif
