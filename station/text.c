#include "text.h"

#include <stdarg.h>
#include <stdio.h>

void add(struct text *t, const char *form, ...)
{
    va_list rest;
    va_start(rest, form);
    t->len += (size_t)vsnprintf(t->at + t->len, t->room - t->len, form, rest);
    va_end(rest);
}

/* How many bytes at the front of `name` are one character of UTF-8; 0 where they are none. */
static int utf8_length(const unsigned char *name)
{
    /* by the first byte: how many follow it, and what the second one may be */
    static const struct {
        unsigned char from, to, low, high;
        int length;
    } rows[] = {
        {0xc2, 0xdf, 0x80, 0xbf, 2}, {0xe0, 0xe0, 0xa0, 0xbf, 3}, {0xe1, 0xec, 0x80, 0xbf, 3}, {0xed, 0xed, 0x80, 0x9f, 3},
        {0xee, 0xef, 0x80, 0xbf, 3}, {0xf0, 0xf0, 0x90, 0xbf, 4}, {0xf1, 0xf3, 0x80, 0xbf, 4}, {0xf4, 0xf4, 0x80, 0x8f, 4},
    };
    if (name[0] < 0x80)
        return 1;
    for (unsigned i = 0; i < sizeof rows / sizeof rows[0]; i++) {
        if (name[0] < rows[i].from || name[0] > rows[i].to || name[1] < rows[i].low || name[1] > rows[i].high)
            continue;
        for (int k = 2; k < rows[i].length; k++)
            if (name[k] < 0x80 || name[k] > 0xbf)
                return 0;
        return rows[i].length;
    }
    return 0;
}

void add_name(struct text *t, const char *name)
{
    const unsigned char *at = (const unsigned char *)name;
    add(t, "\"");
    while (*at != '\0') {
        int length = utf8_length(at);
        if (length == 0)
            add(t, "\\udc%02x", *at);
        else if (*at == '"' || *at == '\\')
            add(t, "\\%c", *at);
        else if (*at < 0x20 || *at == 0x7f)
            add(t, "\\u%04x", *at);
        else
            add(t, "%.*s", length, (const char *)at);
        at += length == 0 ? 1 : length;
    }
    add(t, "\"");
}
