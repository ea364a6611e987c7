#include "json.h"

#include <stdlib.h>
#include <string.h>

/* Values within one another, at the most. */
#define MOST_DEEP 64

/* ---- is it JSON ---- */

/* Each of these passes over something and returns the place behind it; null where it does not stand there. */

static const char *gap(const char *at, const char *end)
{
    while (at < end && (*at == ' ' || *at == '\t' || *at == '\n' || *at == '\r'))
        at++;
    return at;
}

static const char *byte(const char *at, const char *end, char wanted)
{
    return at != NULL && at < end && *at == wanted ? at + 1 : NULL;
}

static int is_digit(char c) { return c >= '0' && c <= '9'; }

static int hex(char c)
{
    return is_digit(c) ? c - '0' : c >= 'a' && c <= 'f' ? c - 'a' + 10 : c >= 'A' && c <= 'F' ? c - 'A' + 10 : -1;
}

static const char *escaped(const char *at, const char *end)
{
    if (at == end || *at != 'u')
        return at < end && strchr("\"\\/bfnrt", *at) != NULL && *at != '\0' ? at + 1 : NULL;
    for (int i = 1; i <= 4; i++)
        if (end - at <= i || hex(at[i]) < 0)
            return NULL;
    return at + 5;
}

static const char *string(const char *at, const char *end)
{
    at = byte(at, end, '"');
    while (at != NULL && at < end && *at != '"') {
        if ((unsigned char)*at < 0x20)
            return NULL;
        at = *at == '\\' ? escaped(at + 1, end) : at + 1;
    }
    return byte(at, end, '"');
}

static const char *digits(const char *at, const char *end)
{
    const char *first = at;
    while (at != NULL && at < end && is_digit(*at))
        at++;
    return at == first ? NULL : at;
}

static const char *number(const char *at, const char *end)
{
    if (at < end && *at == '-')
        at++;
    at = at < end && *at == '0' ? at + 1 : digits(at, end);
    if (at != NULL && at < end && *at == '.')
        at = digits(at + 1, end);
    if (at != NULL && at < end && (*at == 'e' || *at == 'E')) {
        at++;
        at = digits(at < end && (*at == '+' || *at == '-') ? at + 1 : at, end);
    }
    return at;
}

static const char *word(const char *at, const char *end, const char *wanted)
{
    size_t length = strlen(wanted);
    return (size_t)(end - at) >= length && memcmp(at, wanted, length) == 0 ? at + length : NULL;
}

static const char *value(const char *at, const char *end, int deep);

/* The values between brackets, each behind its name where they are curly. */
static const char *several(const char *at, const char *end, int deep)
{
    char closing = *at == '{' ? '}' : ']';
    int named = *at == '{';
    at = gap(at + 1, end);
    if (byte(at, end, closing) != NULL)
        return at + 1;
    for (;;) {
        if (named) {
            at = string(gap(at, end), end);
            at = at == NULL ? NULL : byte(gap(at, end), end, ':');
        }
        at = at == NULL ? NULL : value(gap(at, end), end, deep + 1);
        if (at == NULL)
            return NULL;
        at = gap(at, end);
        if (byte(at, end, closing) != NULL)
            return at + 1;
        at = byte(at, end, ',');
        if (at == NULL)
            return NULL;
    }
}

static const char *value(const char *at, const char *end, int deep)
{
    if (at == end || deep > MOST_DEEP)
        return NULL;
    switch (*at) {
    case '{':
    case '[':
        return several(at, end, deep);
    case '"':
        return string(at, end);
    case 't':
        return word(at, end, "true");
    case 'f':
        return word(at, end, "false");
    case 'n':
        return word(at, end, "null");
    default:
        return number(at, end);
    }
}

int json_of(const char *text, size_t length, struct json *whole)
{
    const char *end = text + length;
    if (length >= 3 && memcmp(text, "\xef\xbb\xbf", 3) == 0) /* some editors put that before */
        text += 3;
    whole->at = gap(text, end);
    whole->end = value(whole->at, end, 0);
    return whole->end != NULL && gap(whole->end, end) == end;
}

/* ---- what it holds: from here on it is known to be JSON ---- */

int json_member(struct json object, const char *name, struct json *out)
{
    char found[64];
    if (*object.at != '{')
        return 0;
    const char *at = gap(object.at + 1, object.end);
    while (*at == '"') {
        struct json key = {at, string(at, object.end)};
        at = gap(gap(key.end, object.end) + 1, object.end);
        out->at = at;
        out->end = value(at, object.end, 0);
        if (json_string(key, found, sizeof found) && strcmp(found, name) == 0)
            return 1;
        at = gap(out->end, object.end);
        at = *at == ',' ? gap(at + 1, object.end) : at;
    }
    return 0;
}

static uint32_t hex4(const char *at)
{
    uint32_t number = 0;
    for (int i = 0; i < 4; i++)
        number = number * 16 + (uint32_t)hex(at[i]);
    return number;
}

/* The character behind \u, and behind the second one where two make one. 0 where it is none. */
static uint32_t character(const char **at)
{
    uint32_t one = hex4(*at);
    *at += 4;
    if (one < 0xd800 || one > 0xdfff)
        return one;
    if (one <= 0xdbff && (*at)[0] == '\\' && (*at)[1] == 'u' && hex4(*at + 2) >= 0xdc00 && hex4(*at + 2) <= 0xdfff) {
        uint32_t two = hex4(*at + 2);
        *at += 6;
        return 0x10000 + ((one - 0xd800) << 10) + (two - 0xdc00);
    }
    return one >= 0xdc80 && one <= 0xdcff ? one : 0;
}

/* As UTF-8, and how many bytes. */
static int utf8(uint32_t c, char *out)
{
    if (c >= 0xdc80 && c <= 0xdcff) {
        out[0] = (char)(c - 0xdc00);
        return 1;
    }
    if (c < 0x80) {
        out[0] = (char)c;
        return 1;
    }
    int more = c < 0x800 ? 1 : c < 0x10000 ? 2 : 3;
    static const unsigned char first[] = {0, 0xc0, 0xe0, 0xf0};
    for (int i = more; i > 0; i--, c >>= 6)
        out[i] = (char)(0x80 | (c & 0x3f));
    out[0] = (char)(first[more] | c);
    return more + 1;
}

int json_string(struct json value, char *out, size_t room)
{
    static const char letters[] = "bfnrt", meant[] = "\b\f\n\r\t";
    size_t used = 0;
    if (*value.at != '"')
        return 0;
    for (const char *at = value.at + 1; at < value.end - 1;) {
        if (used + 5 > room)
            return 0;
        if (*at != '\\') {
            out[used++] = *at++;
            continue;
        }
        const char *letter = strchr(letters, at[1]);
        if (at[1] == 'u') {
            at += 2;
            uint32_t c = character(&at);
            if (c == 0)
                return 0;
            used += (size_t)utf8(c, out + used);
            continue;
        }
        out[used++] = letter != NULL ? meant[letter - letters] : at[1];
        at += 2;
    }
    out[used] = '\0';
    return 1;
}

int json_number(struct json value, double *out)
{
    char text[64];
    size_t length = (size_t)(value.end - value.at);
    if (length >= sizeof text || (!is_digit(*value.at) && *value.at != '-'))
        return 0;
    memcpy(text, value.at, length);
    text[length] = '\0';
    *out = strtod(text, NULL);
    return 1;
}

int json_whole(struct json value, uint32_t *out)
{
    double number;
    if (!json_number(value, &number) || number < 0 || number > 4294967295.0 || number != (double)(uint32_t)number)
        return 0;
    *out = (uint32_t)number;
    return 1;
}

int json_is(struct json value, const char *wanted)
{
    size_t length = (size_t)(value.end - value.at);
    return strlen(wanted) == length && memcmp(value.at, wanted, length) == 0;
}
