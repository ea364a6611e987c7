#include "recorded.h"

#include <stdlib.h>
#include <string.h>

#include "files.h"
#include "json.h"
#include "messages.h"

/* ---- members ---- */

/* Each returns the name of what is missing or no such value; null where all is there. */

static const char *whole_member(struct json object, const char *name, uint32_t *out)
{
    struct json value;
    return json_member(object, name, &value) && json_whole(value, out) ? NULL : name;
}

static const char *read_sizes(struct json object, tz_sizes *out)
{
    const char *missing = whole_member(object, "width", &out->width);
    if (missing == NULL)
        missing = whole_member(object, "height", &out->height);
    return missing != NULL ? missing : whole_member(object, "maxval", &out->maxval);
}

static int read_digest(struct json value, char *out)
{
    char text[2 * SHA256_TEXT];
    if (!json_string(value, text, sizeof text) || strlen(text) != SHA256_TEXT - 1)
        return 0;
    memcpy(out, text, SHA256_TEXT);
    return 1;
}

static const char *read_file(struct json record, const char *what, struct recorded_file *out)
{
    struct json file, value;
    if (!json_member(record, what, &file))
        return what;
    if (!json_member(file, "file", &value) || !json_string(value, out->name, sizeof out->name))
        return "file";
    if (!json_member(file, "sha256", &value) || !read_digest(value, out->digest))
        return "sha256";
    return read_sizes(file, &out->sizes);
}

/* A factor is read as the command line reads it: as a float, from its own text. */
static const char *read_factor(struct json settings, tz_settings *out)
{
    struct json value;
    double factor = 0;
    if (!json_member(settings, "clip", &value) || (!json_is(value, "true") && !json_is(value, "false")))
        return "clip";
    out->clip = json_is(value, "true");
    if (!json_member(settings, "factor", &value) || (out->clip ? !json_number(value, &factor) : !json_is(value, "null")))
        return "factor";
    out->factor = (float)factor;
    return NULL;
}

/* Records were made before there was another edition than ours: one that says nothing of it is of ours. */
static const char *read_edition(struct json settings, tz_settings *out)
{
    struct json value;
    char word[8];
    out->edition = TZ_OURS;
    if (!json_member(settings, "edition", &value))
        return NULL;
    if (!json_string(value, word, sizeof word) || (strcmp(word, "ours") != 0 && strcmp(word, "1986") != 0))
        return "edition";
    out->edition = strcmp(word, "1986") == 0 ? TZ_1986 : TZ_OURS;
    return NULL;
}

/* A grid, or in its place the side of the region around each pixel; a record that has both is none. */
static const char *read_place(struct json settings, struct recorded *out)
{
    struct json value;
    tz_settings *to = &out->settings;
    out->is_around = json_member(settings, "side", &value);
    if (out->is_around && (json_member(settings, "across", &value) || json_member(settings, "down", &value)))
        return "side";
    if (out->is_around)
        return whole_member(settings, "side", &out->side);
    const char *missing = whole_member(settings, "across", &to->across);
    return missing != NULL ? missing : whole_member(settings, "down", &to->down);
}

static const char *read_settings(struct json record, struct recorded *out)
{
    struct json s, value;
    tz_settings *to = &out->settings;
    const struct {
        const char *name;
        uint32_t *to;
    } rows[] = {{"bins", &to->bins}, {"min", &to->min}, {"max", &to->max}};
    if (!json_member(record, "settings", &s))
        return "settings";
    const char *place = read_place(s, out);
    if (place != NULL)
        return place;
    for (unsigned i = 0; i < sizeof rows / sizeof rows[0]; i++)
        if (whole_member(s, rows[i].name, rows[i].to) != NULL)
            return rows[i].name;
    out->by_bytes = json_member(s, "by_bytes", &value) && json_is(value, "true");
    if (out->by_bytes && out->is_around) /* there is no such call */
        return "by_bytes";
    const char *missing = read_factor(s, to);
    return missing != NULL ? missing : read_edition(s, to);
}

static const char *read_window(struct json record, struct recorded *out)
{
    struct json w;
    tz_window *to = &out->window;
    if (!json_member(record, "window", &w) || json_is(w, "null"))
        return NULL;
    if (out->is_around) /* no part alone is rendered so */
        return "window";
    out->has_window = 1;
    return whole_member(w, "left", &to->left) != NULL || whole_member(w, "top", &to->top) != NULL ||
                   whole_member(w, "width", &to->width) != NULL || whole_member(w, "height", &to->height) != NULL
               ? "window"
               : NULL;
}

static const char *read_footer(struct json record, tz_footer *out)
{
    struct json value;
    double asked;
    if (whole_member(record, "limit", &out->limit) != NULL)
        return "limit";
    if (!json_member(record, "factor_asked", &value) || !json_number(value, &asked))
        return "factor_asked";
    out->asked = (float)asked;
    return json_member(record, "factor_used", &value) && json_number(value, &out->used) ? NULL : "factor_used";
}

static const char *read_all(struct json record, struct recorded *out)
{
    struct json value;
    if (!json_member(record, "version", &value) || !json_string(value, out->version, sizeof out->version))
        out->version[0] = '\0';
    const char *missing = read_file(record, "input", &out->scan);
    if (missing == NULL)
        missing = read_file(record, "output", &out->rendering);
    if (missing == NULL)
        missing = read_settings(record, out);
    if (missing == NULL)
        missing = read_window(record, out);
    return missing != NULL ? missing : read_footer(record, &out->footer);
}

/* A report's last member has the digest of all bytes before its own line (docs/MEASURE.md). Where more stands behind it than
   the page writes, no digest is right. */
static void read_seal(const struct input *file, struct json whole, struct recorded *out)
{
    struct json value;
    const char *text = (const char *)file->bytes, *end = text + file->len;
    if (!json_member(whole, "report_sha256", &value))
        return;
    out->is_sealed = 1;
    const char *line = value.at;
    while (line > text && line[-1] != '\n')
        line--;
    if (!read_digest(value, out->seal) || end - value.end != 3 || memcmp(value.end, "\n}\n", 3) != 0)
        return;
    sha256_text(file->bytes, (size_t)(line - text), out->sealed);
}

/* ---- the file ---- */

static int no_record(const char *name, const char *why, const char *what)
{
    say("%s is no record of a rendering: %s%s", name, why, what);
    say_more("A record is the JSON that --record or --records writes, or that the reading page saves.");
    return NO_RECORD;
}

int read_record(const char *name, struct recorded *out)
{
    struct input file = {0};
    struct json whole;
    const char *missing;
    memset(out, 0, sizeof *out);
    int code = read_input(name, &file);
    if (code == 0 && file.cut)
        code = no_record(input_name(name), "it is too long", "");
    else if (code == 0 && (file.len == 0 || !json_of((const char *)file.bytes, file.len, &whole)))
        code = no_record(input_name(name), "it is no JSON", "");
    else if (code == 0 && (missing = read_all(whole, out)) != NULL)
        code = no_record(input_name(name), "it does not say, or not as a record does: ", missing);
    else if (code == 0)
        read_seal(&file, whole, out);
    free(file.bytes);
    return code;
}
