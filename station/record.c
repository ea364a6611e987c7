#include "record.h"

#include <stdlib.h>
#include <string.h>

#include "sha256.h"
#include "text.h"

/* All of a record but the two names is shorter than this: of at most 256 tiles two numbers of at most 15 digits each. */
#define MOST_WITHOUT_NAMES 16384

static void add_file(struct text *t, const char *what, const char *name, const char *digest, size_t count,
                     const tz_sizes *sizes)
{
    add(t, "  \"%s\": {\n    \"file\": ", what);
    add_name(t, name);
    add(t, ",\n    \"sha256\": \"%s\",\n    \"bytes\": %zu,\n    \"width\": %u,\n    \"height\": %u,\n    \"maxval\": %u\n  },\n",
        digest, count, (unsigned)sizes->width, (unsigned)sizes->height, (unsigned)sizes->maxval);
}

/* All settings as used: a grid or the side of regions; bins 0 stands as 128, and a factor that does not count as null. */
static void add_settings(struct text *t, const struct run *run)
{
    const tz_settings *s = &run->settings;
    add(t, "  \"settings\": {\n");
    if (is_around(run))
        add(t, "    \"side\": %u,\n", (unsigned)run->job->side);
    else
        add(t, "    \"across\": %u,\n    \"down\": %u,\n", (unsigned)s->across, (unsigned)s->down);
    add(t, "    \"bins\": %u,\n    \"min\": %u,\n    \"max\": %u,\n", (unsigned)tz_bins_of(s), (unsigned)s->min, (unsigned)s->max);
    add(t, "    \"clip\": %s,\n    \"factor\": ", s->clip ? "true" : "false");
    if (s->clip)
        add(t, "%.9g", (double)s->factor);
    else
        add(t, "null");
    add(t, ",\n    \"edition\": \"%s\",\n    \"by_bytes\": %s\n  },\n", s->edition == TZ_OURS ? "ours" : "1986",
        run->film != NULL ? "true" : "false");
}

static void add_window(struct text *t, const struct run *run)
{
    const tz_window *w = &run->job->window;
    if (run->job->command == WINDOW)
        add(t, "  \"window\": {\"left\": %u, \"top\": %u, \"width\": %u, \"height\": %u},\n", (unsigned)w->left,
            (unsigned)w->top, (unsigned)w->width, (unsigned)w->height);
    else
        add(t, "  \"window\": null,\n");
}

/* One of the two numbers of each tile, tiles row by row. */
static void add_tiles(struct text *t, const struct run *run, const char *what, size_t which, const char *end)
{
    /* at factor 1.0 nothing is clipped, and nothing is listed */
    size_t entries = run->settings.clip && run->settings.factor == 1.0f ? 0 : tz_looks_entries(&run->settings);
    add(t, "    \"%s\": [", what);
    for (size_t i = which; i < entries; i += 2)
        add(t, "%s%llu", i == which ? "" : ", ", (unsigned long long)run->looks[i]);
    add(t, "]%s\n", end);
}

/* Both numbers of all tiles. Regions are as many as pixels, and none are listed. */
static void add_lists(struct text *t, const struct run *run)
{
    if (is_around(run))
        return;
    add(t, ",\n  \"tiles\": {\n");
    add_tiles(t, run, "excess", 0, ",");
    add_tiles(t, run, "looks", 1, "");
    add(t, "  }");
}

static const char *command_name(enum command command)
{
    return command == WINDOW ? "window" : command == DIRECT ? "direct" : command == AROUND ? "around" : "enhance";
}

char *record_text(const struct run *run, const tz_sizes *sizes, const uint8_t *file, size_t count)
{
    char digest[SHA256_TEXT];
    /* a byte of a name becomes six at most */
    struct text t = {NULL, 0, MOST_WITHOUT_NAMES + 6 * (strlen(run->task.in) + strlen(run->task.out))};
    t.at = malloc(t.room);
    if (t.at == NULL)
        return NULL;
    add(&t, "{\n  \"program\": \"tzofnadir\",\n  \"version\": \"%s\",\n  \"command\": \"%s\",\n", TZ_VERSION,
        command_name(run->job->command));
    add_file(&t, "input", run->task.in, run->digest, run->input.len, &run->sizes);
    sha256_text(file, count, digest);
    add_file(&t, "output", run->task.out, digest, count, sizes);
    add_settings(&t, run);
    add_window(&t, run);
    add(&t, "  \"limit\": %u,\n  \"factor_asked\": %.9g,\n  \"factor_used\": %.17g", (unsigned)run->footer.limit,
        (double)run->footer.asked, run->footer.used);
    add_lists(&t, run);
    add(&t, "\n}\n");
    return t.at;
}
