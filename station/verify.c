#define _XOPEN_SOURCE 700
#include "verify.h"

#include <stdio.h>
#include <stdlib.h>
#include <string.h>
#include <sys/stat.h>
#include <unistd.h>

#include "film.h"
#include "messages.h"
#include "recorded.h"

/* A name may be meant from the folder in which the program runs, or from the record's: with its own folders, or without. */
#define WAYS 3

/* What was found of one thing that a record names. */
enum found { UNSEEN, SAME, OTHER, MISSING };

struct verdict {
    const struct recorded *record;
    enum found scan, settings, rendering, file, report;
    char scan_name[MOST_NAME * 2], file_name[MOST_NAME * 2];
};

/* ---- files that a record names ---- */

/* False where the way leads nowhere else than those before it. */
static int way_to(const char *record, const char *name, int way, char *out, size_t room)
{
    const char *slash = strrchr(record, '/');
    int folder = slash == NULL ? 0 : (int)(slash - record) + 1;
    if (way == 0)
        return snprintf(out, room, "%s", name) < (int)room;
    if (way == 1 && (name[0] == '/' || folder == 0))
        return 0;
    return snprintf(out, room, "%.*s%s", folder, record, way == 1 ? name : last_part(name)) < (int)room;
}

/* 0, or the status of a message. A file that is longer than any film has the digest of its front, which is no film's. */
static int digest_of(const char *name, char digest[SHA256_TEXT])
{
    struct input file = {0};
    int code = read_input(name, &file);
    if (code == 0)
        sha256_text(file.bytes, file.len, digest);
    free(file.bytes);
    return code;
}

/* Looks for a file on all ways; the first of this digest is it. Else the first that is there is told, but for the other of
   the record's two files: scan and rendering may have one name in two folders. */
static int look_for(const char *record, const struct recorded_file *wanted, const struct recorded_file *other,
                    enum found *found, char *where, size_t room)
{
    char name[MOST_NAME * 2], digest[SHA256_TEXT];
    struct stat there;
    *found = MISSING;
    for (int way = 0; way < WAYS && *found != SAME && !is_dash(wanted->name); way++) {
        if (!way_to(record, wanted->name, way, name, sizeof name) || stat(name, &there) != 0 || !S_ISREG(there.st_mode))
            continue;
        int code = digest_of(name, digest);
        if (code != 0)
            return code;
        int same = strcmp(digest, wanted->digest) == 0;
        if (!same && way > 0 && strcmp(digest, other->digest) == 0)
            continue;
        if (same || *found == MISSING)
            snprintf(where, room, "%s", name);
        *found = same ? SAME : OTHER;
    }
    return 0;
}

/* The scan that the words name, or the record. */
static int find_scan(const struct job *job, struct verdict *v)
{
    char digest[SHA256_TEXT] = "";
    const struct recorded *r = v->record;
    if (job->scan == NULL)
        return look_for(job->names[0], &r->scan, &r->rendering, &v->scan, v->scan_name, sizeof v->scan_name);
    snprintf(v->scan_name, sizeof v->scan_name, "%s", job->scan);
    int code = digest_of(job->scan, digest);
    v->scan = strcmp(digest, r->scan.digest) == 0 ? SAME : OTHER;
    return code;
}

/* ---- rendered again ---- */

static int same_sizes(const tz_sizes *a, const tz_sizes *b)
{
    return a->width == b->width && a->height == b->height && a->maxval == b->maxval;
}

/* What comes out is not put away, but held to the record. */
static int hold_to_record(struct run *run, const tz_sizes *sizes, size_t count)
{
    char digest[SHA256_TEXT];
    struct verdict *v = run->task.judge;
    const struct recorded *r = v->record;
    const tz_footer *f = &run->footer;
    sha256_text(run->file, count, digest);
    int as_said = same_sizes(&run->sizes, &r->scan.sizes) && same_sizes(sizes, &r->rendering.sizes) &&
                  f->limit == r->footer.limit && f->asked == r->footer.asked && f->used == r->footer.used;
    v->settings = as_said ? SAME : OTHER;
    v->rendering = strcmp(digest, r->rendering.digest) == 0 ? SAME : OTHER;
    return 0;
}

/* Settings that the library refuses are those of no rendering; the refusal is told by then. */
static int render_again(struct verdict *v)
{
    const struct recorded *r = v->record;
    struct job job = {.command = r->has_window ? WINDOW : r->is_around ? AROUND : ENHANCE, .side = r->side,
                      .settings = r->settings, .window = r->window,
                      .given = GRID | BINS | RANGE | CLIP | (r->by_bytes ? BYTES : 0)};
    struct task task = {.in = v->scan_name, .out = r->rendering.name, .which = 1, .of = 1, .keep = hold_to_record, .judge = v};
    int code = run_film(&job, &task);
    if (code == 0 || code > BAD_WORDS)
        return code;
    v->settings = OTHER;
    return 0;
}

/* ---- what is said ---- */

static void say_differences(const char *name, const struct verdict *v)
{
    if (v->scan == OTHER) {
        say("%s: %s is not the scan of the record: its SHA-256 is another", name, v->scan_name);
        say_more("It was altered, or is another film: say --scan FILE where the scan lies elsewhere.");
    }
    if (v->settings == OTHER || v->rendering == OTHER) {
        say("%s: rendered again, the film is not the one of the record", name);
        say_more("The record was altered, or another version made it: it says %s, and this is %s.",
                 v->record->version[0] == '\0' ? "none" : v->record->version, TZ_VERSION);
    }
    if (v->file == OTHER) {
        say("%s: %s is not the rendering of the record: its SHA-256 is another", name, v->file_name);
        say_more("It was altered, or replaced by another rendering: render the scan again.");
    }
    if (v->report == OTHER) {
        say("%s: the report was changed since it was saved: the SHA-256 that it names is not its own", name);
        say_more("Its measurements, marks and pictures may be others: have it sent again, or made again with its film.");
    }
}

/* A report has a seal, and a record has none. */
static enum found seal_of(const struct recorded *r)
{
    return !r->is_sealed ? UNSEEN : strcmp(r->seal, r->sealed) == 0 && r->seal[0] != '\0' ? SAME : OTHER;
}

static int print_verdict(const struct verdict *v)
{
    static const char *const words[] = {"unseen", "same", "other", "missing"};
    char text[MOST_NAME * 5], scan[MOST_NAME * 2], file[MOST_NAME * 2];
    escape(v->scan_name, scan, sizeof scan);
    escape(v->file_name, file, sizeof file);
    int count = snprintf(text, sizeof text, "scan\t%s\t%s\nsettings\t%s\nrendering\t%s\nfile\t%s\t%s\n", words[v->scan],
                         scan, words[v->settings], words[v->rendering], words[v->file], file);
    if (v->report != UNSEEN)
        count += snprintf(text + count, sizeof text - (size_t)count, "report\t%s\n", words[v->report]);
    return put_straight(STDOUT_FILENO, output_name("-"), (const uint8_t *)text, (size_t)count);
}

static int scan_is_gone(const char *name, const struct recorded *r)
{
    if (is_dash(r->scan.name))
        say("%s: the scan came from standard input, and so the record does not name it", name);
    else
        say("%s: its scan is not there: %s", name, r->scan.name);
    say_more("Say --scan FILE where it lies elsewhere.");
    return NO_INPUT;
}

int verify(const struct job *job)
{
    static struct recorded record; /* long names: too large for a stack */
    static struct verdict v;
    int code = read_record(job->names[0], &record);
    if (code != 0)
        return code;
    v = (struct verdict){.record = &record, .report = seal_of(&record)};
    code = find_scan(job, &v);
    if (code == 0 && v.scan == MISSING)
        return scan_is_gone(job->names[0], &record);
    if (code == 0 && v.scan == SAME)
        code = render_again(&v);
    if (code == 0)
        code = look_for(job->names[0], &record.rendering, &record.scan, &v.file, v.file_name, sizeof v.file_name);
    if (code == 0 && (job->given & QUIET) == 0)
        code = print_verdict(&v);
    if (code != 0)
        return code;
    say_differences(job->names[0], &v);
    int as_recorded = v.scan == SAME && v.settings == SAME && v.rendering == SAME && v.file != OTHER && v.report != OTHER;
    return as_recorded ? 0 : NOT_AS_RECORDED;
}
