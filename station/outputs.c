#define _GNU_SOURCE
#include "outputs.h"

#include <errno.h>
#include <fcntl.h>
#include <stdio.h>
#include <stdlib.h>
#include <string.h>
#include <sys/stat.h>
#include <unistd.h>

#include "files.h"
#include "messages.h"
#include "parts.h"

/* ---- where an output will stand ---- */

/* A file is there, and nobody said that it may be replaced. */
static int there_already(const struct output *out)
{
    say("%s is there already, and is left as it was", out->name);
    say_more("Give another name, or, where this is no scan, say --force to have it replaced.");
    return BAD_WORDS;
}

/* A file that is there keeps its mode. */
static int place_over(struct output *out, const struct stat *there)
{
    if (!out->replace)
        return there_already(out);
    if (access(out->name, W_OK) != 0)
        return fault(CANNOT_CREATE, "cannot write", out->name);
    out->has_mode = 1;
    out->mode = (unsigned)there->st_mode & 0777;
    return 0;
}

/* A link is not followed: the film takes its own place, and what it led to is as it was. The system's own links lead to
   files that are open. */
static int place_over_link(const struct output *out)
{
    if (!out->replace)
        return there_already(out);
    if (in_system_folder(out->name))
        return bad_words("this is a link of the system's own, and no file is put in its place", out->name);
    return 0;
}

static int find_place(struct output *out)
{
    struct stat there, behind;
    if (is_standard_output(out->name))
        return 0;
    int is_there = lstat(out->name, &there) == 0;
    if (!is_there && (errno != ENOENT || out->name[0] == '\0'))
        return fault(CANNOT_CREATE, "cannot create", out->name[0] == '\0' ? "a file without a name" : out->name);
    int leads = is_there && stat(out->name, &behind) == 0;
    if (leads && S_ISDIR(behind.st_mode)) {
        errno = EISDIR;
        return fault(CANNOT_CREATE, "cannot replace", out->name);
    }
    if (leads && !S_ISREG(behind.st_mode)) /* a device or a pipe, by a link or not */
        return 0;
    int code = !is_there ? 0 : S_ISREG(there.st_mode) ? place_over(out, &there) : place_over_link(out);
    if (code != 0)
        return code;
    out->fresh = !is_there;
    out->path = strdup(out->name);
    return out->path == NULL ? no_memory() : 0;
}

/* ---- laid down beside it ---- */

/* The mode of the file that is replaced. A file system that keeps no modes may refuse it and have it all the same. */
static int give_mode(int to, const struct output *out)
{
    struct stat made;
    if (!out->has_mode || fchmod(to, (mode_t)out->mode) == 0)
        return 1;
    int why = errno;
    int has_it = fstat(to, &made) == 0 && ((unsigned)made.st_mode & 0777) == out->mode;
    errno = why;
    return has_it;
}

/* Lays an output down in a new file beside its place, flushed. Until all is written nobody may read more than they could
   read of the file that it replaces. Its lock outlives its closing, up to the rename. */
static int lay_beside(struct output *out, int which)
{
    int to = -1;
    int code = find_place(out);
    if (code != 0 || out->path == NULL)
        return code;
    out->part = make_part(which, out->path, out->has_mode ? 0600 : 0666, &to);
    if (out->part == NULL)
        return fault(CANNOT_CREATE, "cannot create a new file beside", out->name);
    out->held = fcntl(to, F_DUPFD_CLOEXEC, 0);
    if (!close_after(out->held >= 0 && write_all(to, out->bytes, out->count) && fsync(to) == 0, to))
        return fault(IO_FAULT, "cannot write", out->name);
    return give_mode(out->held, out) ? 0 : fault(IO_FAULT, "cannot give the replaced file's mode to", out->name);
}

/* ---- given its place ---- */

static int put_out(const struct output *out)
{
    if (is_standard_output(out->name))
        return put_straight(STDOUT_FILENO, output_name(out->name), out->bytes, out->count);
    int to = open(out->name, O_WRONLY | O_CLOEXEC);
    return to < 0 ? fault(CANNOT_CREATE, "cannot open", out->name) : put_straight(to, out->name, out->bytes, out->count);
}

/* Gives the new file its name. Where nothing may be replaced, a file that came there meanwhile is not: the system sees to
   that in one step, but for file systems that cannot. */
static int take_name(const struct output *out)
{
    struct stat there;
    if (out->replace)
        return rename(out->part, out->path);
    int code = renameat2(AT_FDCWD, out->part, AT_FDCWD, out->path, RENAME_NOREPLACE);
    if (code == 0 || (errno != EINVAL && errno != ENOSYS))
        return code;
    if (lstat(out->path, &there) == 0) {
        errno = EEXIST;
        return -1;
    }
    return rename(out->part, out->path);
}

/* What stood there is kept where other outputs follow, since one of them may fail. */
static int put_in_place(struct output *out, int which, int others)
{
    if (others && !out->fresh && (out->aside = keep_aside(out->path)) == NULL)
        return fault(CANNOT_CREATE, "cannot keep what it replaces aside for", out->name);
    if (take_name(out) != 0)
        return errno == EEXIST ? there_already(out) : fault(CANNOT_CREATE, "cannot give its name to", out->name);
    remove_on_stop(which, NULL);
    return 0;
}

/* An output behind this one failed: what stood in its place comes back. */
static void take_back(struct output *out, int placed)
{
    int failed = 0;
    if (out->aside != NULL) { /* two names of one file stay two, so the other is removed */
        failed = rename(out->aside, out->path) != 0;
        if (!failed)
            unlink(out->aside);
    } else if (placed && out->fresh)
        failed = unlink(out->path) != 0;
    if (failed)
        fault(CANNOT_CREATE, "this is no record of the film that is there: cannot take back", out->name);
    free(out->aside);
    out->aside = NULL;
}

/* All outputs have their places: what stood there goes. */
static void give_up_old(struct output *out)
{
    if (out->aside != NULL)
        unlink(out->aside);
    free(out->aside);
    out->aside = NULL;
}

/* The files get their places, all or none. */
static int place_files(struct output *outs, int count)
{
    int code = 0, placed = 0;
    hold_signals();
    for (; placed < count && code == 0; placed += code == 0)
        if (outs[placed].path != NULL)
            code = put_in_place(&outs[placed], placed, placed + 1 < count);
    for (int i = 0; i <= placed && i < count && code != 0; i++)
        if (outs[i].path != NULL)
            take_back(&outs[i], i < placed);
    for (int i = 0; i < count; i++)
        give_up_old(&outs[i]);
    heed_signals();
    return code;
}

/* ---- flushed ---- */

/* Has the folder's entry flushed, so that a power cut leaves the new name. A file system that flushes no folders has to do
   without, and so has a folder that may not be read, which is told. */
static int flush_folder(const struct output *out)
{
    static const char may_undo[] = "the output is whole, and a power cut may undo it: cannot flush the folder of";
    if (out->path == NULL)
        return 0;
    char *folder = folder_of(out->path, 0);
    if (folder == NULL)
        return no_memory();
    int of = open(folder, O_RDONLY | O_DIRECTORY | O_CLOEXEC);
    free(folder);
    if (of < 0)
        return fault(errno == EACCES ? 0 : IO_FAULT, may_undo, out->name);
    return close_after(fsync(of) == 0 || errno == EINVAL, of) ? 0 : fault(IO_FAULT, may_undo, out->name);
}

static void let_go(struct output *out, int which)
{
    if (out->part != NULL && stays_to_be_removed(which))
        unlink(out->part);
    remove_on_stop(which, NULL);
    if (out->held >= 0)
        close(out->held);
    free(out->part);
    free(out->path);
}

int put_outputs(struct output *outs, int count)
{
    int code = 0;
    for (int i = 0; i < count; i++)
        outs[i].held = -1;
    for (int i = 0; i < count && code == 0; i++)
        code = lay_beside(&outs[i], i);
    for (int i = 0; i < count && code == 0; i++)
        if (outs[i].path == NULL)
            code = put_out(&outs[i]);
    if (code == 0)
        code = place_files(outs, count);
    for (int i = 0; i < count && code == 0; i++)
        code = flush_folder(&outs[i]);
    for (int i = 0; i < count; i++)
        let_go(&outs[i], i);
    return code;
}
