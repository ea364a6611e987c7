/*
 * main.c: the command line over tzofnadir.h. usage.c has its words.
 *
 * Whatever the proved library checks is left to it. What stands below uses nothing of what stands above, not in its includes
 * either (station/faults/order.sh):
 *
 *   several films   films.c, verify.c           into a folder; a record held to its scan
 *                   recorded.c                  a record, read
 *                   inputs.c, jobs.c            where films come from, and several at once
 *   one film        film.c                      one film through the calls
 *                   check.c                     the fast engine held to the plain one
 *                   guard.c                     no scan is overwritten
 *                   refuse.c, advice.c          what is said of a film: refusals and warnings
 *                   record.c, png.c             what is written down of it, and made of it
 *                   painting.c, watch.c         films painted pixel by pixel; how long that takes, and how far it is
 *                   run.c, front.c              what a film's run holds; a file's header and samples, read for a message
 *                   bins.c, greys.c             bins that are chosen; the greys of a film
 *   files           outputs.c, parts.c          put away whole
 *                   files.c, places.c           bytes and names
 *   words           words.c                     the command line, read
 *                   messages.c, signals.c, text.c, json.c, sha256.c, usage.c
 */
#include <string.h>
#include <unistd.h>

#include "files.h"
#include "film.h"
#include "films.h"
#include "guard.h"
#include "messages.h"
#include "signals.h"
#include "usage.h"
#include "verify.h"
#include "words.h"

static int print(const char *text)
{
    return put_straight(STDOUT_FILENO, output_name("-"), (const uint8_t *)text, strlen(text));
}

int main(int argc, char **argv)
{
    struct job job = {.side = 31, .settings = {.across = 8, .down = 8, .clip = 1, .factor = 3.0f}};
    if (hold_streams() != 0)
        return IO_FAULT;
    watch_signals();
    int code = words(argc, argv, &job);
    if (code != 0)
        return code;
    if (job.command == HELP)
        return print(usage);
    if (job.command == VERSION)
        return print("tzofnadir " TZ_VERSION "\n");
    if ((job.given & QUIET) != 0)
        tell_nothing();
    tell_progress();
    if (job.command == VERIFY)
        return verify(&job);
    if ((job.given & INTO) != 0)
        return run_films(&job);
    struct task task = {.in = job.names[0], .out = (job.given & OUTPUT) != 0 ? job.out : job.count > 1 ? job.names[1] : NULL,
                        .record = job.record, .which = 1, .of = 1};
    code = guard(&task, 1, &job);
    if (code != 0)
        return code;
    clear_beside(&task);
    return run_film(&job, &task);
}
