#define _XOPEN_SOURCE 700
#include "guard.h"

#include <stdlib.h>
#include <sys/stat.h>

#include "messages.h"
#include "parts.h"

/* How many of the files that are there are named; the others are counted. */
#define MOST_NAMED 5

/* ---- the inputs ---- */

/* The files that a call reads, whatever their names, in the order of their numbers. */
struct inputs {
    struct stat *at;
    size_t count;
};

static int by_number(const void *a, const void *b)
{
    const struct stat *one = a, *other = b;
    if (one->st_dev != other->st_dev)
        return one->st_dev < other->st_dev ? -1 : 1;
    return one->st_ino < other->st_ino ? -1 : one->st_ino > other->st_ino;
}

/* Files alone: a device or a pipe may well be both ends. */
static int know_inputs(const struct task *tasks, int count, struct inputs *inputs)
{
    inputs->at = calloc((size_t)count, sizeof *inputs->at);
    inputs->count = 0;
    if (inputs->at == NULL)
        return no_memory();
    for (int i = 0; i < count; i++) {
        struct stat *there = &inputs->at[inputs->count];
        if (input_at(tasks[i].in, there) && S_ISREG(there->st_mode))
            inputs->count++;
    }
    qsort(inputs->at, inputs->count, sizeof *inputs->at, by_number);
    return 0;
}

static int is_input(const struct inputs *inputs, const char *name)
{
    struct stat there;
    return output_at(name, &there) && bsearch(&there, inputs->at, inputs->count, sizeof there, by_number) != NULL;
}

/* ---- the outputs ---- */

/* What is to be given in place of an output's: with --into each has the name of its film. */
static const char *another(unsigned given) { return (given & INTO) != 0 ? "folder" : "name"; }

static int over_scan(const char *what, const char *name, unsigned given)
{
    say("the %s would take a scan's place, which --force does not permit either: %s", what, name);
    say_more("Give another %s.%s", another(given), (given & INTO) != 0 ? "" : " Several films want --into FOLDER.");
    return BAD_WORDS;
}

static int check_scans(const struct task *task, const struct inputs *inputs, const struct job *job)
{
    if (is_input(inputs, task->out))
        return over_scan(is_move(job) ? "new film" : "rendering", task->out, job->given);
    if (task->record != NULL && is_input(inputs, task->record))
        return over_scan("record", task->record, job->given);
    if (task->record != NULL && same_place(task->record, task->out))
        return bad_words("the record would take the rendering's place", task->record);
    return 0;
}

/* Whether a name is taken: by a file, or by a link that leads to one or to nothing. */
static int is_taken(const char *name)
{
    struct stat there, behind;
    if (name == NULL || is_standard_output(name) || lstat(name, &there) != 0)
        return 0;
    return stat(name, &behind) != 0 || S_ISREG(behind.st_mode);
}

static int name_taken(const char *name, int before, const struct job *job)
{
    if (!is_taken(name))
        return 0;
    if (before == 0)
        say("nothing was %s, as what is there already is not replaced:", is_move(job) ? "written" : "rendered");
    if (before < MOST_NAMED)
        say_more("%s", name);
    return 1;
}

/* What is there may be a scan, as where a glob that was meant for one film found two: that is told before --force is. */
static int check_taken(const struct task *tasks, int count, const struct job *job)
{
    int taken = 0;
    for (int i = 0; i < count; i++) {
        taken += name_taken(tasks[i].out, taken, job);
        taken += name_taken(tasks[i].record, taken, job);
    }
    if (taken == 0)
        return 0;
    if (taken > MOST_NAMED)
        say_more("and %d more", taken - MOST_NAMED);
    say_more("%sGive another %s, or, where %s, say --force to have %s replaced.",
             (job->given & INTO) != 0 ? "" : "Several films want --into FOLDER. ", another(job->given),
             taken == 1 ? "this is no scan" : "none of them is a scan", taken == 1 ? "it" : "them");
    return BAD_WORDS;
}

int guard(const struct task *tasks, int count, const struct job *job)
{
    struct inputs inputs;
    int code = know_inputs(tasks, count, &inputs);
    for (int i = 0; i < count && code == 0; i++)
        code = tasks[i].out == NULL ? 0 : check_scans(&tasks[i], &inputs, job);
    free(inputs.at);
    if (code == 0 && (job->given & FORCE) == 0)
        code = check_taken(tasks, count, job);
    return code;
}

void clear_beside(const struct task *task)
{
    if (task->out != NULL && !is_standard_output(task->out))
        clear_parts(task->out);
    if (task->record != NULL && !is_standard_output(task->record))
        clear_parts(task->record);
}
