#include "films.h"

#include <errno.h>
#include <stdio.h>
#include <stdlib.h>
#include <string.h>
#include <sys/stat.h>

#include "guard.h"
#include "inputs.h"
#include "jobs.h"
#include "messages.h"

/* FOLDER/NAME, and an end behind it; to be freed. */
static char *path_in(const char *folder, const char *name, const char *end)
{
    size_t room = strlen(folder) + strlen(name) + strlen(end) + 2;
    char *path = malloc(room);
    if (path != NULL)
        snprintf(path, room, "%s/%s%s", folder, name, end);
    return path;
}

/* Makes the folder where it is not there; the one that it lies in has to be. */
static int make_folder(const char *folder)
{
    struct stat there;
    if (mkdir(folder, 0777) == 0)
        return 0;
    if (errno != EEXIST)
        return fault(CANNOT_CREATE, "cannot make the folder", folder);
    if (stat(folder, &there) != 0)
        return fault(CANNOT_CREATE, "cannot find the folder", folder);
    if (S_ISDIR(there.st_mode))
        return 0;
    say("%s is no folder", folder);
    say_more("Give the name of a folder behind --into, or one that is not there yet: it is made.");
    return CANNOT_CREATE;
}

/* ---- what is asked of each film ---- */

static void let_go(struct task *tasks, int count)
{
    for (int i = 0; tasks != NULL && i < count; i++) {
        free((char *)tasks[i].out);
        free((char *)tasks[i].record);
    }
    free(tasks);
}

/* A task for each film; to be let go. Null where there is no memory. */
static struct task *tasks_of(const struct job *job, const struct films *films)
{
    int records = (job->given & RECORDS) != 0;
    struct task *tasks = calloc((size_t)films->count, sizeof *tasks);
    for (int i = 0; tasks != NULL && i < films->count; i++) {
        const char *name = last_part(films->names[i]);
        tasks[i] = (struct task){.in = films->names[i], .which = i + 1, .of = films->count};
        tasks[i].out = path_in(job->into, name, "");
        if (records)
            tasks[i].record = path_in(job->into, name, ".json");
        if (tasks[i].out == NULL || (records && tasks[i].record == NULL)) {
            let_go(tasks, i + 1);
            return NULL;
        }
    }
    return tasks;
}

/* ---- the films ---- */

/* What failed, and the status of the worst, which is the greatest: faults stand above refusals, and signals above both. */
static int say_failed(const struct job *job, const struct task *tasks, int count, const unsigned char *codes)
{
    int failed = 0, worst = 0;
    for (int i = 0; i < count; i++) {
        failed += codes[i] != 0;
        worst = codes[i] > worst ? codes[i] : worst;
    }
    const char *done = is_move(job) ? "written" : "rendered";
    if (failed == 0)
        tell("%d %s %s into %s", count, count == 1 ? "film" : "films", done, job->into);
    else
        say("%d of %d films were not %s:", failed, count, done);
    for (int i = 0; i < count; i++)
        if (codes[i] != 0)
            say_more("%s (status %d)", tasks[i].in, codes[i]);
    return worst;
}

static int run_all(const struct job *job, const struct task *tasks, int count)
{
    unsigned char *codes = calloc((size_t)count, sizeof *codes);
    if (codes == NULL)
        return no_memory();
    clear_beside(&tasks[0]);
    run_tasks(job, tasks, count, codes);
    int worst = say_failed(job, tasks, count, codes);
    free(codes);
    return worst;
}

int run_films(const struct job *job)
{
    struct films films;
    struct task *tasks = NULL;
    int code = find_films(job, &films);
    if (code == 0)
        tasks = tasks_of(job, &films);
    if (code == 0)
        code = tasks == NULL ? no_memory() : guard(tasks, films.count, job);
    if (code == 0)
        code = make_folder(job->into);
    if (code == 0)
        code = run_all(job, tasks, films.count);
    let_go(tasks, films.count);
    let_films_go(&films);
    return code;
}
