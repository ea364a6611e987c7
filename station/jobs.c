#define _GNU_SOURCE
#include "jobs.h"

#include <errno.h>
#include <poll.h>
#include <stdlib.h>
#include <string.h>
#include <sys/wait.h>
#include <time.h>
#include <unistd.h>

#include "film.h"
#include "messages.h"
#include "signals.h"

/* A process at work on a film. What it says comes through a pipe and is kept until it has ended. */
struct worker {
    int process; /* 0: none */
    int from;    /* the pipe's end */
    int task;
    char *said;
    size_t length, room;
};

struct work {
    const struct job *job;
    const struct task *tasks;
    int count, begun, done;
    unsigned char *codes;
    struct timespec start;
    struct worker workers[MOST_CHILDREN];
    int at_once;
};

/* ---- progress ---- */

static double seconds_since(const struct timespec *start)
{
    struct timespec now;
    clock_gettime(CLOCK_MONOTONIC, &now);
    return (double)(now.tv_sec - start->tv_sec) + (double)(now.tv_nsec - start->tv_nsec) / 1e9;
}

/* The time left is what the films so far took, for those that are left. */
static void tell_done(const struct work *work)
{
    double each = work->done == 0 ? 0 : seconds_since(&work->start) / work->done;
    if (work->done == 0)
        progress("%d of %d films done", work->done, work->count);
    else
        progress("%d of %d films done, %.0f s left", work->done, work->count, each * (work->count - work->done));
}

/* ---- a process ---- */

/* The process's own life: its messages go into the pipe, and nothing of the others is its business. */
static void live(const struct work *work, int task, int into)
{
    forget_on_stop();
    heed_signals();
    if (dup2(into, STDERR_FILENO) < 0)
        _exit(IO_FAULT);
    close(into);
    tell_progress(); /* a pipe is no terminal */
    _exit(run_film(work->job, &work->tasks[task]));
}

/* False where no process can be made now. */
static int start(struct work *work, int which, int task)
{
    struct worker *w = &work->workers[which];
    int ends[2];
    if (pipe(ends) != 0)
        return 0;
    hold_signals();
    int process = fork();
    if (process == 0) {
        close(ends[0]);
        live(work, task, ends[1]);
    }
    if (process > 0)
        end_on_stop(which, process);
    heed_signals();
    close(ends[1]);
    if (process < 0) {
        close(ends[0]);
        return 0;
    }
    *w = (struct worker){.process = process, .from = ends[0], .task = task};
    return 1;
}

/* Fills the places that are free. Where no process can be made while others run, one of these ends first; where none runs
   there is no way to render the film. */
static void start_some(struct work *work)
{
    for (int i = 0; i < work->at_once && work->begun < work->count; i++) {
        if (work->workers[i].process != 0)
            continue;
        int started = start(work, i, work->begun);
        if (!started && work->begun > work->done)
            return;
        if (!started) {
            const char *film = work->tasks[work->begun].in;
            work->codes[work->begun] = (unsigned char)fault(NO_MEMORY, "cannot start a process for", film);
            work->done++;
        }
        work->begun++;
    }
}

/* ---- what it says ---- */

/* False at the end of it. Without memory what was said is lost, and the status still tells. */
static int hear(struct worker *w)
{
    if (w->room - w->length < 4096) {
        char *more = realloc(w->said, w->room + 65536);
        if (more == NULL)
            return 0;
        w->said = more;
        w->room += 65536;
    }
    ssize_t got = read(w->from, w->said + w->length, w->room - w->length);
    if (got < 0)
        return errno == EINTR;
    w->length += (size_t)got;
    return got > 0;
}

static int status_of(struct worker *w)
{
    int status = 0;
    while (waitpid(w->process, &status, 0) < 0)
        if (errno != EINTR)
            return IO_FAULT;
    return WIFEXITED(status) ? WEXITSTATUS(status) : 128 + WTERMSIG(status);
}

/* The film is done: its messages, all together. */
static void finish(struct work *work, int which)
{
    struct worker *w = &work->workers[which];
    int code = status_of(w);
    end_on_stop(which, 0);
    close(w->from);
    pass_on(w->said, w->length);
    if (code > 128)
        say("%s: its process was ended by signal %d", work->tasks[w->task].in, code - 128);
    work->codes[w->task] = (unsigned char)code;
    work->done++;
    free(w->said);
    *w = (struct worker){0};
}

/* Waits until a process says something or ends. */
static void attend(struct work *work)
{
    struct pollfd files[MOST_CHILDREN];
    int whose[MOST_CHILDREN], count = 0;
    for (int i = 0; i < work->at_once; i++)
        if (work->workers[i].process != 0) {
            files[count] = (struct pollfd){.fd = work->workers[i].from, .events = POLLIN};
            whose[count++] = i;
        }
    if (poll(files, (unsigned long)count, -1) < 0)
        return;
    for (int i = 0; i < count; i++)
        if (files[i].revents != 0 && !hear(&work->workers[whose[i]]))
            finish(work, whose[i]);
}

/* ---- all of them ---- */

static int at_once(const struct job *job)
{
    long wanted = (job->given & JOBS) != 0 ? (long)job->jobs : sysconf(_SC_NPROCESSORS_ONLN);
    return wanted < 1 ? 1 : wanted > MOST_CHILDREN ? MOST_CHILDREN : (int)wanted;
}

void run_tasks(const struct job *job, const struct task *tasks, int count, unsigned char *codes)
{
    struct work work = {.job = job, .tasks = tasks, .count = count, .codes = codes, .at_once = at_once(job)};
    clock_gettime(CLOCK_MONOTONIC, &work.start);
    while (work.done < count) {
        start_some(&work);
        tell_done(&work);
        if (work.begun > work.done)
            attend(&work);
    }
    end_progress();
}
