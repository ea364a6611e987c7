#define _POSIX_C_SOURCE 200809L
#include "beside.h"

#include <stdlib.h>
#include <sys/wait.h>
#include <time.h>
#include <unistd.h>

enum { MOST_RUNS = 128 };

int processors(void) { return (int)sysconf(_SC_NPROCESSORS_ONLN); }

static double clock_ns(void)
{
    struct timespec t;
    clock_gettime(CLOCK_MONOTONIC, &t);
    return (double)t.tv_sec * 1e9 + (double)t.tv_nsec;
}

static double median(double *times, int runs)
{
    for (int i = 1; i < runs; i++)
        for (int j = i; j > 0 && times[j] < times[j - 1]; j--) {
            double t = times[j];
            times[j] = times[j - 1];
            times[j - 1] = t;
        }
    return times[runs / 2];
}

/* One process: it says that it is ready, waits for the word to go, and tells its median. */
static void render_one(const struct subject *of, int runs, int ready, int go, int told)
{
    static double times[MOST_RUNS];
    struct bench b;
    char word = 0;
    open_bench(&b, of);
    lay_out(&b);
    if (call_enhance(&b) != 0 || write(ready, &word, 1) != 1 || read(go, &word, 1) != 1)
        _exit(1);
    for (int i = 0; i < runs; i++) {
        lay_out(&b);
        double began = clock_ns();
        if (call_enhance(&b) != 0)
            _exit(1);
        times[i] = clock_ns() - began;
    }
    double middle = median(times, runs);
    _exit(write(told, &middle, sizeof middle) == sizeof middle ? 0 : 1);
}

static void open_pipe(int ends[2])
{
    if (pipe(ends) != 0)
        end("no pipe is to be had", 0);
}

double beside_ns(const struct subject *of, int many, int runs)
{
    int ready[2], go[2], told[2], status;
    double sum = 0, middle;
    char word = 0;
    runs = runs < MOST_RUNS ? runs : MOST_RUNS;
    open_pipe(ready), open_pipe(go), open_pipe(told);
    for (int i = 0; i < many; i++)
        if (fork() == 0)
            render_one(of, runs, ready[1], go[0], told[1]);
    close(ready[1]), close(told[1]);
    for (int i = 0; i < many; i++)
        if (read(ready[0], &word, 1) != 1)
            end("a process beside did not begin", i);
    for (int i = 0; i < many; i++)
        if (write(go[1], &word, 1) != 1)
            end("a process beside was not told to go", i);
    for (int i = 0; i < many; i++) {
        if (read(told[0], &middle, sizeof middle) != sizeof middle)
            end("a process beside did not end well", i);
        sum += middle;
    }
    for (int i = 0; i < many; i++)
        waitpid(-1, &status, 0);
    close(ready[0]), close(told[0]), close(go[0]), close(go[1]);
    return sum / many / many / ((double)of->width * of->height);
}
