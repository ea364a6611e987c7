#define _XOPEN_SOURCE 700
#include "signals.h"

#include <errno.h>
#include <signal.h>
#include <stddef.h>
#include <sys/wait.h>
#include <unistd.h>

static char *volatile removed[MOST_REMOVED];
static volatile int children[MOST_CHILDREN];

/* The signals that ask and are not ignored, and those that were held before these. */
static sigset_t asking, held_before;

/* Each process removes its own files, and has done so when this one ends. The signal's usual end comes behind: SA_RESETHAND
   has set it back, and it waits until this function is left. No struct lives in here: under the toolchain's emulator a
   handler that had one ended in SEGV. */
static void stop(int signal_number)
{
    for (int i = 0; i < MOST_CHILDREN; i++)
        if (children[i] > 0)
            kill(children[i], signal_number);
    for (int i = 0; i < MOST_CHILDREN; i++)
        if (children[i] > 0)
            waitpid(children[i], NULL, 0);
    for (int i = 0; i < MOST_REMOVED; i++)
        if (removed[i] != NULL)
            unlink(removed[i]);
    raise(signal_number);
}

/* A closed pipe or a file that may not grow is to be an error of write, told as such, and not a sudden end. What the
   caller has this program ignore stays ignored. */
void watch_signals(void)
{
    static const int asked[] = {SIGHUP, SIGINT, SIGQUIT, SIGTERM, SIGALRM, SIGXCPU, SIGUSR1};
    struct sigaction ignored = {.sa_handler = SIG_IGN}, before;
    struct sigaction stopped = {.sa_handler = stop, .sa_flags = (int)SA_RESETHAND};
    sigaction(SIGPIPE, &ignored, NULL);
    sigaction(SIGXFSZ, &ignored, NULL);
    sigemptyset(&asking);
    for (unsigned i = 0; i < sizeof asked / sizeof asked[0]; i++)
        if (sigaction(asked[i], NULL, &before) == 0 && before.sa_handler != SIG_IGN)
            sigaddset(&asking, asked[i]);
    stopped.sa_mask = asking;
    for (unsigned i = 0; i < sizeof asked / sizeof asked[0]; i++)
        if (sigismember(&asking, asked[i]) == 1)
            sigaction(asked[i], &stopped, NULL);
}

void remove_on_stop(int which, char *name) { removed[which] = name; }

int stays_to_be_removed(int which) { return removed[which] != NULL; }

void end_on_stop(int which, int process) { children[which] = process; }

void forget_on_stop(void)
{
    for (int i = 0; i < MOST_REMOVED; i++)
        removed[i] = NULL;
    for (int i = 0; i < MOST_CHILDREN; i++)
        children[i] = 0;
}

void hold_signals(void)
{
    int why = errno;
    sigprocmask(SIG_BLOCK, &asking, &held_before);
    errno = why;
}

void heed_signals(void)
{
    int why = errno;
    sigprocmask(SIG_SETMASK, &held_before, NULL);
    errno = why;
}
