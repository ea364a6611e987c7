#define _XOPEN_SOURCE 700
#include "watch.h"

#include <setjmp.h>
#include <signal.h>
#include <stdio.h>
#include <string.h>
#include <sys/time.h>
#include <time.h>
#include <unistd.h>

#include "messages.h"

/* How often is looked, in millionths of a second of this process's own time. */
#define EVERY 200000

/* What the clock's handler looks at. It runs while the call computes and at no other time, so it meets no half-done work but
   the picture's. No struct lives on its stack, and no function of many arguments is called there: see signals.c. */
static const volatile uint16_t *watched;
static size_t all, enough;
static int shows;
static struct timespec began, at;
static char line[128];
static size_t front; /* of the line, which stays the same */
static sigjmp_buf back;
static volatile sig_atomic_t may_leave;

/* ---- words ---- */

static size_t add_number(uint64_t number, char *to)
{
    char digits[20];
    size_t count = 0, length = 0;
    do
        digits[count++] = (char)('0' + number % 10);
    while ((number /= 10) > 0);
    while (count > 0)
        to[length++] = digits[--count];
    return length;
}

static size_t add_word(const char *word, char *to)
{
    size_t length = 0;
    for (; word[length] != '\0'; length++)
        to[length] = word[length];
    return length;
}

/* Half a unit and more counts as one. */
size_t span_in_words(uint64_t seconds, char *to)
{
    uint64_t unit = seconds < 100 ? 1 : seconds < 6000 ? 60 : seconds < 259200 ? 3600 : 86400;
    size_t length = add_number((seconds + unit / 2) / unit, to);
    length += add_word(unit == 1 ? " s" : unit == 60 ? " min" : unit == 3600 ? " h" : " days", to + length);
    to[length] = '\0';
    return length;
}

/* ---- the handler ---- */

/* What is written stands before what is not. */
static size_t written(void)
{
    size_t low = 0, high = all;
    while (low < high) {
        size_t middle = low + (high - low) / 2;
        if (watched[middle] == UNWRITTEN)
            high = middle;
        else
            low = middle + 1;
    }
    return low;
}

/* The line is written over. */
static void show(size_t done)
{
    size_t length = front;
    clock_gettime(CLOCK_MONOTONIC, &at);
    uint64_t so_far = (uint64_t)((at.tv_sec - began.tv_sec) * 1000 + (at.tv_nsec - began.tv_nsec) / 1000000);
    length += add_number(done * 100 / enough, line + length);
    length += add_word(" %", line + length);
    if (so_far > 1000 && done > 0) {
        length += add_word(", about ", line + length);
        length += span_in_words(so_far * (enough - done) / done / 1000, line + length);
        length += add_word(" left", line + length);
    }
    if (write(STDERR_FILENO, line, length) < 0)
        shows = 0;
}

static void look(int number)
{
    (void)number;
    size_t done = written();
    if (done >= enough && may_leave)
        siglongjmp(back, 1);
    if (shows && done < enough)
        show(done);
}

/* ---- the clock ---- */

static void set_clock(long every)
{
    struct itimerval clock = {.it_interval = {.tv_usec = every}, .it_value = {.tv_usec = every}};
    setitimer(ITIMER_VIRTUAL, &clock, NULL);
}

/* A caller may have this signal held. */
static void start_clock(void)
{
    struct sigaction looks = {.sa_handler = look};
    sigset_t own;
    sigemptyset(&own);
    sigaddset(&own, SIGVTALRM);
    sigaction(SIGVTALRM, &looks, NULL);
    sigprocmask(SIG_UNBLOCK, &own, NULL);
    set_clock(EVERY);
}

/* Names are cut, so that the line stays one. */
static void begin(const char *name, uint16_t *picture, size_t pixels, size_t most)
{
    char safe[40];
    escape(name, safe, sizeof safe);
    front = (size_t)snprintf(line, sizeof line, "\r\033[K%s: rendering, ", safe);
    memset(picture, 255, pixels * sizeof *picture);
    watched = picture;
    all = pixels;
    enough = most;
    shows = progress_stands();
    clock_gettime(CLOCK_MONOTONIC, &began);
}

void watch(const char *name, uint16_t *picture, size_t pixels)
{
    begin(name, picture, pixels, pixels);
    if (shows)
        start_clock();
}

/* Left from the handler, what the call holds is lost; it is lent memory alone. */
uint32_t watch_until(const char *name, uint16_t *picture, size_t pixels, size_t most, uint32_t (*begun)(void *of), void *of)
{
    begin(name, picture, pixels, most);
    if (sigsetjmp(back, 1) != 0)
        return 0;
    may_leave = 1;
    start_clock();
    uint32_t answer = begun(of);
    may_leave = 0;
    return answer;
}

size_t watched_so_far(void) { return written(); }

void end_watch(void)
{
    struct sigaction ignored = {.sa_handler = SIG_IGN};
    may_leave = 0;
    set_clock(0);
    sigaction(SIGVTALRM, &ignored, NULL);
}
