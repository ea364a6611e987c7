#include "messages.h"

#include <errno.h>
#include <stdarg.h>
#include <stdio.h>
#include <string.h>
#include <unistd.h>

/* The longest name that the system takes, and a sentence. */
#define MOST_LINE 5120

static int silent;   /* what is no message is left out */
static int terminal; /* progress is shown */
static int shown;    /* a line of it stands there */

void tell_nothing(void) { silent = 1; }

/* A line that stands there by now is that of the process which started this one. */
void tell_progress(void)
{
    terminal = isatty(STDERR_FILENO);
    shown = 0;
}

void end_progress(void)
{
    if (shown)
        fputs("\r\033[K", stderr); /* to the line's front, and all behind it gone */
    shown = 0;
}

int progress_stands(void) { return shown; }

/* A name may hold bytes that steer a terminal: those below 32 and 127, and the characters U+0080 to U+009F. */
static int steers(const unsigned char *at, const unsigned char *before)
{
    return *at < 0x20 || *at == 0x7f || (*at >= 0x80 && *at <= 0x9f && *before == 0xc2);
}

/* One of the two bytes of U+0080 to U+009F is enough to break it. */
void escape(const char *text, char *to, size_t room)
{
    const unsigned char *at = (const unsigned char *)text, *before = (const unsigned char *)"";
    size_t used = 0;
    for (; *at != '\0' && used + 5 < room; before = at++)
        used += (size_t)snprintf(to + used, room - used, steers(at, before) ? "\\%03o" : "%c", *at);
    to[used] = '\0';
}

/* Cut to the width of a terminal: what goes on in a second line could not be taken back. */
void progress(const char *form, ...)
{
    char text[80], safe[80];
    va_list rest;
    if (!terminal || silent)
        return;
    end_progress();
    va_start(rest, form);
    vsnprintf(text, sizeof text, form, rest);
    va_end(rest);
    escape(text, safe, sizeof safe);
    fputs(safe, stderr);
    shown = 1;
}

/* The line goes out in one piece. It is cut where it is longer than the longest name and a sentence about it. */
static void line(const char *before, const char *form, va_list rest)
{
    char text[MOST_LINE], safe[4 * MOST_LINE];
    end_progress();
    vsnprintf(text, sizeof text, form, rest);
    escape(text, safe, sizeof safe);
    fprintf(stderr, "%s%s\n", before, safe);
}

void pass_on(const char *text, size_t length)
{
    end_progress();
    if (length > 0)
        fwrite(text, 1, length, stderr);
}

void tell(const char *form, ...)
{
    va_list rest;
    va_start(rest, form);
    if (!silent)
        line("", form, rest);
    va_end(rest);
}

void say(const char *form, ...)
{
    va_list rest;
    va_start(rest, form);
    line("tzofnadir: ", form, rest);
    va_end(rest);
}

void say_more(const char *form, ...)
{
    va_list rest;
    va_start(rest, form);
    line("  ", form, rest);
    va_end(rest);
}

int fault(int status, const char *doing, const char *name)
{
    int full = errno == ENOSPC || errno == EDQUOT;
    say("%s %s: %s", doing, name, strerror(errno));
    if (full)
        say_more("Make room there, and give the same words again.");
    return status;
}

int no_memory(void)
{
    say("there is not enough memory for this film");
    return NO_MEMORY;
}

int bad_words(const char *why, const char *word)
{
    say("%s%s%s", why, word[0] == '\0' ? "" : ": ", word);
    say_more("'tzofnadir help' tells the words that are taken");
    return BAD_WORDS;
}
