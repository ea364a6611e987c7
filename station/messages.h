/* What the command line says, all of it on standard error, and the exit statuses. */
#ifndef TZ_MESSAGES_H
#define TZ_MESSAGES_H

#include <stddef.h>

/* Exit statuses beside the refusals' own numbers, which are below 64. */
enum {
    BAD_WORDS = 64,     /* the command line */
    TOO_LONG = 65,      /* IN goes on behind what is read of it */
    NO_RECORD = 65,     /* or is no record of a rendering */
    NO_INPUT = 66,      /* IN cannot be opened, or is a folder */
    NO_MEMORY = 71,
    CANNOT_CREATE = 73, /* OUT, or the new file beside it */
    IO_FAULT = 74,      /* reading or writing failed on the way */
    NOT_AS_RECORDED = 76, /* scan, settings or rendering are not those of the record */
    ENGINES_DIFFER = 77   /* the fast engine and the plain one leave different things */
};

/* What is told beside messages, once it is known whether that is wanted: nothing at all, or also what is being done, in
   one line that is written over, where standard error is a terminal. */
void tell_nothing(void);
void tell_progress(void);

/* A line that is no message: what came out. */
__attribute__((format(printf, 1, 2))) void tell(const char *form, ...);

/* What is being done. The line is gone before anything else is written, and at the end. */
__attribute__((format(printf, 1, 2))) void progress(const char *form, ...);
void end_progress(void);

/* Whether such a line stands there. */
int progress_stands(void);

/* Copies text, a byte that could steer a terminal as \ooo; it is cut to the room. */
void escape(const char *text, char *to, size_t room);

/* What another process of this program said, as it stands. */
void pass_on(const char *text, size_t length);

/* A message, "tzofnadir: " before it and a line's end behind it. */
__attribute__((format(printf, 1, 2))) void say(const char *form, ...);

/* A further line of the message before. */
__attribute__((format(printf, 1, 2))) void say_more(const char *form, ...);

/* The messages of a fault of the system, of memory and of words; each returns its status. */
int fault(int status, const char *doing, const char *name);
int no_memory(void);
int bad_words(const char *why, const char *word);

#endif
