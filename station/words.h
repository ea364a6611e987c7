/* The command line's words, read into a job. */
#ifndef TZ_WORDS_H
#define TZ_WORDS_H

#include "tzofnadir.h"

enum command { ENHANCE, WINDOW, LISTING, INFO, VERIFY, RAW, PLAIN, DIRECT, CHECK, AROUND, HELP, VERSION };

/* The options, each a bit; OWN_RANGE is a value of --range. */
enum given {
    GRID = 1, BINS = 2, RANGE = 4, CLIP = 8, AT = 16, SIZE = 32, BYTES = 64, RECORD = 128, INTO = 256, RECORDS = 512,
    QUIET = 1024, FORCE = 2048, JOBS = 4096, OUTPUT = 8192, VERBOSE = 16384, AS_JSON = 32768, SCAN = 65536,
    OWN_RANGE = 131072, EDITION = 262144, WHOLE = 524288, SIDE = 1048576
};

struct job {
    enum command command;
    char **names; /* of files: IN and OUT, or with --into films, folders of films and lists */
    int count;
    int plain_from; /* from this one on, behind `--`, a name is no list */
    const char *out, *into, *record, *scan;
    uint32_t jobs;
    uint32_t side; /* of the region around a pixel */
    tz_settings settings;
    tz_window window;
    unsigned given; /* which options were there */
};

/* The part of a path behind its last slash: the name that a film rendered into a folder has there. */
const char *last_part(const char *path);

int ends_in(const char *word, const char *end);

/* Whether it is one of the commands that write a film as it is, raw and plain. */
int is_move(const struct job *job);

/* 0, or the status of a message. */
int words(int argc, char **argv, struct job *job);

#endif
