/* A record of a rendering, read back. */
#ifndef TZ_RECORDED_H
#define TZ_RECORDED_H

#include "sha256.h"
#include "tzofnadir.h"

/* Longer names are none that the system takes. */
#define MOST_NAME 4096

struct recorded_file {
    char name[MOST_NAME], digest[SHA256_TEXT];
    tz_sizes sizes;
};

struct recorded {
    char version[32];
    struct recorded_file scan, rendering;
    tz_settings settings;
    int is_around; /* by regions of this side, and it has no grid */
    uint32_t side;
    int by_bytes;
    int has_window;
    tz_window window;
    tz_footer footer;
    int is_sealed;                              /* it is a report of the reading page, with the digest of its own text */
    char seal[SHA256_TEXT], sealed[SHA256_TEXT]; /* that digest, and the one that the text has */
};

/* 0, or the status of a message. A report of the reading page has a record's members and is read as one; other members that
   a record has not are passed over. */
int read_record(const char *name, struct recorded *out);

#endif
