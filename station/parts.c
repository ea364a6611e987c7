#define _GNU_SOURCE
#include "parts.h"

#include <dirent.h>
#include <errno.h>
#include <fcntl.h>
#include <stdio.h>
#include <stdlib.h>
#include <string.h>
#include <sys/file.h>
#include <sys/stat.h>
#include <unistd.h>

#include "places.h"
#include "signals.h"

/* How many names are tried for one new file. */
#define MOST_ATTEMPTS 1000u

/* ---- new files ---- */

/* A name in the folder of `path` that no other running program takes: it holds this one's number. */
static char *name_beside(const char *path, unsigned attempt, const char *end)
{
    char *name = folder_of(path, 64);
    if (name != NULL)
        snprintf(name + strlen(name), 64, ".tzofnadir-%ld-%u.%s", (long)getpid(), attempt, end);
    return name;
}

/* Locks a new file. One that was taken for a forgotten one in the moment before is no more ours: another is made. A file
   system without locks does without, as none is cleared there. */
static int lock_part(int to)
{
    struct stat made;
    if (flock(to, LOCK_EX | LOCK_NB) != 0)
        return errno != EWOULDBLOCK;
    return fstat(to, &made) != 0 || made.st_nlink > 0;
}

/* Makes the file of this name. A signal that comes meanwhile waits until the name is known. */
static int open_part(int which, char *name, unsigned mode)
{
    hold_signals();
    int to = open(name, O_WRONLY | O_CREAT | O_EXCL | O_CLOEXEC, (mode_t)mode);
    if (to >= 0 && !lock_part(to)) {
        close(to);
        to = -1;
        errno = EEXIST;
    }
    if (to >= 0)
        remove_on_stop(which, name);
    heed_signals();
    return to;
}

char *make_part(int which, const char *path, unsigned mode, int *to)
{
    for (unsigned attempt = 0; attempt < MOST_ATTEMPTS; attempt++) {
        char *name = name_beside(path, attempt, "part");
        if (name == NULL)
            return NULL;
        *to = open_part(which, name, mode);
        if (*to >= 0)
            return name;
        int why = errno;
        free(name);
        errno = why;
        if (why != EEXIST)
            return NULL;
    }
    return NULL;
}

/* By a second name; where the file system has none of these, by another name. */
char *keep_aside(const char *path)
{
    for (unsigned attempt = 0; attempt < MOST_ATTEMPTS; attempt++) {
        char *name = name_beside(path, attempt, "old");
        if (name == NULL)
            return NULL;
        if (link(path, name) == 0 || (errno != EEXIST && rename(path, name) == 0))
            return name;
        int why = errno;
        free(name);
        errno = why;
        if (why != EEXIST)
            return NULL;
    }
    return NULL;
}

/* ---- files that were left behind ---- */

static const char *behind_digits(const char *at)
{
    const char *first = at;
    while (*at >= '0' && *at <= '9')
        at++;
    return at == first ? NULL : at;
}

static int is_part(const char *name)
{
    static const char front[] = ".tzofnadir-";
    if (strncmp(name, front, sizeof front - 1) != 0)
        return 0;
    const char *at = behind_digits(name + sizeof front - 1);
    at = at != NULL && *at == '-' ? behind_digits(at + 1) : NULL;
    return at != NULL && strcmp(at, ".part") == 0;
}

/* Removes a new file unless a process holds it. What may not be opened or removed is another's, and stays. */
static void clear_part(int folder, const char *name)
{
    struct stat there;
    int of = openat(folder, name, O_RDONLY | O_NOFOLLOW | O_NONBLOCK | O_CLOEXEC);
    if (of < 0)
        return;
    if (fstat(of, &there) == 0 && S_ISREG(there.st_mode) && flock(of, LOCK_EX | LOCK_NB) == 0)
        unlinkat(folder, name, 0);
    close(of);
}

void clear_parts(const char *path)
{
    char *folder = folder_of(path, 0);
    DIR *all = folder == NULL ? NULL : opendir(folder);
    struct dirent *one;
    while (all != NULL && (one = readdir(all)) != NULL)
        if (is_part(one->d_name))
            clear_part(dirfd(all), one->d_name);
    if (all != NULL)
        closedir(all);
    free(folder);
}
