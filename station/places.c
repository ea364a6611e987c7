#define _XOPEN_SOURCE 700
#include "places.h"

#include <stdlib.h>
#include <string.h>
#include <unistd.h>

int is_dash(const char *name) { return strcmp(name, "-") == 0; }

int is_standard_output(const char *name)
{
    return is_dash(name) || strcmp(name, "/dev/stdout") == 0 || strcmp(name, "/dev/fd/1") == 0 ||
           strcmp(name, "/proc/self/fd/1") == 0;
}

const char *input_name(const char *name) { return is_dash(name) ? "standard input" : name; }

const char *output_name(const char *name) { return is_dash(name) ? "standard output" : name; }

/* How many bytes of a path are its folder, the slash included. */
static size_t folder_length(const char *path)
{
    const char *slash = strrchr(path, '/');
    return slash == NULL ? 0 : (size_t)(slash - path) + 1;
}

char *folder_of(const char *path, size_t more)
{
    size_t length = folder_length(path);
    const char *from = length == 0 ? "./" : path;
    if (length == 0)
        length = 2;
    char *folder = malloc(length + more + 1);
    if (folder != NULL) {
        memcpy(folder, from, length);
        folder[length] = '\0';
    }
    return folder;
}

int input_at(const char *name, struct stat *there)
{
    return (is_dash(name) ? fstat(STDIN_FILENO, there) : stat(name, there)) == 0;
}

int output_at(const char *name, struct stat *there)
{
    return (is_standard_output(name) ? fstat(STDOUT_FILENO, there) : stat(name, there)) == 0;
}

int same_file(const struct stat *a, const struct stat *b) { return a->st_dev == b->st_dev && a->st_ino == b->st_ino; }

static int same_folder(const char *a, const char *b)
{
    struct stat one, other;
    char *first = folder_of(a, 0), *second = folder_of(b, 0);
    int same = first != NULL && second != NULL && stat(first, &one) == 0 && stat(second, &other) == 0 &&
               same_file(&one, &other);
    free(first);
    free(second);
    return same;
}

int same_place(const char *a, const char *b)
{
    struct stat one, other;
    if (is_standard_output(a) && is_standard_output(b))
        return 1;
    int there = output_at(a, &one);
    if (there != output_at(b, &other))
        return 0;
    if (there)
        return same_file(&one, &other);
    return strcmp(a + folder_length(a), b + folder_length(b)) == 0 && same_folder(a, b);
}

int in_system_folder(const char *path)
{
    char *folder = folder_of(path, 0);
    char *real = folder == NULL ? NULL : realpath(folder, NULL);
    int is = real != NULL && (strcmp(real, "/dev") == 0 || strncmp(real, "/proc/", 6) == 0);
    free(real);
    free(folder);
    return is;
}
