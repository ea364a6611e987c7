/* Names of files: what they stand for, and which of them lead to one file. */
#ifndef TZ_PLACES_H
#define TZ_PLACES_H

#include <stddef.h>
#include <sys/stat.h>

int is_dash(const char *name);

/* True for '-' and for the system's own names of standard output. */
int is_standard_output(const char *name);

/* The name, or what '-' stands for. */
const char *input_name(const char *name);
const char *output_name(const char *name);

/* The folder of a path, a slash at its end, with room for `more` bytes behind it; to be freed. */
char *folder_of(const char *path, size_t more);

/* The file that an input's or an output's name leads to, links followed; false where there is none. */
int input_at(const char *name, struct stat *there);
int output_at(const char *name, struct stat *there);

int same_file(const struct stat *a, const struct stat *b);

/* True where two outputs lead to one file, or would once they are there. */
int same_place(const char *a, const char *b);

/* True where the folder of a path is one of the system's own, /dev or /proc: no file is to be put there. */
int in_system_folder(const char *path);

#endif
