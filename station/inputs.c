#define _XOPEN_SOURCE 700
#include "inputs.h"

#include <dirent.h>
#include <errno.h>
#include <stdio.h>
#include <stdlib.h>
#include <string.h>
#include <sys/stat.h>

#include "files.h"
#include "messages.h"

/* Lists that name lists, at the most so many within one another. */
#define MOST_DEEP 16

/* ---- names that are gathered ---- */

/* Room is doubled whenever the count is a power of two. */
static int take(struct films *films, char *name)
{
    int full = (films->count & (films->count - 1)) == 0;
    size_t room = films->count == 0 ? 1 : 2 * (size_t)films->count;
    char **more = !full ? films->names : realloc(films->names, room * sizeof *more);
    if (name == NULL || more == NULL) {
        free(name);
        return no_memory();
    }
    films->names = more;
    films->names[films->count++] = name;
    return 0;
}

void let_films_go(struct films *films)
{
    for (int i = 0; i < films->count; i++)
        free(films->names[i]);
    free(films->names);
}

static int by_name(const void *a, const void *b) { return strcmp(*(char *const *)a, *(char *const *)b); }

/* ---- a folder ---- */

/* A film in a folder is known by its name's end. What begins with a dot is hidden, our own new files among it. */
static int is_film(const char *name)
{
    size_t length = strlen(name);
    return name[0] != '.' && length > 4 &&
           (strcmp(name + length - 4, ".pgm") == 0 || strcmp(name + length - 4, ".PGM") == 0);
}

static char *path_in(const char *folder, const char *name)
{
    size_t length = strlen(folder), room = length + strlen(name) + 2;
    char *path = malloc(room);
    if (path != NULL)
        snprintf(path, room, "%s%s%s", folder, folder[length - 1] == '/' ? "" : "/", name);
    return path;
}

/* The films of a folder, in the order of their names; folders within it are left. */
static int take_folder(const char *folder, struct films *films)
{
    int before = films->count, code = 0;
    struct dirent *one;
    DIR *all = opendir(folder);
    if (all == NULL)
        return fault(NO_INPUT, "cannot open the folder", folder);
    while (code == 0 && (one = readdir(all)) != NULL)
        if (is_film(one->d_name))
            code = take(films, path_in(folder, one->d_name));
    closedir(all);
    if (code != 0)
        return code;
    if (films->count == before) {
        say("the folder %s has no film: no file in it has a name that ends in .pgm", folder);
        say_more("Name the files themselves, or a folder that has films. Folders within it are not looked into.");
        return NO_INPUT;
    }
    qsort(films->names + before, (size_t)(films->count - before), sizeof *films->names, by_name);
    return 0;
}

/* ---- a list ---- */

/* The lists that are being read, one within another. */
struct reading {
    struct stat lists[MOST_DEEP];
    int deep;
};

static int take_word(const char *word, struct films *films, struct reading *reading, int plain);

static int enter(const char *name, struct reading *reading)
{
    struct stat *here = &reading->lists[reading->deep];
    if (reading->deep == MOST_DEEP || stat(name, here) != 0)
        return reading->deep == MOST_DEEP ? bad_words("too many lists within one another", name)
                                          : fault(NO_INPUT, "cannot open the list", name);
    for (int i = 0; i < reading->deep; i++)
        if (same_file(here, &reading->lists[i])) {
            say("the list %s names itself", name);
            say_more("Take the line that begins with @ out of it, or out of the list that it names.");
            return BAD_WORDS;
        }
    reading->deep++;
    return 0;
}

/* A name a line, as the words are; empty lines are passed over. A list that is cut by the bound on inputs is too long. */
static int take_lines(char *text, size_t length, struct films *films, struct reading *reading)
{
    int code = 0;
    for (size_t from = 0; from < length && code == 0;) {
        char *end = memchr(text + from, '\n', length - from);
        size_t to = end == NULL ? length : (size_t)(end - text);
        text[to] = '\0';
        if (to > from && text[to - 1] == '\r')
            text[to - 1] = '\0';
        if (text[from] != '\0')
            code = take_word(text + from, films, reading, 0);
        from = to + 1;
    }
    return code;
}

static int take_list(const char *name, struct films *films, struct reading *reading)
{
    struct input list = {0};
    int code = enter(name, reading);
    if (code != 0)
        return code;
    code = read_input(name, &list);
    if (code == 0 && list.cut) {
        say("the list %s is longer than %zu bytes: not read further", name, bound_of(&list));
        code = TOO_LONG;
    }
    char *text = code != 0 ? NULL : realloc(list.bytes, list.len + 1);
    if (code == 0 && text == NULL)
        code = no_memory();
    if (text != NULL)
        list.bytes = (uint8_t *)text;
    int before = films->count;
    if (code == 0)
        code = take_lines(text, list.len, films, reading);
    if (code == 0 && films->count == before) {
        say("the list %s names no film", name);
        say_more("It holds the name of a film, of a folder of films or, behind @, of a list on each line.");
        code = NO_INPUT;
    }
    free(list.bytes);
    reading->deep--;
    return code;
}

/* ---- a word ---- */

static int take_word(const char *word, struct films *films, struct reading *reading, int plain)
{
    struct stat there;
    if (word[0] == '@' && !plain)
        return take_list(word + 1, films, reading);
    if (!is_dash(word) && stat(word, &there) == 0 && S_ISDIR(there.st_mode))
        return take_folder(word, films);
    return take(films, strdup(word));
}

/* ---- the films ---- */

static int by_last_part(const void *a, const void *b)
{
    return strcmp(last_part(*(char *const *)a), last_part(*(char *const *)b));
}

static int check_film(const struct job *job, const char *name)
{
    if (is_dash(name))
        return bad_words("standard input has no name that --into could give its film", "");
    if ((job->given & RECORDS) != 0 && ends_in(name, ".json"))
        return bad_words("with --records a film's name must not end in .json", name);
    return 0;
}

/* Films that go into one folder need names, and none the name that another's rendering or record has. They are looked at
   in the order of their names, and rendered in the order that was given. */
static int check_films(const struct job *job, const struct films *films)
{
    size_t size = (size_t)films->count * sizeof *films->names;
    char **sorted = malloc(size);
    if (sorted == NULL)
        return no_memory();
    memcpy(sorted, films->names, size);
    qsort(sorted, (size_t)films->count, sizeof *sorted, by_last_part);
    int code = 0;
    for (int i = 0; i < films->count && code == 0; i++) {
        code = check_film(job, sorted[i]);
        if (code == 0 && i > 0 && by_last_part(&sorted[i - 1], &sorted[i]) == 0)
            code = bad_words("two films would have the same name in that folder", sorted[i]);
    }
    free(sorted);
    return code;
}

int find_films(const struct job *job, struct films *films)
{
    struct reading reading = {.deep = 0};
    int code = 0;
    *films = (struct films){NULL, 0};
    for (int i = 0; i < job->count && code == 0; i++)
        code = take_word(job->names[i], films, &reading, i >= job->plain_from);
    return code != 0 ? code : check_films(job, films);
}
