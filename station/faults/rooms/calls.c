#include "calls.h"

#include <stdio.h>
#include <stdlib.h>

void *dlopen(const char *path, int how);
void *dlsym(void *library, const char *name);
#define RTLD_NOW 2

void fault(const char *what, unsigned long number)
{
    fprintf(stderr, "%s (%lu)\n", what, number);
    exit(1);
}

static void *named(void *library, const char *name)
{
    void *call = dlsym(library, name);
    if (call == NULL)
        fault(name, 0);
    return call;
}

struct calls load_calls(const char *path)
{
    void *library = dlopen(path, RTLD_NOW);
    if (library == NULL)
        fault("the library cannot be loaded", 0);
    struct calls c;
    c.prepare = (__typeof__(c.prepare))named(library, "tzofnadir_prepare");
    c.draw = (__typeof__(c.draw))named(library, "tzofnadir_draw");
    c.room_empty = (__typeof__(c.room_empty))named(library, "tzofnadir_room_empty");
    c.room_store = (__typeof__(c.room_store))named(library, "tzofnadir_room_store");
    c.room_draw = (__typeof__(c.room_draw))named(library, "tzofnadir_room_draw");
    c.room_drop = (__typeof__(c.room_drop))named(library, "tzofnadir_room_drop");
    c.flat_empty = (__typeof__(c.flat_empty))named(library, "tz_room_empty");
    c.flat_store = (__typeof__(c.flat_store))named(library, "tz_room_store");
    c.flat_draw = (__typeof__(c.flat_draw))named(library, "tz_room_draw");
    c.flat_drop = (__typeof__(c.flat_drop))named(library, "tz_room_drop");
    return c;
}
