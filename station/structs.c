/*
 * The functions of tzofnadir.h that have bodies there, those with structs among them, as functions of the library: for
 * languages that do not read the header, and for what loads the shared library by name.
 */
#define TZ_FUNCTION __attribute__((visibility("default")))
#include "tzofnadir.h"

TZ_FUNCTION const char *tz_version(void) { return TZ_VERSION; }
