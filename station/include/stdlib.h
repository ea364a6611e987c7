#ifndef TZ_STDLIB_H
#define TZ_STDLIB_H
#include <stddef.h>
void *malloc(size_t size);
void *calloc(size_t count, size_t size);
void *realloc(void *old, size_t size);
void free(void *old);
void *bsearch(const void *wanted, const void *items, size_t count, size_t size, int (*compare)(const void *, const void *));
void qsort(void *items, size_t count, size_t size, int (*compare)(const void *, const void *));
double strtod(const char *text, char **end);
float strtof(const char *text, char **end);
char *realpath(const char *path, char *out);
__attribute__((noreturn)) void exit(int status);
#endif
