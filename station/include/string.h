#ifndef TZ_STRING_H
#define TZ_STRING_H
#include <stddef.h>
void *memcpy(void *restrict to, const void *restrict from, size_t count);
void *memmove(void *to, const void *from, size_t count);
void *memset(void *to, int byte, size_t count);
int memcmp(const void *a, const void *b, size_t count);
void *memchr(const void *from, int byte, size_t count);
size_t strlen(const char *text);
int strncmp(const char *a, const char *b, size_t most);
int strcmp(const char *a, const char *b);
size_t strspn(const char *text, const char *bytes);
char *strdup(const char *text);
char *strchr(const char *text, int byte);
char *strrchr(const char *text, int byte);
char *strerror(int number);
#endif
