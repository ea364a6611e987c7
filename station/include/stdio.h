#ifndef TZ_STDIO_H
#define TZ_STDIO_H
#include <stddef.h>
#include <stdarg.h>
typedef struct _IO_FILE FILE;
extern FILE *stdout;
extern FILE *stderr;
int printf(const char *form, ...) __attribute__((format(printf, 1, 2)));
int fprintf(FILE *stream, const char *form, ...) __attribute__((format(printf, 2, 3)));
int vfprintf(FILE *stream, const char *form, va_list rest);
int vsnprintf(char *out, size_t room, const char *form, va_list rest);
int snprintf(char *out, size_t room, const char *form, ...) __attribute__((format(printf, 3, 4)));
int sscanf(const char *text, const char *form, ...) __attribute__((format(scanf, 2, 3)));
int fputs(const char *text, FILE *stream);
int fflush(FILE *stream);
FILE *fopen(const char *path, const char *mode);
char *fgets(char *line, int room, FILE *stream);
size_t fread(void *to, size_t size, size_t count, FILE *stream);
size_t fwrite(const void *from, size_t size, size_t count, FILE *stream);
int rename(const char *from, const char *to);
#define RENAME_NOREPLACE 1u
int renameat2(int from_folder, const char *from, int to_folder, const char *to, unsigned how);
int fclose(FILE *stream);
#endif
