#ifndef TZ_UNISTD_H
#define TZ_UNISTD_H
#include <stddef.h>
typedef long ssize_t;
#define STDIN_FILENO 0
#define STDOUT_FILENO 1
#define STDERR_FILENO 2
#define W_OK 2
ssize_t read(int file, void *to, size_t count);
ssize_t write(int file, const void *from, size_t count);
int close(int file);
int fsync(int file);
int link(const char *from, const char *to);
int unlinkat(int folder, const char *path, int how);
int unlink(const char *path);
int access(const char *path, int how);
int getpid(void);
int isatty(int file);
int fork(void);
int pipe(int ends[2]);
int dup2(int from, int to);
#define _SC_NPROCESSORS_ONLN 84
long sysconf(int what);
__attribute__((noreturn)) void _exit(int status);
#endif
