#ifndef TZ_FCNTL_H
#define TZ_FCNTL_H
#ifndef __x86_64__
#error "these numbers are those of x86-64 Linux"
#endif
#define O_RDONLY 0
#define O_WRONLY 1
#define O_CREAT 0100
#define O_EXCL 0200
#define O_DIRECTORY 0200000
#define O_CLOEXEC 02000000
#define F_GETFD 1
#define O_NONBLOCK 04000
#define O_NOFOLLOW 0400000
#define F_DUPFD_CLOEXEC 1030
#define AT_FDCWD (-100)
int open(const char *path, int how, ...);
int openat(int folder, const char *path, int how, ...);
int fcntl(int file, int what, ...);
#endif
