#ifndef TZ_ERRNO_H
#define TZ_ERRNO_H
int *__errno_location(void) __attribute__((const));
#define errno (*__errno_location())
#define ENOENT 2
#define EINTR 4
#define EBADF 9
#define EWOULDBLOCK 11
#define EACCES 13
#define EEXIST 17
#define EISDIR 21
#define EINVAL 22
#define ENOSPC 28
#define ENOSYS 38
#define EDQUOT 122
#endif
