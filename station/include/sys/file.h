#ifndef TZ_SYS_FILE_H
#define TZ_SYS_FILE_H
#define LOCK_EX 2
#define LOCK_NB 4
int flock(int file, int how);
#endif
