#ifndef TZ_SYS_STAT_H
#define TZ_SYS_STAT_H
#ifndef __x86_64__
#error "this layout is that of x86-64 Linux"
#endif
typedef unsigned int mode_t;
struct stat {
    unsigned long st_dev, st_ino, st_nlink;
    mode_t st_mode;
    unsigned int st_uid, st_gid, tz_gap;
    unsigned long st_rdev;
    long st_size, st_blksize, st_blocks, tz_times[6], tz_spare[3];
};
#define S_ISDIR(mode) (((mode) & 0170000) == 0040000)
#define S_ISREG(mode) (((mode) & 0170000) == 0100000)
int stat(const char *path, struct stat *out);
int fstat(int file, struct stat *out);
int lstat(const char *path, struct stat *out);
int mkdir(const char *path, mode_t mode);
int fchmod(int file, mode_t mode);
#endif
