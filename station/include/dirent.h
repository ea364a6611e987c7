#ifndef TZ_DIRENT_H
#define TZ_DIRENT_H
#ifndef __x86_64__
#error "this layout is that of x86-64 Linux"
#endif
typedef struct __dirstream DIR;
struct dirent {
    unsigned long d_ino;
    long d_off;
    unsigned short d_reclen;
    unsigned char d_type;
    char d_name[256];
};
DIR *opendir(const char *path);
struct dirent *readdir(DIR *folder);
int dirfd(DIR *folder);
int closedir(DIR *folder);
#endif
