#ifndef TZ_SYS_WAIT_H
#define TZ_SYS_WAIT_H
#define WIFEXITED(status) (((status) & 0x7f) == 0)
#define WEXITSTATUS(status) (((status) >> 8) & 0xff)
#define WTERMSIG(status) ((status) & 0x7f)
int waitpid(int process, int *status, int how);
#endif
