#ifndef TZ_POLL_H
#define TZ_POLL_H
struct pollfd {
    int fd;
    short events, revents;
};
#define POLLIN 1
int poll(struct pollfd *files, unsigned long count, int milliseconds);
#endif
