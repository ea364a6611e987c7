#ifndef TZ_SYS_TIME_H
#define TZ_SYS_TIME_H
struct timeval {
    long tv_sec, tv_usec;
};
struct itimerval {
    struct timeval it_interval, it_value;
};
#define ITIMER_VIRTUAL 1
int setitimer(int which, const struct itimerval *wanted, struct itimerval *before);
#endif
