#ifndef TZ_TIME_H
#define TZ_TIME_H
struct timespec {
    long tv_sec, tv_nsec;
};
#define CLOCK_MONOTONIC 1
#define CLOCK_PROCESS_CPUTIME_ID 2
int clock_gettime(int clock, struct timespec *out);
#endif
