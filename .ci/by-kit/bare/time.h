/* See stdio.h beside this file. */
#ifndef BARE_TIME_H
#define BARE_TIME_H

typedef long time_t;
time_t time(time_t *now);

#define CLOCK_REALTIME 0
struct timespec {
    time_t tv_sec;
    long tv_nsec;
};
int clock_gettime(int clock, struct timespec *now);

#endif
