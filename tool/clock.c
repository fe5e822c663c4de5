/* For clock_gettime: C99 alone has whole seconds. */
#define _POSIX_C_SOURCE 200112L

#include "clock.h"

#include <errno.h>
#include <time.h>

#include "say.h"
#include "stamp.h"

/* The system keeps its clock in nanoseconds of 64 bits, so that no sum here overflows. */
int read_clock(int64_t *instant)
{
    struct timespec now;
    if (clock_gettime(CLOCK_REALTIME, &now) != 0) {
        say_failure("the clock cannot be read", 0, errno);
        return EXIT_TROUBLE;
    }
    *instant = STAMP_UNIX_EPOCH + (int64_t)now.tv_sec * 1000000 + now.tv_nsec / 1000;
    return EXIT_ACCEPTED;
}
