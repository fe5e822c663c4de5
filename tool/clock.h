/* The system's clock. */
#ifndef TOOL_CLOCK_H
#define TOOL_CLOCK_H

#include <stdint.h>

/* The instant that it is now. Where the clock cannot be read, that is said on standard error. The status. */
int read_clock(int64_t *instant);

#endif
