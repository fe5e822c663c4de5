/* See stdio.h beside this file. */
#ifndef BARE_ERRNO_H
#define BARE_ERRNO_H

int *__errno_location(void);
#define errno (*__errno_location())
#define EIO 5

#endif
