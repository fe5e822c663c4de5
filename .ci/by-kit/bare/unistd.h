/* See stdio.h beside this file. */
#ifndef BARE_UNISTD_H
#define BARE_UNISTD_H

int isatty(int descriptor);

#endif
