/* See stdio.h beside this file. */
#ifndef BARE_STDLIB_H
#define BARE_STDLIB_H

void _Exit(int status);

#endif
