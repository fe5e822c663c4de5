/* Octets of standard input or of a file, one by one. A failure is never taken for the end. */
#ifndef TOOL_INPUT_H
#define TOOL_INPUT_H

#include <stdio.h>

/* What comes where no octet does; all are below 0. After INPUT_FAILED errno tells the reason. */
enum { LINE_END = -1, INPUT_END = -2, INPUT_FAILED = -3 };

/* An octet, INPUT_END or INPUT_FAILED. */
int next_octet(FILE *from);

/* An octet of a line of standard input, LINE_END or INPUT_FAILED. */
int next_of_line(void);

#endif
