/* Making a schedule file of lines. */
#ifndef TOOL_MAKING_H
#define TOOL_MAKING_H

/* Makes the schedule of the lines of standard input and prints its octets. Where a line is wrong, or refused, that is said on standard
 * error and nothing is printed. The status. */
int make_schedule(void);

#endif
