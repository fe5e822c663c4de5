/* The short help. */
#ifndef TOOL_HELP_H
#define TOOL_HELP_H

/* How the tool is used, and the refusals by their numbers. */
void print_help(void);

#endif
