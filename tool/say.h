/* What the tool says on standard error, and the statuses it ends with. */
#ifndef TOOL_SAY_H
#define TOOL_SAY_H

#include <stdint.h>

/* The same for every command. EXIT_TROUBLE is for a wrong command line, a record that is no record, none at all, and for input or
 * output that fails. */
enum { EXIT_ACCEPTED = 0, EXIT_REFUSED = 1, EXIT_TROUBLE = 2 };

/* What is wrong with the command line, with the word it is about (or null), and where to find help. */
void say_usage(const char *what, const char *word);

/* What failed, in which line of standard input (or 0), and why: `reason` is an errno. */
void say_failure(const char *what, uint64_t line, int reason);

/* Ends the tool where the library contradicts itself, which it is proved never to do: were it otherwise, nothing may be shown. */
void end_in_doubt(const char *what);

#endif
