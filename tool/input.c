/* For fileno, which C99 alone has not. */
#define _POSIX_C_SOURCE 200112L

#include "input.h"

#include <errno.h>
#include <stdbool.h>
#include <unistd.h>

/* Whether it was a terminal that is gone: then it ends as a file does, and only a question tells. */
static bool is_gone(FILE *from)
{
    errno = 0;
    return !isatty(fileno(from)) && errno == EIO;
}

/* What failed is not tried again, as what comes then may follow a gap. */
int next_octet(FILE *from)
{
    int octet = getc(from);
    if (octet != EOF)
        return octet;
    return ferror(from) || is_gone(from) ? INPUT_FAILED : INPUT_END;
}

/* Both CR LF and LF end a line, and so does the end of the input. */
int next_of_line(void)
{
    int octet = next_octet(stdin), after;
    if (octet == '\r') {
        after = next_octet(stdin);
        if (after == '\n')
            return LINE_END;
        if (after == INPUT_FAILED)
            return INPUT_FAILED;
        if (after != INPUT_END)
            ungetc(after, stdin);
    }
    return octet == '\n' || octet == INPUT_END ? LINE_END : octet;
}
