#include "output.h"

#include <errno.h>
#include <signal.h>
#include <stdio.h>
#include <stdlib.h>

#include "say.h"

/* More than any record's answer has, so that it leaves by one write. */
static char room[1 << 16];

/* These signals would end the tool without a word and with another status: of a pipe that nobody reads any more, of a file that may
 * not grow. Ignored, they leave a write that fails. */
void output_start(void)
{
    signal(SIGPIPE, SIG_IGN);
    signal(SIGXFSZ, SIG_IGN);
    setvbuf(stdout, room, _IOFBF, sizeof room);
}

/* Ends without another attempt at what could not be written: it would come after it was said that it did not. */
static void end_unwritten(void)
{
    say_failure("standard output cannot be written", 0, errno);
    _Exit(EXIT_TROUBLE);
}

void output_record(void)
{
    if (fflush(stdout) != 0 || ferror(stdout))
        end_unwritten();
}

/* Some outputs, as a disk that is far away, tell only now that they failed. */
void output_end(void)
{
    output_record();
    if (fclose(stdout) != 0)
        end_unwritten();
}
