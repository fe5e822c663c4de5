#include "say.h"

#include <stdio.h>
#include <stdlib.h>
#include <string.h>

/* A word as it came, short, and without octets that a terminal could act upon. */
static void say_word(const char *word)
{
    int room = 40;
    fputs(": '", stderr);
    for (; *word != '\0' && room > 0; word++, room--)
        fputc(*word >= ' ' && *word <= '~' ? *word : '?', stderr);
    fputs(*word == '\0' ? "'" : "..'", stderr);
}

void say_usage(const char *what, const char *word)
{
    fprintf(stderr, "stamp: %s", what);
    if (word != NULL)
        say_word(word);
    fputs(" (stamp -h tells more)\n", stderr);
}

void say_failure(const char *what, uint64_t line, int reason)
{
    fprintf(stderr, "stamp: %s", what);
    if (line != 0)
        fprintf(stderr, " (line %llu)", (unsigned long long)line);
    fprintf(stderr, ": %s\n", strerror(reason));
}

void end_in_doubt(const char *what)
{
    fprintf(stderr, "stamp: %s\n", what);
    _Exit(EXIT_TROUBLE);
}
