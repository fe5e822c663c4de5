/* The command line: what is asked, and the words of it that are records. */
#ifndef TOOL_ARGUMENTS_H
#define TOOL_ARGUMENTS_H

#include "stamp.h"

typedef enum command {
    COMMAND_READ, COMMAND_WRITE, COMMAND_EXPLAIN,
    COMMAND_INSTANT, COMMAND_RESTATE, COMMAND_DIFFERENCE, COMMAND_ADD,
    COMMAND_CHECK, COMMAND_LIST, COMMAND_HOLDS, COMMAND_OVER, COMMAND_MAKE,
    COMMAND_HELP, COMMAND_RELEASE
} command;

typedef struct request {
    command asked;
    uint32_t kind;              /* of read and write */
    stamp_settings settings;    /* of write */
    bool has_to;                /* of restate: it is told the offset .. */
    int32_t to;                 /* .. in minutes ahead of UTC */
    int64_t micros;             /* of add */
    bool has_channel;           /* of holds and over: they are told the channel .. */
    uint32_t channel;
    char *at;                   /* .. and either a text or the word now, or null, .. */
    bool has_instant;           /* .. or an instant */
    int64_t instant;
    bool json;
    bool raw;                   /* octets as they are: of write on standard output, of the others on standard input */
    char **records;             /* at least one; each a record (of schedules a file), two of over; or standard_input */
    size_t count;
} request;

/* The nine readers' words on the command line, in the order of the kind numbers. */
extern const char *const reader_words[STAMP_READERS];

/* False where the command line is wrong; what is wrong has then been said on standard error. Moves the records' words to
 * the front of argv. */
bool parse_arguments(int argc, char **argv, request *into);

#endif
