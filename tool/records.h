/* Records: the octets of one stamp, or of one value's text, from an argument or from standard input. */
#ifndef TOOL_RECORDS_H
#define TOOL_RECORDS_H

#include "stamp.h"

/* One octet more than any stamp has. A record that fills this room stands for every longer one: from 33 octets on
 * every reader answers alike (5), so a record of any length is read without keeping it. */
#define RECORD_ROOM (STAMP_LONGEST_IMAGE + 1)

/* So much is shown of a record as it was given, where it is refused. */
#define LONGEST_SHOWN 72

/* So much is kept of it: a line of a schedule, with its stamp in hex and some blanks. One octet more stands for all that is longer. */
#define LONGEST_KEPT 160

/* How octets are given. */
typedef enum notation {
    NOTATION_HEX,                       /* two hex digits an octet, blanks between octets; a record a line */
    NOTATION_TEXT,                      /* as they are; a record a line */
    NOTATION_EITHER,                    /* hex if all are hex digits and blanks, otherwise text; a record a line */
    NOTATION_RAW                        /* as they are; all of standard input is one record */
} notation;

typedef struct record {
    uint8_t octets[RECORD_ROOM];
    size_t length;
    notation as;                        /* what it turned out to be; never NOTATION_EITHER */
    char given[LONGEST_KEPT + 1];       /* the argument or line itself, without its end */
    size_t given_length;
    uint64_t number;                    /* counted from one */
    uint64_t argument;                  /* the argument it came by, counted from one, or .. */
    uint64_t line;                      /* .. the line of standard input; the other one is 0, and both are for raw octets */
    uint64_t fault;                     /* the column, counted from one, where it stops being hex; 0 for nowhere */
} record;

/* The argument that stands for standard input: this very pointer, as another `-` may be a record. */
extern char standard_input[];

/* Where the records come from. */
typedef struct source {
    char **arguments;
    size_t count;
    notation as;
    size_t done;                        /* arguments so far */
    uint64_t taken;                     /* records so far */
    uint64_t lines;                     /* lines of standard input so far */
} source;

source source_of(char **arguments, size_t count, notation as);

/* RECORD_FAILED: standard input failed before the record's end. What there was of it is no record; it has been said on standard
 * error that it failed, and why. */
typedef enum outcome { RECORD_TAKEN, RECORD_NONE, RECORD_FAILED } outcome;

outcome next_record(source *from, record *into);

/* The record of one word of a line: hex or text, as NOTATION_EITHER has it. */
void take_word(const record *line, const char *word, record *into);

/* Reads the record as a stamp of the kind; if it is text, as text alone. Answers the refusal, and then *found stays as
 * lent. */
uint32_t read_record(uint32_t kind, const record *of, stamp_decoded *found);

#endif
