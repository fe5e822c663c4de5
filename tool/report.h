/* What the tool prints: a line an answer, for people or as JSON. */
#ifndef TOOL_REPORT_H
#define TOOL_REPORT_H

#include <stdio.h>

#include "records.h"

typedef struct report {
    FILE *to;
    bool json;
    bool several;           /* there may be more than one argument: say which one is refused */
    bool pairs;             /* each answer is about two records, A and B: say which one is refused */
} report;

/* What an answer is about, beside the record. */
typedef struct about {
    const char *reader;     /* explain: the reader that answers; otherwise null */
    bool written;           /* write: the record is the text of a value; otherwise it is the stamp */
    bool exact;             /* write: the stamp keeps the whole value given */
} about;

/* The heading of a record whose readers' answers follow, each by its name. */
void report_heading(const report *how, const record *of);

/* An accepted stamp: kind, form, digits, value, octets. */
void report_stamp(const report *how, const record *of, const stamp_decoded *found,
                  const uint8_t *octets, size_t length, about more);

/* A refusal, by a reader of explain or (null) the only one, and what was refused. Answers the status. */
int report_refusal(const report *how, const record *of, uint32_t refusal, const char *reader);

/* A record that is not hex. Answers the status. */
int report_fault(const report *how, const record *of);

/* What was given, as the end of a line for people. */
void end_with_given(FILE *to, const record *of);

/* A line, for people, that is wrong in another way. Answers the status. */
int report_wrong(const report *how, const record *of, const char *what);

#endif
