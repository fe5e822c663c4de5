/* What the tool says of a schedule file that is not refused: a line an answer, for people or as JSON. */
#ifndef TOOL_SCHEDULE_REPORT_H
#define TOOL_SCHEDULE_REPORT_H

#include <stdio.h>

#include "layout.h"

/* A file that was read. One octet more than any schedule has stands for all that is longer. */
typedef struct schedule {
    const char *name;           /* of the file, or standard_input */
    const char *role;           /* which of two it is, "plan" or "manual"; null where each file is asked by itself */
    uint8_t octets[STAMP_LONGEST_SCHEDULE + 1];
    size_t length;
} schedule;

/* The number of records of an accepted file. */
void report_count(bool json, const schedule *of, uint32_t records);

/* A record of an accepted file. */
void report_record(bool json, const schedule *of, uint32_t place, const stamp_record *found);

/* What holds on a channel, or that none does yet; and how many records were read. */
void report_held(bool json, const schedule *of, uint32_t channel, const stamp_held *found);

/* A file that is longer than any schedule. Answers the status. */
int report_too_long(bool json, const schedule *of);

/* A file that cannot be read, on standard error: `reason` is an errno. Answers the status. */
int report_unread(const schedule *of, int reason);

/* ---- Which file, for lines of other kinds ---- */

/* Its name; `standard input` for that; and behind it, of two files, which one it is. */
void print_name(FILE *to, const schedule *of);

/* An object's start with its name, `-` for standard input; and, of two files, which one it is. */
void print_json_file(FILE *to, const schedule *of);

#endif
