/* The commands on UTC instants: instant, restate, difference and add. */
#ifndef TOOL_INSTANTS_H
#define TOOL_INSTANTS_H

#include "arguments.h"
#include "report.h"

/* Whether it is one of these commands. */
bool is_of_instants(command asked);

/* Answers one record, or for difference two: A and, behind it, B. The status. */
int answer_instants(const request *what, const report *how, const record *of);

/* The instant of one record; what is refused, or is not hex, is reported as by the command instant. The status. */
int read_instant(const report *how, const record *of, int64_t *instant);

#endif
