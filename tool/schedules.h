/* The commands on schedule files: check, list, holds, over and make. */
#ifndef TOOL_SCHEDULES_H
#define TOOL_SCHEDULES_H

#include "arguments.h"

/* Whether it is one of these commands. */
bool is_of_schedules(command asked);

/* Answers all files; or makes one. The status. */
int answer_schedules(const request *what);

#endif
