/* What the tool says of a schedule file that is refused, or of a question that is: what is wrong, in which record. */
#ifndef TOOL_SCHEDULE_REFUSAL_H
#define TOOL_SCHEDULE_REFUSAL_H

#include "schedule_report.h"

/* A file that is refused: which record, or place 0 for the header, and what is wrong with it. Answers the status. */
int report_refused(bool json, const schedule *of, uint32_t refusal, uint32_t place);

/* A question for a channel that there is not; it is refused before anything of the file is. `of` is null where it is asked
 * of two files: it is refused once for both. Answers the status. */
int report_no_channel(bool json, const schedule *of, uint32_t channel);

/* ---- The parts of a refusal, for people ---- */

/* From the refusal's number to the line's end, without the file and the record. */
void print_refused(FILE *to, const schedule *of, uint32_t refusal, uint32_t place);

void print_refusal(FILE *to, uint32_t refusal);
void print_wrong_number(FILE *to, const wrong_number *of);

#endif
