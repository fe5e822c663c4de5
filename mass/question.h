/* Asks schedule files which correction holds, as whole files and after changes. */
#ifndef MASS_QUESTION_H
#define MASS_QUESTION_H

#include "chance.h"
#include "check.h"
#include "make_card.h"

/* Of a file as make_card made it, by the second program. */
void take_outline(outline *to, const card *of, uint32_t records);

/* At, just before and just after the instant of each `step`th record, the last among them, for its channel and another;
 * at the ends of 64 bits and of all instants; for channels that are none. */
void ask_everywhere(const card *file, const outline *of, uint32_t step);

/* To ask at and for: mostly beside a record and the channel of one. */
int64_t instant_to_ask(const outline *of, chance *by);
uint32_t channel_to_ask(const outline *of, chance *by);

/* One such question. */
void ask_somewhere(const card *file, const outline *of, chance *by);

#endif
