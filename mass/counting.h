/* What the compared calls share: where they are counted, how a difference is kept, how parts and files are lent and
 * held, and where an input ends. */
#ifndef MASS_COUNTING_H
#define MASS_COUNTING_H

#include "check.h"
#include "describe.h"

extern tally *now;                     /* of the worker, for the unit at work */
extern uint32_t checks_of_unit;        /* so far; gives the filling, which so is the same whoever does the unit */

/* One check is done. */
void count_answer(uint32_t refusal);
/* So too, of manual over plan: from OVER_REFUSED on. */
void count_outcome(int outcome);

/* A new difference: why it is one, and the call. False where enough are kept; the caller then says no more. */
bool start_difference(words *to, const char *why);

/* Fills all ten numbers before the call. */
void lend_parts(parts_answer *to);

/* What is wrong with the library's answer to a call that fills so many parts, or null. */
const char *wrong_in_parts(const parts_answer *library, const parts_answer *second, int filled);

/* The end of memory that may be read; what lies behind it may not be touched. An input ends there, so that a reader
 * that looks past its input is stopped. There is room for LONGEST_FILE octets before it. */
uint8_t *fence(void);

/* Notes the call and its file; the file as it is to be lent to the library. */
const uint8_t *note_file(asked which, const card *file);
/* Beside that, the second file of a call on two; it ends at a fence of its own. */
const uint8_t *note_manual(const card *file);

/* The octets that were lent, or none, are those of the file that was noted. */
bool file_is_as_lent(const uint8_t *lent);
bool manual_is_as_lent(const uint8_t *lent);

#endif
