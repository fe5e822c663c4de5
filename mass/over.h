/* Asks two schedule files, plan and manual, which stamp holds, as whole files and after changes. */
#ifndef MASS_OVER_H
#define MASS_OVER_H

#include "question.h"

/* A file that is asked together with one that was made with `beside`: of so many records, whose instants mostly meet
 * those. */
void make_other(card *file, outline *of, uint32_t records, const outline *beside, chance *by);

/* At, just before and just after the instant of each record of both, for its channel; each as the plan, and each as
 * both. At the ends of 64 bits; for a bad channel; beside a file of no octets. */
void ask_over_everywhere(const card *one, const outline *of_one, const card *other, const outline *of_other);

/* One question, mostly beside a record of one of them and for the channel of one; either is the plan, and once in a
 * while both are the same. */
void ask_over_somewhere(const card *one, const outline *of_one, const card *other, const outline *of_other, chance *by);

/* One such question: to a file and another, both whole half of the time; else the file changed, or both. */
void ask_over_changed(const card *whole, const card *changed, const outline *of, const card *other,
                      const outline *of_other, chance *by);

#endif
