/* The stored cases of the second program. */
#ifndef MASS_CASES_H
#define MASS_CASES_H

/* Answers each case of standard input (second/cases.py says how a line looks) by the fast second program, on standard
 * output, and holds the library to it on the way. The exit status: 1 where the library differs, 2 for a line that is
 * no case. */
int answer_cases(void);

#endif
