/* A part of the comparison, done by several workers at once. */
#ifndef MASS_WORK_H
#define MASS_WORK_H

#include "chance.h"
#include "check.h"

#define MOST_WORKERS 16

typedef struct part {
    const char *name;
    const char *what;
    void (*run)(uint64_t unit, chance *by);
    uint64_t units;
    const char *must;                  /* the answers that have to come up; else the part has tried too little */
} part;

/* Does all units of a part; `number` is its place. What was counted, and the first differences in order of the units,
 * the same whatever the number of workers. A worker that did not come to its end is a failure, and its last call is
 * printed. */
void do_part(const part *todo, uint64_t number, uint64_t seed, int workers, tally *sum);

#endif
