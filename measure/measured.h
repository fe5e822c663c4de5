/* The calendar's calls, proved, as C functions (crates/measured): for `make measure` only, never installed. */
#ifndef MEASURED_H
#define MEASURED_H

#include <stdint.h>

/* The day number of a date, 0 for 0001-01-01; -1 for no such day. */
int32_t measured_day_number(uint32_t year, uint32_t month, uint32_t day);

/* The date of a day number as year * 10000 + month * 100 + day; 0 for no such number. */
uint32_t measured_date_of(uint32_t number);

#endif
