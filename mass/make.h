/* Makes inputs: values and settings by chance, and images put together by hand, without the library. */
#ifndef MASS_MAKE_H
#define MASS_MAKE_H

#include "chance.h"
#include "check.h"

/* Settings that give a form (of kinds that have it). */
stamp_settings as_text(uint32_t digits);
stamp_settings as_compact(void);
stamp_settings as_extended(void);

/* In range; edges, and round numbers, come up often. */
uint64_t some_micros(chance *by);
int32_t some_offset(chance *by);
/* In range but for a day that the month may lack. */
stamp_value some_value(chance *by, uint32_t kind);
stamp_settings some_settings(chance *by);

/* Any numbers at all, right and wrong. */
int32_t any_offset(chance *by);
stamp_value any_value(chance *by);
stamp_settings any_settings(chance *by);

void add_octet(image *to, uint8_t octet);
void add_text(image *to, const char *text);
/* Decimal, with zeros in front; longer where the number does not fit. */
void add_decimal(image *to, uint64_t number, int places);
/* Big-endian, the low octets of the number. */
void add_number(image *to, uint64_t number, int octets);

#endif
