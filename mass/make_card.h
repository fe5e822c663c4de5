/* Makes schedule files: right ones by chance, by the second program, and changes to them. */
#ifndef MASS_MAKE_CARD_H
#define MASS_MAKE_CARD_H

#include "chance.h"
#include "check.h"

/* Where a number stands in the header, and in a record. */
enum { COUNT_AT = 0, RECORDS_AT = 4, STAMP_OCTETS_AT = 8, STAMPS_AT = 12 };
enum { START_AT = 0, LENGTH_AT = 4, CHANNEL_AT = 6, CORRECTION_AT = 8 };

/* Where the record at a place, from one, stands in a file. */
size_t record_at(uint32_t place);

uint64_t card_number(const card *of, size_t at, int octets);
/* Big-endian, the low octets of the number. */
void put_number(card *in, size_t at, uint64_t number, int octets);

void copy_card(card *to, const card *from);

#define MOST_OUTLINED (STAMP_MAX_RECORDS + 1)

/* What the records of a file were made with: what is asked for, or beside. */
typedef struct outline {
    uint32_t records;
    int64_t instants[MOST_OUTLINED];
    uint32_t channels[MOST_OUTLINED];
} outline;

/* A file of so many records, at most 1,001: right in all, but once in a while one of its stamps is too early. Half of
 * the files have one to three channels. */
void make_card(card *to, uint32_t records, chance *by);

/* So many records, right in all, whose instants and channels are mostly those of another file, which has some; or a
 * little earlier or later, and other channels. */
void make_card_beside(card *to, uint32_t records, const outline *of, chance *by);

/* One change to a file that was made with so many records, and may have been changed since. */
void change_card(card *in, uint32_t records, chance *by);

#endif
