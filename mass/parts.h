/* The parts of the comparison. Each is cut into units of work, numbered from 0, that may be done in any order. */
#ifndef MASS_PARTS_H
#define MASS_PARTS_H

#include "chance.h"
#include "stamp.h"

#define DATE_UNITS 10001               /* short.c to schedule.c say what a unit is */
#define DAY_NUMBER_UNITS 256
#define SHORT_UNITS 257
#define OFFSET_UNITS 3001
#define OFFSET_FIELD_UNITS 256
#define TEXT_FIELD_UNITS 100
#define MILLISECOND_UNITS 86401
#define FRACTION_UNITS 1000
#define CHOICE_UNITS (STAMP_KINDS * (STAMP_MAX_DIGITS + 1))
#define MIDNIGHT_UNITS 3653
#define HEADER_CARDS 4                 /* files of 0 to 3 records */
#define HEADER_LENGTHS 7
#define HEADER_WAYS 15                 /* to tell a number of the header */
#define HEADER_UNITS (HEADER_CARDS * HEADER_LENGTHS * HEADER_WAYS)
#define SMALL_CARDS 5                  /* files of 0 to 4 records */
#define CARD_UNITS 1000
#define THOUSAND_UNITS 400
#define CHANCE_ROUNDS 10000            /* rounds in a unit of those by chance */

void try_short(uint64_t unit, chance *by);
void try_dates(uint64_t unit, chance *by);
void try_day_numbers(uint64_t unit, chance *by);
void try_offsets(uint64_t unit, chance *by);
void try_offset_fields(uint64_t unit, chance *by);
void try_text_fields(uint64_t unit, chance *by);
void try_milliseconds(uint64_t unit, chance *by);
void try_fractions(uint64_t unit, chance *by);
void try_numbers_at_edges(uint64_t unit, chance *by);
void try_moments_at_edges(uint64_t unit, chance *by);
void try_mutated(uint64_t unit, chance *by);
void try_random_octets(uint64_t unit, chance *by);
void try_random_values(uint64_t unit, chance *by);
void try_choices(uint64_t unit, chance *by);
void try_zones(uint64_t unit, chance *by);
void try_midnights(uint64_t unit, chance *by);
void try_sums(uint64_t unit, chance *by);
void try_random_instants(uint64_t unit, chance *by);
void try_headers(uint64_t unit, chance *by);
void try_cards(uint64_t unit, chance *by);
void try_thousands(uint64_t unit, chance *by);
void try_schedule(uint64_t unit, chance *by);

uint64_t number_edge_units(void);
uint64_t moment_edge_units(void);
uint64_t instant_edge_units(void);

#endif
