/* What the tool's lines are made of: octets, values, and members of JSON objects. */
#ifndef TOOL_PRINT_H
#define TOOL_PRINT_H

#include <stdio.h>

#include "records.h"

void print_hex(FILE *to, const uint8_t *octets, size_t length);

/* Octets as text, with escapes. */
void print_escaped(FILE *to, const char *text, size_t length, bool json);

/* Whether not all of a record is shown, as it was given or as octets. */
bool is_shortened(const record *of, bool as_given);

/* So much of a record as is shown. */
void print_octets_of(FILE *to, const record *of);
void print_given_of(FILE *to, const record *of, bool json);

/* A value as the library writes it, with so many digits. */
void print_text(FILE *to, const stamp_value *value, uint32_t digits);

/* How many digits a value has whose form keeps what this one's does: those of a text, milliseconds, or microseconds. */
uint32_t digits_kept(const stamp_decoded *found);

/* The value that was read, with all that its form keeps. */
void print_value(FILE *to, const stamp_decoded *found);

/* Microseconds, as an instant is. */
void print_micros(FILE *to, int64_t micros);

/* What a clock at UTC reads at an instant that a stamp has: or `before year 1`, `after year 9999`. */
void print_utc(FILE *to, int64_t instant);

/* ---- JSON. Each begins with its first member, and ends behind its last. ---- */

/* The start of an object: the record's number, and its line if it has one. */
void print_json_start(FILE *to, const record *of);

/* A value as text, and those parts that its kind has. */
void print_json_value(FILE *to, const stamp_value *value, uint32_t digits);

/* What was read: kind, form, digits, value, parts. */
void print_json_found(FILE *to, const stamp_decoded *found);

void print_json_micros(FILE *to, const char *name, int64_t micros);

/* An instant, and what a clock at UTC reads then. */
void print_json_instant(FILE *to, int64_t instant);

void print_json_octets(FILE *to, const uint8_t *octets, size_t length);

#endif
