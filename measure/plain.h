/* Reads and writes the contents octets of date-and-time stamps, reckons with their UTC instants, and reads schedule files
 * of them: the plain C version.
 *
 * C99 with the builtins and attributes that gcc and clang share. No allocation, no state, no library call but
 * memcpy of a fixed 2, 4 or 8 octets, which compiles to one load or store.
 *
 * Kinds: 0 Date, 1 DateTz, 2 Time, 3 TimeTz, 4 Datetime, 5 DatetimeTz. Readers also take 6 Date or DateTz,
 * 7 Time or TimeTz, 8 Datetime or DatetimeTz.
 */
#ifndef PLAIN_H
#define PLAIN_H

#include <stdbool.h>
#include <stddef.h>
#include <stdint.h>

/* Refusal numbers; 0 is none. Writers test 1 to 4 in this order, readers 5 to 8, the calls on instants 2 and 9, those on
 * schedules 13, then for each record 14, 5 to 8, 15. */
enum {
    PLAIN_ACCEPTED = 0,
    PLAIN_BAD_DIGITS = 1,       /* digits above 6 */
    PLAIN_BAD_VALUE = 2,        /* a part out of its range, no such day, no such kind */
    PLAIN_NO_COMPACT = 3,       /* the moment has no compact form */
    PLAIN_NO_ROOM = 4,          /* the buffer is shorter than the image */
    PLAIN_BAD_LENGTH = 5,       /* not a length of the chosen form */
    PLAIN_BAD_OCTET = 6,        /* a wrong digit, sign or separator; reserved bits that are not zero */
    PLAIN_NOT_SHORTEST = 7,     /* redundant octets, a zero offset that should have been left out, -00:00 */
    PLAIN_OUT_OF_RANGE = 8,     /* a field read is out of its range */
    PLAIN_BAD_RESULT = 9,       /* no stamp has such an instant, or the local reading is outside the years 1 to 9999 */
    PLAIN_BAD_HEADER = 13,      /* too many records, or regions that do not follow one another and end the file */
    PLAIN_BAD_RECORD = 14,      /* a channel or a correction out of its range, or a stamp not in its place */
    PLAIN_BAD_ORDER = 15        /* an instant before that of the record before */
};

/* Places in the parts of an accepted read. */
enum { PLAIN_KIND, PLAIN_FORM, PLAIN_DIGITS, PLAIN_YEAR, PLAIN_MONTH, PLAIN_DAY, PLAIN_MICROS, PLAIN_OFFSET };

/* Forms. */
enum { PLAIN_TEXT, PLAIN_COMPACT, PLAIN_EXTENDED };

/* The refusal number. *count is the image's length, and 0 after a refusal, which leaves the octets as lent; octets
 * past the image are never touched. Parts that the kind lacks are ignored. No such kind is refusal 2, after 1. */
uint32_t plain_write(uint32_t kind, uint32_t year, uint32_t month, uint32_t day, uint64_t micros, int32_t offset,
                     bool binary, uint32_t version, uint32_t digits, uint8_t *octets, size_t room, size_t *count);

/* The refusal number. Parts: kind 0 to 5, form, digits (0 but for text), year, month, day, micros, offset, each 0
 * where the kind lacks it; as lent after a refusal. No such kind is refusal 2, before the octets are looked at. */
uint32_t plain_read(uint32_t kind, const uint8_t *octets, size_t length, int64_t parts[8]);

/* The day number of a date, 0 for 0001-01-01; -1 for no such day. */
int32_t plain_day_number(uint32_t year, uint32_t month, uint32_t day);

/* The date of a day number as year * 10000 + month * 100 + day; 0 for no such number. */
uint32_t plain_date_of(uint32_t number);

/* Instants: microseconds from 0001-01-01T00:00 UTC, of a DatetimeTz its local reading less its offset; 24:00 counts as
 * the next day's start. Each call gives the refusal number: 2 where a stamp, an offset or an instant that is handed in
 * is out of its range, then 9 where the result is. *instant, *sum, *difference and parts are as lent after a refusal.
 * Parts: year, month, day, micros, offset; never 24:00. */
uint32_t plain_instant(uint32_t year, uint32_t month, uint32_t day, uint64_t micros, int32_t offset, int64_t *instant);
uint32_t plain_add(int64_t instant, int64_t micros, int64_t *sum);
uint32_t plain_difference(int64_t a, int64_t b, int64_t *difference);
uint32_t plain_at(int64_t instant, int32_t offset, int64_t parts[5]);
uint32_t plain_restate(uint32_t year, uint32_t month, uint32_t day, uint64_t micros, int32_t offset, int32_t to,
                       int64_t parts[5]);

/* Schedule files: a header of 16 octets, records of 12, and their stamps, DatetimeTz each; all is read, from the front.
 * The refusal number. *records is their number, and 0 after a refusal; *fault is the place of the refused record, from
 * one, 0 for the header, and 0 where nothing is refused. */
uint32_t plain_schedule_read(const uint8_t *file, size_t length, uint32_t *records, uint32_t *fault);

/* The record at a place, from one. The refusal number: the file's, then 2 for no such place. Parts: channel, correction,
 * instant, start of the stamp within the file, its length; as lent after a refusal. */
uint32_t plain_schedule_record(const uint8_t *file, size_t length, uint32_t place, int64_t parts[5]);

/* The last record of a channel at or before an instant. The file is read from the front, and no further than the first
 * record later than the instant, which is read too. The refusal number: 2 for no such channel, then the file's by the
 * header and the records read. *read is the number of these, and 0 after a refusal. Parts: place of the record, from
 * one, start of the stamp within the file, its length, instant, correction; all 0 where no record holds yet; as lent
 * after a refusal. */
uint32_t plain_schedule_holds(const uint8_t *file, size_t length, int64_t instant, uint32_t channel, uint32_t *read,
                              int64_t parts[5]);

/* Which of two files. */
enum { PLAIN_OF_PLAN, PLAIN_OF_MANUAL };

/* The stamp of what holds by two files, each asked as above: that of the later instant, the manual one at equality, or
 * the only one. Which file it is in. Part: start of the stamp within that file, its length; an empty part of the plan,
 * 0 and 0, where no record of either holds or one of the questions is refused. */
uint32_t plain_schedule_over(const uint8_t *plan, size_t plan_length, const uint8_t *manual, size_t manual_length,
                             int64_t instant, uint32_t channel, size_t part[2]);

#endif
