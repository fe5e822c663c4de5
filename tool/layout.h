/* The numbers of a schedule file, as they stand in it, and which of them is wrong. The library says that a file is refused and in which
 * record; here is read why, for people to see. */
#ifndef TOOL_LAYOUT_H
#define TOOL_LAYOUT_H

#include "stamp.h"

typedef struct header {
    int64_t records, records_start, stamps, stamps_start;
} header;

/* A record of the file. Its start is counted from the first stamp octet. */
typedef struct entry {
    int64_t start, length, channel, correction;
} entry;

/* Where the record at a place, from one, starts in the file. */
size_t entry_at(uint32_t place);

/* The file must reach so far. */
header header_of(const uint8_t *file);
entry entry_of(const uint8_t *file, uint32_t place);

/* Each number must be one that its octets can hold. */
void put_header(uint8_t *file, const header *of);
void put_entry(uint8_t *file, uint32_t place, const entry *of);

/* A number with its name, and what it must be. */
typedef struct wrong_number {
    const char *name;
    int64_t found, least, most;
} wrong_number;

/* The first number that is wrong, or does not follow from those before it; false where none is. */
bool wrong_in_header(const uint8_t *file, size_t length, wrong_number *into);

/* Likewise of a record whose stamp must start where the one before it ends, within the stamp octets, which end at `end`; the last must
 * end there. */
bool wrong_in_entry(const entry *of, int64_t start, int64_t end, bool last, wrong_number *into);

#endif
