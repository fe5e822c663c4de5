#include "layout.h"

/* ---- Big-endian numbers ---- */

static uint32_t get(const uint8_t *octets, size_t count)
{
    uint32_t number = 0;
    size_t at;
    for (at = 0; at < count; at++)
        number = number << 8 | octets[at];
    return number;
}

static void put(uint8_t *octets, size_t count, uint32_t number)
{
    while (count > 0) {
        octets[--count] = (uint8_t)number;
        number >>= 8;
    }
}

/* Of 32 bits, two's complement; told by the sign bit, as C leaves a conversion to the compiler. */
static int64_t get_signed(const uint8_t *octets)
{
    uint32_t number = get(octets, 4);
    return number <= INT32_MAX ? (int64_t)number : (int64_t)number - UINT32_MAX - 1;
}

/* ---- Header and records ---- */

size_t entry_at(uint32_t place)
{
    return STAMP_SCHEDULE_HEADER + (size_t)STAMP_SCHEDULE_RECORD * (place - 1);
}

header header_of(const uint8_t *file)
{
    header found;
    found.records = get(file, 4);
    found.records_start = get(file + 4, 4);
    found.stamps = get(file + 8, 4);
    found.stamps_start = get(file + 12, 4);
    return found;
}

void put_header(uint8_t *file, const header *of)
{
    put(file, 4, (uint32_t)of->records);
    put(file + 4, 4, (uint32_t)of->records_start);
    put(file + 8, 4, (uint32_t)of->stamps);
    put(file + 12, 4, (uint32_t)of->stamps_start);
}

entry entry_of(const uint8_t *file, uint32_t place)
{
    const uint8_t *octets = file + entry_at(place);
    entry found;
    found.start = get(octets, 4);
    found.length = get(octets + 4, 2);
    found.channel = get(octets + 6, 2);
    found.correction = get_signed(octets + 8);
    return found;
}

void put_entry(uint8_t *file, uint32_t place, const entry *of)
{
    uint8_t *octets = file + entry_at(place);
    put(octets, 4, (uint32_t)of->start);
    put(octets + 4, 2, (uint32_t)of->length);
    put(octets + 6, 2, (uint32_t)of->channel);
    put(octets + 8, 4, (uint32_t)of->correction);
}

/* ---- What is wrong ---- */

static bool is_wrong(wrong_number *into, const char *name, int64_t found, int64_t least, int64_t most)
{
    into->name = name;
    into->found = found;
    into->least = least;
    into->most = most;
    return found < least || found > most;
}

/* A stamp has 1 to 32 octets. The file's length comes last, so that of a card that was cut off it is said that it was. */
bool wrong_in_header(const uint8_t *file, size_t length, wrong_number *into)
{
    header found;
    int64_t stamps_start, end;
    if (is_wrong(into, "length of the file", (int64_t)length, STAMP_SCHEDULE_HEADER, STAMP_LONGEST_SCHEDULE))
        return true;
    found = header_of(file);
    stamps_start = STAMP_SCHEDULE_HEADER + STAMP_SCHEDULE_RECORD * found.records;
    end = stamps_start + found.stamps;
    return is_wrong(into, "count of records", found.records, 0, STAMP_MAX_RECORDS)
        || is_wrong(into, "start of the records", found.records_start, STAMP_SCHEDULE_HEADER, STAMP_SCHEDULE_HEADER)
        || is_wrong(into, "start of the stamp octets", found.stamps_start, stamps_start, stamps_start)
        || is_wrong(into, "count of stamp octets", found.stamps, found.records, STAMP_LONGEST_IMAGE * found.records)
        || is_wrong(into, "length of the file", (int64_t)length, end, end);
}

bool wrong_in_entry(const entry *of, int64_t start, int64_t end, bool last, wrong_number *into)
{
    return is_wrong(into, "start of the stamp", of->start, start, start)
        || is_wrong(into, "length of the stamp", of->length, last ? end - start : 0, end - start)
        || is_wrong(into, "channel", of->channel, 1, STAMP_MAX_CHANNEL)
        || is_wrong(into, "correction", of->correction, -STAMP_MAX_CORRECTION, STAMP_MAX_CORRECTION);
}
