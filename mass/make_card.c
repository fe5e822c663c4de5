#include "make_card.h"

#include <string.h>

#include "../second/fast.h"
#include "make.h"

#define PICK(by, from) ((from)[chance_below((by), sizeof (from) / sizeof (from)[0])])
#define DAY ((int64_t)STAMP_END_OF_DAY)

size_t record_at(uint32_t place)
{
    return STAMP_SCHEDULE_HEADER + (size_t)STAMP_SCHEDULE_RECORD * (place - 1);
}

uint64_t card_number(const card *of, size_t at, int octets)
{
    uint64_t number = 0;
    for (int i = 0; i < octets; i++)
        number = number * 256 + of->octets[at + (size_t)i];
    return number;
}

void put_number(card *in, size_t at, uint64_t number, int octets)
{
    for (int i = octets - 1; i >= 0; i--, number /= 256)
        in->octets[at + (size_t)i] = (uint8_t)number;
}

void copy_card(card *to, const card *from)
{
    to->length = from->length;
    memcpy(to->octets, from->octets, from->length);
}

/* What all instants of a file are a multiple of: one that its forms can tell. */
static const int64_t grains[] = {1, 1000, 1000000};

/* A form that keeps all instants of the grain. */
static stamp_settings settings_for(int64_t grain, chance *by)
{
    if (grain == 1000000)
        return some_settings(by);
    const uint32_t fewest = grain == 1 ? 6 : 3;
    switch (chance_below(by, grain == 1 ? 2 : 3)) {
    case 0: return as_extended();
    case 1: return as_text(fewest + (uint32_t)chance_below(by, 7 - fewest));
    default: return as_compact();
    }
}

/* The stamp of an instant at some offset, and its length; a midnight as 24:00 once in a while. Near the years' ends
 * there is only the furthest offset, and no compact form. */
static size_t put_stamp(uint8_t *to, int64_t instant, int64_t grain, chance *by)
{
    const stamp_settings settings = settings_for(grain, by);
    const int32_t offset = some_offset(by);
    int64_t parts[5];
    size_t length;
    if (fast_at(instant, offset, parts) != 0)
        fast_at(instant, instant < DAY ? STAMP_MAX_OFFSET : -STAMP_MAX_OFFSET, parts);
    if (parts[3] == 0 && chance_once_in(by, 2) && fast_at(instant - 1, (int32_t)parts[4], parts) == 0)
        parts[3] = DAY;
    const stamp_value value = stamp_value_of_parts(parts);
    if (fast_write(value.kind, value.year, value.month, value.day, value.micros, value.offset, settings.binary,
                   settings.version, settings.digits, to, STAMP_LONGEST_IMAGE, &length) != 0)
        fast_write(value.kind, value.year, value.month, value.day, value.micros, value.offset, false, 0,
                   STAMP_MAX_DIGITS, to, STAMP_LONGEST_IMAGE, &length);
    return length;
}

static int64_t floor_to(int64_t number, int64_t grain)
{
    const int64_t over = number % grain;
    return number - (over < 0 ? over + grain : over);
}

/* Near 2020 mostly, else anywhere. */
static int64_t first_instant(int64_t grain, chance *by)
{
    const int64_t of_2020 = 737424 * DAY;
    switch (chance_below(by, 8)) {
    case 0: return STAMP_MIN_INSTANT;
    case 1: return STAMP_MAX_INSTANT - 1000000 * (1 + (int64_t)chance_below(by, 2000000));
    case 2: return floor_to((int64_t)chance_below(by, STAMP_MAX_INSTANT), grain);
    case 3: return of_2020;
    default: return floor_to(of_2020 + (int64_t)chance_below(by, 3000 * (uint64_t)DAY), grain);
    }
}

/* The same instant often, else a grain later, some later, or at the next midnight; never the last of all, which only a
 * stamp with 24:00 has. */
static int64_t next_instant(int64_t instant, int64_t grain, chance *by)
{
    int64_t next = instant;
    switch (chance_below(by, 5)) {
    case 0: break;
    case 1: next += grain; break;
    case 2: next += grain * (int64_t)chance_below(by, 100000); break;
    case 3: next = floor_to(next, DAY) + DAY; break;
    default: next += grain * (int64_t)chance_below(by, (uint64_t)(30 * DAY / grain)); break;
    }
    return next < STAMP_MAX_INSTANT - DAY ? next : instant;
}

static uint32_t some_correction(chance *by)
{
    static const int32_t edges[] = {0, 1, -1, STAMP_MAX_CORRECTION, -STAMP_MAX_CORRECTION, 65535, -65536, 999999};
    if (chance_once_in(by, 2))
        return (uint32_t)PICK(by, edges);
    return (uint32_t)((int32_t)chance_below(by, 2 * STAMP_MAX_CORRECTION + 1) - STAMP_MAX_CORRECTION);
}

/* The record at a place, and its stamp behind those before it, of which there are `start` octets; how many there are
 * with it. */
static size_t put_record(card *to, uint32_t place, uint32_t records, size_t start, int64_t instant, int64_t grain,
                         chance *by)
{
    const size_t at = record_at(place);
    const size_t length = put_stamp(to->octets + record_at(records + 1) + start, instant, grain, by);
    put_number(to, at + START_AT, start, 4);
    put_number(to, at + LENGTH_AT, length, 2);
    put_number(to, at + CORRECTION_AT, some_correction(by), 4);
    return start + length;
}

static void put_channel(card *to, uint32_t place, uint64_t channel)
{
    put_number(to, record_at(place) + CHANNEL_AT, channel, 2);
}

/* The header, which ends the making. */
static void put_header(card *to, uint32_t records, size_t stamp_octets)
{
    const size_t stamps = record_at(records + 1);
    put_number(to, COUNT_AT, records, 4);
    put_number(to, RECORDS_AT, STAMP_SCHEDULE_HEADER, 4);
    put_number(to, STAMP_OCTETS_AT, stamp_octets, 4);
    put_number(to, STAMPS_AT, stamps, 4);
    to->length = stamps + stamp_octets;
}

void make_card(card *to, uint32_t records, chance *by)
{
    const int64_t grain = PICK(by, grains);
    const uint32_t early = chance_once_in(by, 8) ? 2 + (uint32_t)chance_below(by, 3) : 0;
    const uint64_t channels = chance_once_in(by, 2) ? 1 + chance_below(by, 3) : STAMP_MAX_CHANNEL;
    int64_t instant = first_instant(grain, by), before = instant;
    size_t octets = 0;
    for (uint32_t place = 1; place <= records; place++) {
        const int64_t told = place == early && before > STAMP_MIN_INSTANT ? before - grain : instant;
        octets = put_record(to, place, records, octets, told, grain, by);
        put_channel(to, place, 1 + chance_below(by, channels));
        before = instant;
        instant = next_instant(instant, grain, by);
    }
    put_header(to, records, octets);
}

/* The coarsest that tells the instant. */
static int64_t grain_of(int64_t instant)
{
    return instant % 1000000 == 0 ? 1000000 : instant % 1000 == 0 ? 1000 : 1;
}

void make_card_beside(card *to, uint32_t records, const outline *of, chance *by)
{
    static const int64_t away[] = {0, 0, 0, 0, 1, -1, 1000, -1000, 1000000};
    int64_t instant = STAMP_MIN_INSTANT;
    size_t octets = 0;
    for (uint32_t place = 1; place <= records; place++) {
        const uint32_t beside = (uint32_t)((uint64_t)(place - 1) * of->records / records);
        const int64_t next = of->instants[beside] + PICK(by, away);
        if (next > instant && next < STAMP_MAX_INSTANT)
            instant = next;
        octets = put_record(to, place, records, octets, instant, grain_of(instant), by);
        put_channel(to, place, chance_once_in(by, 4) ? 1 + chance_below(by, 3) : of->channels[beside]);
    }
    put_header(to, records, octets);
}
