/* Changes to schedule files: most leave the file right but for one thing. */
#include "make_card.h"

#include <string.h>

#define PICK(by, from) ((from)[chance_below((by), sizeof (from) / sizeof (from)[0])])

static void insert_octet(card *in, size_t at, uint8_t octet)
{
    if (in->length == LONGEST_FILE)
        return;
    memmove(in->octets + at + 1, in->octets + at, in->length - at);
    in->octets[at] = octet;
    in->length++;
}

static void delete_octet(card *in, size_t at)
{
    memmove(in->octets + at, in->octets + at + 1, in->length - at - 1);
    in->length--;
}

static void move_number(card *in, size_t at, int64_t by, int octets)
{
    put_number(in, at, card_number(in, at, octets) + (uint64_t)by, octets);
}

static int64_t small_step(chance *by)
{
    static const int64_t steps[] = {1, -1, 2, -2, 7, -7, 12, -12, 256, -256, 65536, INT64_C(0x40000000),
                                    INT64_C(0x80000000)};
    return PICK(by, steps);
}

static void change_header(card *in, chance *by)
{
    /* 357913942 times 12 wraps 32 bits. */
    static const uint32_t edges[] = {0, 1, 2, 12, 15, 16, 17, 27, 28, 29, 999, 1000, 1001, 65535, 65536, 0x40000000,
                                     357913941, 357913942, 0x7FFFFFFF, 0x80000000, 0xC0000000, 0xFFFFFFF0, 0xFFFFFFF4,
                                     0xFFFFFFFF};
    const size_t at = 4 * (size_t)chance_below(by, 4);
    switch (chance_below(by, 4)) {
    case 0: put_number(in, at, PICK(by, edges), 4); break;
    case 1: put_number(in, at, in->length, 4); break;
    default: move_number(in, at, small_step(by), 4); break;
    }
}

static void change_record(card *in, size_t at, chance *by)
{
    static const uint32_t starts[] = {0, 1, 2, 25, 28, 65536, 0x80000000, 0xFFFFFFFF};
    static const uint32_t lengths[] = {0, 1, 7, 9, 10, 25, 26, 32, 33, 255, 256, 65535};
    static const uint32_t channels[] = {0, 1, 16, 17, 255, 256, 257, 272, 32768, 65535};
    static const int32_t corrections[] = {0, 1000000, -1000000, 1000001, -1000001, 16777216, INT32_MAX, INT32_MIN};
    switch (chance_below(by, 8)) {
    case 0: put_number(in, at + START_AT, PICK(by, starts), 4); break;
    case 1: put_number(in, at + LENGTH_AT, PICK(by, lengths), 2); break;
    case 2: put_number(in, at + CHANNEL_AT, PICK(by, channels), 2); break;
    case 3: put_number(in, at + CORRECTION_AT, (uint32_t)PICK(by, corrections), 4); break;
    case 4: move_number(in, at + START_AT, small_step(by), 4); break;
    case 5: move_number(in, at + LENGTH_AT, small_step(by), 2); break;
    case 6: move_number(in, at + CHANNEL_AT, small_step(by), 2); break;
    default: move_number(in, at + CORRECTION_AT, (int64_t)chance_below(by, 4000001) - 2000000, 4); break;
    }
}

static void change_octet(card *in, chance *by)
{
    const size_t at = (size_t)chance_below(by, in->length);
    switch (chance_below(by, 4)) {
    case 0: in->octets[at] = chance_octet(by); break;
    case 1: in->octets[at] ^= (uint8_t)(1 << chance_below(by, 8)); break;
    case 2: in->octets[at]++; break;
    default: in->octets[at]--; break;
    }
}

/* The starts of all stamps behind a place, which go along with a change there. */
static void move_starts_behind(card *in, uint32_t place, uint32_t records, int64_t by)
{
    for (uint32_t behind = place + 1; behind <= records; behind++)
        move_number(in, record_at(behind) + START_AT, by, 4);
}

/* The border between a stamp and the next, which then are other octets, without gap or overlap. */
static void move_border(card *in, uint32_t place, uint32_t records, chance *by)
{
    const int64_t step = (int64_t)chance_below(by, 5) - 2;
    move_number(in, record_at(place) + LENGTH_AT, step, 2);
    if (place == records)
        return;
    move_number(in, record_at(place + 1) + START_AT, step, 4);
    move_number(in, record_at(place + 1) + LENGTH_AT, -step, 2);
}

/* An octet more or less in the stamp at a place, or right behind it. The numbers of the file go along, but once in a
 * while those of the record or of those behind it do not: then there is a gap, an overlap, or an octet over. */
static void change_stamp_length(card *in, uint32_t place, uint32_t records, chance *by)
{
    const size_t record = record_at(place), length = (size_t)card_number(in, record + LENGTH_AT, 2);
    const size_t at = record_at(records + 1) + (size_t)card_number(in, record + START_AT, 4)
                    + (size_t)chance_below(by, length + 1);
    const int64_t step = chance_once_in(by, 2) ? 1 : -1;
    if (at >= in->length)
        return;
    if (step > 0)
        insert_octet(in, at, chance_once_in(by, 2) ? 0 : in->octets[at]);
    else
        delete_octet(in, at);
    move_number(in, STAMP_OCTETS_AT, step, 4);
    if (!chance_once_in(by, 4))
        move_number(in, record + LENGTH_AT, step, 2);
    if (!chance_once_in(by, 4))
        move_starts_behind(in, place, records, step);
}

/* Two neighbours change places: their records, so that the stamps' order is another, or what is beside the place of the
 * stamp. */
static void exchange_records(card *in, uint32_t place, chance *by)
{
    uint8_t kept[STAMP_SCHEDULE_RECORD];
    const size_t from = chance_once_in(by, 2) ? 0 : CHANNEL_AT;
    uint8_t *one = in->octets + record_at(place) + from, *other = in->octets + record_at(place + 1) + from;
    memcpy(kept, one, STAMP_SCHEDULE_RECORD - from);
    memcpy(one, other, STAMP_SCHEDULE_RECORD - from);
    memcpy(other, kept, STAMP_SCHEDULE_RECORD - from);
}

/* Octets over at the end; half of the time the header tells of them, as octets of the stamps. */
static void lengthen(card *in, chance *by)
{
    const uint64_t more = 1 + chance_below(by, 12);
    for (uint64_t i = 0; i < more; i++)
        insert_octet(in, in->length, chance_octet(by));
    if (chance_once_in(by, 2))
        move_number(in, STAMP_OCTETS_AT, (int64_t)more, 4);
}

/* A gap between header and records or records and stamps, of which the header tells. */
static void open_gap(card *in, uint32_t records, chance *by)
{
    const bool ahead = chance_once_in(by, 2);
    const size_t at = record_at(ahead ? 1 : records + 1);
    if (at > in->length)
        return;
    insert_octet(in, at, 0);
    if (ahead)
        move_number(in, RECORDS_AT, 1, 4);
    move_number(in, STAMPS_AT, 1, 4);
}

void change_card(card *in, uint32_t records, chance *by)
{
    const uint32_t place = 1 + (uint32_t)chance_below(by, records > 0 ? records : 1);
    const uint64_t way = chance_below(by, 16);
    if (in->length == 0 || way == 0)
        lengthen(in, by);
    else if (way == 1)
        in->length = (size_t)chance_below(by, in->length);
    else if (way == 2)
        open_gap(in, records, by);
    else if (way == 3)
        change_header(in, by);
    else if (way <= 6 || records == 0)
        change_octet(in, by);
    else if (way <= 9)
        change_record(in, record_at(place), by);
    else if (way <= 11)
        move_border(in, place, records, by);
    else if (way <= 14 || place == records)
        change_stamp_length(in, place, records, by);
    else
        exchange_records(in, place, by);
}
