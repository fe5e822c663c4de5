/* Schedule files: headers with every number wrong in many ways, every octet of small files, files of a thousand
 * records, and files changed by chance; all of them also asked which correction holds, and some of them, together with
 * another, which stamp does. */
#include "check.h"
#include "make_card.h"
#include "over.h"
#include "parts.h"
#include "question.h"

#include <string.h>

#define COUNT(of) (sizeof (of) / sizeof (of)[0])

/* Every place of a file, those beside them, and some that no file has. */
static void ask_places(const card *file, uint32_t records)
{
    static const uint32_t none[] = {65536, 65537, 0x7FFFFFFF, 0x80000000, 0x80000001, 0xFFFFFFFE, 0xFFFFFFFF};
    for (uint32_t place = 0; place <= records + 2; place++)
        check_schedule_record(file, place);
    for (size_t i = 0; i < COUNT(none); i++)
        check_schedule_record(file, none[i]);
}

/* ---- Headers ---- */

#define RECORDS_THAT_WRAP 357913942    /* 12 times as many are 8 octets once 32 bits have wrapped */

/* Away from what is right, as far as lengths may be and as 32 bits wrap; or another number altogether. The last way is
 * what the other numbers lead to, of which 32 bits are kept, so that a sum that wraps comes out right. */
static uint64_t told(uint64_t right, uint64_t leads_to, size_t way)
{
    static const uint64_t away[] = {0, 1, (uint64_t)-1, 12, (uint64_t)-12, 65536, 0x40000000, 0x80000000, 0xC0000000};
    static const uint64_t others[] = {0, 16, 1000, 1001, 0xFFFFFFFF};
    if (way < COUNT(away))
        return right + away[way];
    return way < HEADER_WAYS - 1 ? others[way - COUNT(away)] : leads_to;
}

/* A unit is a number of records, a length of the file, and a way to tell the count of records; all ways of the rest. */
void try_headers(uint64_t unit, chance *by)
{
    static const int lengths[HEADER_LENGTHS] = {0, 1, -1, 12, -12, 4, -4};
    static card made, other;
    static outline asked_of, of_other;
    const uint32_t records = (uint32_t)(unit % HEADER_CARDS);
    const int longer = lengths[unit / HEADER_CARDS % HEADER_LENGTHS];
    make_card(&made, records, by);
    take_outline(&asked_of, &made, records);
    make_other(&other, &of_other, records, &asked_of, by);
    const uint64_t stamp_octets = card_number(&made, STAMP_OCTETS_AT, 4);
    const uint64_t count = told(records, RECORDS_THAT_WRAP, (size_t)(unit / HEADER_CARDS / HEADER_LENGTHS));
    memset(made.octets + made.length, 0, 12);
    made.length += (size_t)longer;
    put_number(&made, COUNT_AT, count, 4);
    for (size_t i = 0; i < HEADER_WAYS; i++) {
        const uint64_t records_at = told(STAMP_SCHEDULE_HEADER, made.length, i);
        put_number(&made, RECORDS_AT, records_at, 4);
        for (size_t j = 0; j < HEADER_WAYS; j++) {
            const uint64_t stamps_at = told(record_at(records + 1), records_at + STAMP_SCHEDULE_RECORD * count, j);
            put_number(&made, STAMPS_AT, stamps_at, 4);
            for (size_t k = 0; k < HEADER_WAYS; k++) {
                put_number(&made, STAMP_OCTETS_AT, told(stamp_octets, made.length - stamps_at, k), 4);
                check_schedule_read(&made);
                ask_somewhere(&made, &asked_of, by);
                if (k % 4 == 0)
                    ask_over_somewhere(&made, &asked_of, &other, &of_other, by);
            }
        }
    }
}

/* ---- Every octet ---- */

/* A unit is a small file; each octet of it as every octet, and the file in every length up to some octets more. */
void try_cards(uint64_t unit, chance *by)
{
    static card made, other;
    static outline asked_of, of_other;
    const uint32_t records = (uint32_t)(unit % SMALL_CARDS);
    make_card(&made, records, by);
    take_outline(&asked_of, &made, records);
    make_other(&other, &of_other, (uint32_t)chance_below(by, SMALL_CARDS), &asked_of, by);
    check_schedule_read(&made);
    ask_places(&made, records);
    ask_everywhere(&made, &asked_of, 1);
    ask_over_everywhere(&made, &asked_of, &other, &of_other);
    for (size_t at = 0; at < made.length; at++) {
        const uint8_t was = made.octets[at];
        for (int octet = 0; octet <= 255; octet++) {
            made.octets[at] = (uint8_t)octet;
            check_schedule_read(&made);
            ask_somewhere(&made, &asked_of, by);
            if (octet % 8 == was % 8)
                ask_over_somewhere(&made, &asked_of, &other, &of_other, by);
        }
        check_schedule_record(&made, records);
        made.octets[at] = was;
    }
    const size_t length = made.length;
    memset(made.octets + length, 0, 40);
    for (made.length = 0; made.length <= length + 40; made.length++) {
        check_schedule_read(&made);
        check_schedule_record(&made, 1);
        ask_somewhere(&made, &asked_of, by);
        ask_over_somewhere(&made, &asked_of, &other, &of_other, by);
    }
}

/* ---- Many records, long stamps ---- */

/* Stamps of lengths that no stamp has, in their place; in the middle too. */
static void try_long_stamps(void)
{
    static const uint32_t lengths[] = {0, 24, 26, 33, 34, 255, 256, 257, 281, 32767, 32768, 32793, 65534, 65535};
    static card made;
    for (size_t i = 0; i < COUNT(lengths); i++) {
        memset(made.octets, 0, sizeof made.octets);
        put_number(&made, COUNT_AT, 1, 4);
        put_number(&made, RECORDS_AT, STAMP_SCHEDULE_HEADER, 4);
        put_number(&made, STAMP_OCTETS_AT, lengths[i], 4);
        put_number(&made, STAMPS_AT, record_at(2), 4);
        put_number(&made, record_at(1) + LENGTH_AT, lengths[i], 2);
        put_number(&made, record_at(1) + CHANNEL_AT, 1, 2);
        memcpy(made.octets + record_at(2), "2020-01-01T00:00:00+00:00", 25);
        made.length = record_at(2) + lengths[i];
        check_schedule_read(&made);
        check_schedule_record(&made, 1);
        check_schedule_holds(&made, 0, 1);
        made.length--;
        check_schedule_read(&made);
    }
}

/* A unit is a file of 999, 1,000, 1,001 or some records, whole and with changes. */
void try_thousands(uint64_t unit, chance *by)
{
    static card made, changed, other;
    static outline asked_of, of_other;
    static const uint32_t counts[] = {999, 1000, 1001};
    const uint32_t records = unit % 4 < 3 ? counts[unit % 4] : 4 + (uint32_t)chance_below(by, 997);
    make_card(&made, records, by);
    take_outline(&asked_of, &made, records);
    make_other(&other, &of_other, counts[chance_below(by, 2)], &asked_of, by);
    check_schedule_read(&made);
    ask_everywhere(&made, &asked_of, 199);
    for (uint32_t place = records - 1; place <= records + 1; place++)
        check_schedule_record(&made, place);
    for (int round = 0; round < 40; round++) {
        copy_card(&changed, &made);
        change_card(&changed, records, by);
        check_schedule_read(&changed);
        ask_somewhere(&changed, &asked_of, by);
        if (round % 4 == 0)
            check_schedule_record(&changed, 1 + (uint32_t)chance_below(by, records));
        if (round % 4 == 1)
            ask_over_changed(&made, &changed, &asked_of, &other, &of_other, by);
    }
    if (unit == 0)
        try_long_stamps();
}

/* ---- By chance ---- */

/* 10,000 rounds: a file of up to six records, whole or with up to three changes; every 25 rounds it is another file,
 * and so is the one that is asked together with it. */
void try_schedule(uint64_t unit, chance *by)
{
    static card made, changed, other;
    static outline asked_of, of_other;
    uint32_t records = 0;
    (void)unit;
    for (int round = 0; round < CHANCE_ROUNDS; round++) {
        if (round % 25 == 0) {
            records = (uint32_t)chance_below(by, 7);
            make_card(&made, records, by);
            take_outline(&asked_of, &made, records);
            make_other(&other, &of_other, (uint32_t)chance_below(by, 7), &asked_of, by);
            if (check_schedule_read(&made))
                ask_places(&made, records);
            if (chance_once_in(by, 4))
                ask_everywhere(&made, &asked_of, 1);
            if (chance_once_in(by, 64))
                ask_over_everywhere(&made, &asked_of, &other, &of_other);
        }
        copy_card(&changed, &made);
        for (uint64_t changes = 1 + chance_below(by, 3); changes > 0; changes--)
            change_card(&changed, records, by);
        check_schedule_read(&changed);
        ask_somewhere(&changed, &asked_of, by);
        if (chance_once_in(by, 4))
            check_schedule_record(&changed, (uint32_t)chance_below(by, records + 2));
        if (round % 4 == 0)
            ask_over_changed(&made, &changed, &asked_of, &other, &of_other, by);
    }
}
