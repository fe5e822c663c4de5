/* Every date, and every wrong one beside a right one; every day number that three octets can hold. */
#include "check.h"
#include "make.h"
#include "parts.h"

static const uint32_t dated_kinds[] = {STAMP_DATE, STAMP_DATETZ, STAMP_DATETIME, STAMP_DATETIMETZ};

/* The text of a date that no writer writes, put together here. */
static void read_wrong_date(const stamp_value *value)
{
    image text = {{0}, 0};
    add_decimal(&text, value->year, 4);
    add_octet(&text, '-');
    add_decimal(&text, value->month, 2);
    add_octet(&text, '-');
    add_decimal(&text, value->day, 2);
    if (value->kind >= STAMP_DATETIME)
        add_text(&text, "T12:34:56.789");
    if (value->kind % 2 == 1)
        add_text(&text, value->offset < 0 ? "-00:30" : "+23:59");
    check_read_by_two(value->kind, text.octets, text.length);
}

static void try_date(uint32_t year, uint32_t month, uint32_t day, chance *by)
{
    uint64_t micros = some_micros(by);
    int32_t offset = some_offset(by);
    for (int i = 0; i < 4; i++) {
        stamp_value value = stamp_make_value(dated_kinds[i], year, month, day, micros, offset);
        if (!check_both_ways(&value, as_text((uint32_t)chance_below(by, STAMP_MAX_DIGITS + 1))))
            read_wrong_date(&value);
        check_both_ways(&value, as_compact());
        if (value.kind >= STAMP_DATETIME)
            check_both_ways(&value, as_extended());
    }
}

/* A unit is a year, 0 and 10000 too; months 0 to 13 and days 0 to 32, so that no calendar is needed here. */
void try_dates(uint64_t unit, chance *by)
{
    for (uint32_t month = 0; month <= 13; month++)
        for (uint32_t day = 0; day <= 32; day++)
            try_date((uint32_t)unit, month, day, by);
}

static void read_day_number(uint64_t number, chance *by)
{
    uint64_t micros = some_micros(by);
    uint64_t offset = (uint64_t)some_offset(by);
    image plain = {{0}, 0}, zoned = {{0}, 0}, days = {{0}, 0};
    add_number(&plain, 0x8000, 2);
    add_number(&plain, number, 3);
    add_number(&plain, micros, 5);
    add_number(&zoned, 0x9000 + offset % 4096, 2);
    add_number(&zoned, number, 3);
    add_number(&zoned, micros, 5);
    add_number(&days, offset, 2);
    add_number(&days, number, 3);
    check_read_by_two(STAMP_DATETIME, plain.octets, plain.length);
    check_read_by_two(STAMP_DATETIMETZ, zoned.octets, zoned.length);
    check_read_by_two(STAMP_DATETZ, days.octets, days.length);
}

/* A unit is the first octet of the number: the day number of the extended forms and the days of a DateTz. */
void try_day_numbers(uint64_t unit, chance *by)
{
    for (uint64_t rest = 0; rest < 65536; rest++)
        read_day_number(unit * 65536 + rest, by);
}
