/* Every millisecond of the day, every fraction of a second, and every two digits in each field of a text. */
#include "check.h"
#include "make.h"
#include "parts.h"

/* A unit is a second, 24:00 and the (wrong) rest of its second too. Compact as Time; microseconds are cut. */
void try_milliseconds(uint64_t unit, chance *by)
{
    for (uint64_t milli = 0; milli < 1000; milli++) {
        uint64_t micros = unit * 1000000 + milli * 1000 + (unit == 86400 ? 0 : chance_below(by, 1000));
        stamp_value plain = stamp_time(micros);
        image written;
        if (check_write(&plain, as_compact(), LONGEST_TRIED, &written))
            check_read(STAMP_TIME, written.octets, written.length);
        if (milli % 16 == unit % 16) {
            stamp_value zoned = stamp_timetz(micros, some_offset(by));
            check_both_ways(&zoned, as_compact());
            check_both_ways(&zoned, as_extended());
            check_both_ways(&zoned, as_text((uint32_t)chance_below(by, STAMP_MAX_DIGITS + 1)));
        }
    }
}

/* A unit is a millisecond of a second; each microsecond of it under every digits setting, of some second. */
void try_fractions(uint64_t unit, chance *by)
{
    for (uint64_t micro = 0; micro < 1000; micro++) {
        uint64_t micros = chance_below(by, 86400) * 1000000 + unit * 1000 + micro;
        for (uint32_t digits = 0; digits <= 8; digits++) {
            stamp_value value = stamp_time(micros);
            check_both_ways(&value, as_text(digits));
            check_both_ways(&value, stamp_make_settings(true, STAMP_EXTENDED_FROM, digits));
        }
    }
}

static void add_time(image *to, uint64_t hour, uint64_t minute, uint64_t second)
{
    add_decimal(to, hour, 2);
    add_octet(to, ':');
    add_decimal(to, minute, 2);
    add_octet(to, ':');
    add_decimal(to, second, 2);
}

static void read_time(uint64_t hour, uint64_t minute, uint64_t second, chance *by)
{
    static const char *const fractions[] = {"", ".0", ".1", ".00", ".01", ".000", ".999", ".0000", ".00000", ".00001",
                                            ".000000", ".000001", ".999999"};
    const char *fraction = fractions[chance_below(by, sizeof fractions / sizeof fractions[0])];
    image plain = {{0}, 0}, zoned = {{0}, 0}, dated = {{0}, 0};
    add_time(&plain, hour, minute, second);
    check_read_by_two(STAMP_TIME, plain.octets, plain.length);
    add_text(&plain, fraction);
    check_read_by_two(STAMP_TIME, plain.octets, plain.length);
    add_time(&zoned, hour, minute, second);
    add_text(&zoned, fraction);
    add_text(&zoned, "-04:30");
    check_read_by_two(STAMP_TIMETZ, zoned.octets, zoned.length);
    add_text(&dated, "2020-02-29T");
    add_time(&dated, hour, minute, second);
    add_text(&dated, fraction);
    check_read_by_two(STAMP_DATETIME, dated.octets, dated.length);
}

static void read_offset(char sign, uint64_t hours, uint64_t minutes, chance *by)
{
    static const char *const before[] = {"2020-02-29", "2021-02-29", "12:34:56", "24:00:00.000000", "24:00:01",
                                         "2020-02-29T12:34:56", "9999-12-31T24:00:00.000000",
                                         "0000-12-31T24:00:00.000"};
    static const uint32_t kinds[] = {STAMP_DATETZ, STAMP_DATETZ, STAMP_TIMETZ, STAMP_TIMETZ, STAMP_TIMETZ,
                                     STAMP_DATETIMETZ, STAMP_DATETIMETZ, STAMP_DATETIMETZ};
    for (int i = 0; i < 8; i++) {
        image made = {{0}, 0};
        add_text(&made, before[i]);
        add_octet(&made, (uint8_t)sign);
        add_decimal(&made, hours, 2);
        add_octet(&made, ':');
        add_decimal(&made, minutes, 2);
        check_read_by_two(kinds[i], made.octets, made.length);
        /* and with one octet wrong, which comes before -00:00 and before what is out of range */
        uint64_t place = chance_below(by, made.length);
        made.octets[place] = chance_octet(by);
        check_read_by_two(kinds[i], made.octets, made.length);
    }
}

/* A unit is what stands for the hour, 00 to 99, of a time and of an offset; all that may stand for the rest. */
void try_text_fields(uint64_t unit, chance *by)
{
    for (uint64_t minute = 0; minute <= 99; minute++) {
        for (uint64_t second = 0; second <= 99; second++)
            read_time(unit, minute, second, by);
        read_offset('+', unit, minute, by);
        read_offset('-', unit, minute, by);
    }
}
