/* Every offset written, and every offset field read. */
#include "check.h"
#include "make.h"
#include "parts.h"

static const uint32_t zoned_kinds[] = {STAMP_DATETZ, STAMP_TIMETZ, STAMP_DATETIMETZ};

static void try_offset(stamp_value value)
{
    static const uint32_t versions[] = {0, STAMP_EXTENDED_FROM - 1, STAMP_EXTENDED_FROM, 4294967295};
    for (uint32_t digits = 0; digits <= 8; digits++) {
        check_both_ways(&value, as_text(digits));
        for (int i = 0; i < 4; i++)
            check_both_ways(&value, stamp_make_settings(true, versions[i], digits));
    }
}

/* A unit is an offset, -1500 to 1500: every zoned kind, form and digits setting, some moments. */
void try_offsets(uint64_t unit, chance *by)
{
    int32_t offset = (int32_t)unit - 1500;
    static const uint64_t times[] = {0, 1, 1000, 45296789012, STAMP_END_OF_DAY - 1, STAMP_END_OF_DAY};
    static const uint32_t years[] = {1, 2019, 2020, 6479, 9999};
    for (int kind = 0; kind < 3; kind++) {
        for (int time = 0; time < 6; time++)
            for (int year = 0; year < 5; year++)
                try_offset(stamp_make_value(zoned_kinds[kind], years[year], 12, 31, times[time], offset));
        for (int i = 0; i < 10; i++) {
            stamp_value value = some_value(by, zoned_kinds[kind]);
            value.offset = offset;
            try_offset(value);
        }
    }
}

/* What may follow an offset in compact: right, redundant, out of range; of every length that a reader could take. */
static void read_behind(uint64_t offset, chance *by)
{
    static const uint64_t rests[] = {0, 1, 127, 128, 32767, 32768, 86400000, 86400001, 8388607, 8388608, 2147483648,
                                     549755813887, 549755813888, 251824463999999, 251824464000000,
                                     (uint64_t)-1, (uint64_t)-128, (uint64_t)-129, (uint64_t)-737424, (uint64_t)-737425,
                                     (uint64_t)-549755813888, (uint64_t)-549755813889, (uint64_t)-63713433600000,
                                     (uint64_t)-63713433600001};
    for (int octets = 1; octets <= 8; octets++) {
        for (size_t i = 0; i < sizeof rests / sizeof rests[0]; i++) {
            image made = {{0}, 0};
            add_number(&made, offset, 2);
            add_number(&made, chance_once_in(by, 8) ? chance_bits(by) : rests[i], octets);
            for (int zoned = 0; zoned < 3; zoned++)
                check_read_by_two(zoned_kinds[zoned], made.octets, made.length);
        }
    }
}

/* The same sixteen bits as the header of an extended form. */
static void read_header(uint64_t header)
{
    static const uint64_t micros[] = {0, 1, STAMP_END_OF_DAY, STAMP_END_OF_DAY + 1, 1099511627775};
    static const uint64_t days[] = {0, 737424, 3652058, 3652059, 16777215};
    for (int time = 0; time < 5; time++) {
        image timed = {{0}, 0};
        add_number(&timed, header, 2);
        add_number(&timed, micros[time], 5);
        check_read_by_all(timed.octets, timed.length);
        for (int day = 0; day < 5; day++) {
            image dated = {{0}, 0};
            add_number(&dated, header, 2);
            add_number(&dated, days[day], 3);
            add_number(&dated, micros[time], 5);
            check_read_by_two(STAMP_DATETIME, dated.octets, dated.length);
            check_read_by_two(STAMP_DATETIMETZ, dated.octets, dated.length);
        }
    }
}

/* A unit is the high octet of the sixteen bits. */
void try_offset_fields(uint64_t unit, chance *by)
{
    for (uint64_t low = 0; low < 256; low++) {
        read_behind(unit * 256 + low, by);
        read_header(unit * 256 + low);
    }
}
