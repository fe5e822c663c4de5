/* The neighbours of every limit: numbers read in every count of octets, moments written in every form. */
#include "check.h"
#include "make.h"
#include "parts.h"

#define NEIGHBOURS 130                 /* to each side */
#define COUNT(of) (sizeof (of) / sizeof (of)[0])

/* Ends of what 1 to 8 octets hold, the days of year 1 and 9999, the end of the day, the limits of T, and each of them
 * where a slip might have it: with the sign lost or in microseconds. */
static const int64_t number_edges[] = {
    0, 128, 32768, 8388608, 2147483648, 549755813888, 140737488355328, 36028797018963968,
    -128, -32768, -8388608, -2147483648, -549755813888, -140737488355328, -36028797018963968,
    256, 65536, 16777216, 4294967296, 1099511627776, 281474976710656, 72057594037927936,
    -737424, 2914634, 737424, 3652058, 86400000, -86400000, 86400000000,
    -63713433600000, 63713433600000, 251824464000000, 251824377600000, -251824464000000, 62899200000,
    INT64_MAX - NEIGHBOURS, INT64_MIN + NEIGHBOURS
};

uint64_t number_edge_units(void)
{
    return COUNT(number_edges);
}

/* In 1 to 10 octets, bare and behind offsets; all nine readers. */
static void read_number(uint64_t number)
{
    static const uint64_t offsets[] = {0, 1, 65535, 90, 1439, 64097, 1440, 64096, 32768, 32767, 255, 65280};
    for (int octets = 1; octets <= 10; octets++) {
        image bare = {{0}, 0};
        add_number(&bare, number, octets);
        check_read_by_all(bare.octets, bare.length);
        for (size_t i = 0; i < COUNT(offsets); i++) {
            image behind = {{0}, 0};
            add_number(&behind, offsets[i], 2);
            add_number(&behind, number, octets);
            check_read_by_all(behind.octets, behind.length);
        }
    }
}

/* A unit is an edge. */
void try_numbers_at_edges(uint64_t unit, chance *by)
{
    (void)by;
    for (int64_t away = -NEIGHBOURS; away <= NEIGHBOURS; away++)
        read_number((uint64_t)(number_edges[unit] + away));
}

/* Where T takes one octet more, where it ends, and where a day and a year hand over to the next. */
static const struct {
    uint32_t year, month, day;
    uint64_t micros;
} moment_edges[] = {
    {1, 1, 1, 0}, {1, 1, 1, STAMP_END_OF_DAY},
    {2002, 7, 31, 7386112000},                       /* T is -549755813888 */
    {2019, 12, 7, 12516352000},                      /* -2147483648 */
    {2019, 12, 31, STAMP_END_OF_DAY - 8388608000},
    {2019, 12, 31, STAMP_END_OF_DAY - 32768000},
    {2019, 12, 31, STAMP_END_OF_DAY - 128000},
    {2019, 12, 31, STAMP_END_OF_DAY}, {2020, 1, 1, 0},
    {2020, 1, 1, 128000},
    {2020, 1, 1, 32768000},
    {2020, 1, 1, 8388608000},
    {2020, 1, 25, 73883648000},                      /* 2147483648 */
    {2037, 6, 2, 79013888000},                       /* 549755813888 */
    {6479, 10, 17, 9955328000},                      /* 140737488355328, the first without a plain compact form */
    {6479, 10, 16, STAMP_END_OF_DAY}, {6479, 10, 17, STAMP_END_OF_DAY},
    {9999, 12, 31, 0}, {9999, 12, 31, STAMP_END_OF_DAY},
};

uint64_t moment_edge_units(void)
{
    return COUNT(moment_edges);
}

/* Every kind in every form, into a buffer with room for it, and into every buffer that has none. */
static void write_moment(stamp_value value, chance *by)
{
    const stamp_settings settings[] = {as_text((uint32_t)chance_below(by, 7)), as_compact(), as_extended(),
                                       some_settings(by)};
    for (value.kind = 0; value.kind < STAMP_KINDS; value.kind++) {
        for (size_t i = 0; i < COUNT(settings); i++) {
            image written;
            check_both_ways(&value, settings[i]);
            if (!check_write(&value, settings[i], LONGEST_TRIED, &written))
                continue;
            for (size_t room = written.length + 1; room-- > 0; ) {
                image none;
                check_write(&value, settings[i], room, &none);
            }
        }
    }
}

/* A unit is an edge: the microseconds around it, and the milliseconds around it, under some offsets. */
void try_moments_at_edges(uint64_t unit, chance *by)
{
    static const int32_t offsets[] = {0, 1, -1, 1439, -1439, 1440, -1440};
    uint64_t edge = moment_edges[unit].micros;
    for (size_t i = 0; i < COUNT(offsets); i++) {
        stamp_value value = stamp_datetimetz(moment_edges[unit].year, moment_edges[unit].month, moment_edges[unit].day,
                                             0, offsets[i]);
        for (uint64_t step = 0; step <= 4 * NEIGHBOURS; step++) {
            uint64_t away = step - 2 * NEIGHBOURS;     /* below 0 it wraps to what no time has, and is refused */
            value.micros = edge + away;
            write_moment(value, by);
            value.micros = edge + 1000 * away;
            write_moment(value, by);
        }
    }
}
