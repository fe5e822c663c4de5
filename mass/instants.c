/* Instants: every offset at the years' ends, every midnight, the neighbours of every limit, and by chance. */
#include "check.h"
#include "make.h"
#include "parts.h"

#define MINUTE INT64_C(60000000)
#define DAY ((int64_t)STAMP_END_OF_DAY)
#define DAYS INT64_C(3652059)          /* of the years 1 to 9999 */
#define NEIGHBOURS 20                  /* to each side */
#define COUNT(of) (sizeof (of) / sizeof (of)[0])

/* a less b, which may wrap: what comes out then is one more number to try. */
static int64_t less(int64_t a, int64_t b)
{
    return (int64_t)((uint64_t)a - (uint64_t)b);
}

/* ---- Every offset ---- */

/* The years' ends, and midnights that end a day, a month and a leap day. */
static const struct {
    uint32_t year, month, day;
    uint64_t micros;
} moments[] = {
    {1, 1, 1, 0}, {1, 1, 1, 59999999}, {1, 1, 1, STAMP_END_OF_DAY},
    {1969, 12, 31, STAMP_END_OF_DAY - 1}, {2020, 2, 28, STAMP_END_OF_DAY}, {2020, 3, 1, 0},
    {9999, 12, 31, 0}, {9999, 12, 31, STAMP_END_OF_DAY - 60000000}, {9999, 12, 31, STAMP_END_OF_DAY - 1},
    {9999, 12, 31, STAMP_END_OF_DAY},
};

/* The instants at which the local reading is at a midnight, from both sides, and those at the limits. */
static void try_at(int32_t offset)
{
    static const int64_t midnights[] = {0, 1, 2, 719162, 737424, 737483, DAYS - 1, DAYS, DAYS + 1};
    static const int64_t limits[] = {STAMP_MIN_INSTANT, STAMP_MAX_INSTANT, 0, INT64_MIN + 1, INT64_MAX - 1};
    stamp_value found;
    for (int64_t near = -1; near <= 1; near++) {
        for (size_t i = 0; i < COUNT(midnights); i++)
            check_at(midnights[i] * DAY - offset * MINUTE + near, offset, &found);
        for (size_t i = 0; i < COUNT(limits); i++)
            check_at(limits[i] + near, offset, &found);
    }
}

/* A unit is an offset, -1500 to 1500: that of the stamps, which are restated at every such offset. */
void try_zones(uint64_t unit, chance *by)
{
    const int32_t offset = (int32_t)unit - 1500;
    (void)by;
    for (size_t i = 0; i < COUNT(moments); i++) {
        const stamp_value value = stamp_datetimetz(moments[i].year, moments[i].month, moments[i].day, moments[i].micros,
                                                   offset);
        check_instant(&value, NULL);
        for (int32_t to = -1500; to <= 1500; to++)
            check_restate(&value, to);
    }
    try_at(offset);
}

/* ---- Every midnight ---- */

/* The midnight with which a day begins at an offset: the stamps around it, restated over it, and 24:00 of the day
 * before, which is the same midnight. */
static void try_midnight(int64_t day, int32_t offset)
{
    const int64_t midnight = day * DAY - offset * MINUTE;
    stamp_value found;
    check_at(midnight + 1, offset, &found);
    if (check_at(midnight, offset, &found))
        check_restate(&found, offset - 1);
    if (!check_at(midnight - 1, offset, &found))
        return;
    check_restate(&found, offset + 1);
    found.micros = STAMP_END_OF_DAY;
    check_instant(&found, &midnight);
    check_restate(&found, offset);
}

/* A unit is a thousand day numbers, from -2 on, so that both ends are passed. */
void try_midnights(uint64_t unit, chance *by)
{
    for (int64_t day = (int64_t)unit * 1000 - 2; day < (int64_t)unit * 1000 + 998; day++) {
        try_midnight(day, 0);
        try_midnight(day, STAMP_MAX_OFFSET);
        try_midnight(day, -STAMP_MAX_OFFSET);
        try_midnight(day, some_offset(by));
    }
}

/* ---- The neighbours of every limit ---- */

/* The ends of instants, of the years in UTC, of differences, and of 64 bits; what a slip might take for an end, with a
 * sign lost or a whole day off; the ends of 32 bits and of the whole numbers of a double; 1970 and 2020. */
static const int64_t instant_edges[] = {
    STAMP_MIN_INSTANT, STAMP_MAX_INSTANT, 0, DAYS * DAY, STAMP_MAX_INSTANT - STAMP_MIN_INSTANT,
    STAMP_MIN_INSTANT - STAMP_MAX_INSTANT, INT64_MAX - NEIGHBOURS, INT64_MIN + NEIGHBOURS,
    -STAMP_MIN_INSTANT, -STAMP_MAX_INSTANT, -DAY, DAY, DAYS * DAY + DAY,
    2147483648, -2147483648, 4294967296, -4294967296, 9007199254740992, -9007199254740992,
    STAMP_UNIX_EPOCH, 737424 * DAY,
};

uint64_t instant_edge_units(void)
{
    return COUNT(instant_edges);
}

/* With every neighbour of every edge, and to every offset. */
static void try_number(int64_t number)
{
    stamp_value found;
    for (size_t i = 0; i < COUNT(instant_edges); i++) {
        for (int64_t away = -NEIGHBOURS; away <= NEIGHBOURS; away++) {
            const int64_t other = instant_edges[i] + away;
            check_add(number, other);
            check_difference(number, other);
            check_add(number, less(other, number));    /* leads to the other where it does not wrap */
        }
    }
    for (int32_t offset = -1500; offset <= 1500; offset++)
        check_at(number, offset, &found);
}

/* A unit is an edge. */
void try_sums(uint64_t unit, chance *by)
{
    (void)by;
    for (int64_t away = -NEIGHBOURS; away <= NEIGHBOURS; away++)
        try_number(instant_edges[unit] + away);
}

/* ---- By chance ---- */

/* A part once in a while wrong; one in four at an end of the years. */
static stamp_value any_stamp(chance *by)
{
    stamp_value made = any_value(by);
    const uint64_t end = chance_below(by, 8);
    if (end == 0)
        return stamp_datetimetz(1, 1, 1, made.micros, made.offset);
    if (end == 1)
        return stamp_datetimetz(9999, 12, 31, made.micros, made.offset);
    return made;
}

static int64_t some_edge(chance *by)
{
    const int64_t edge = instant_edges[chance_below(by, COUNT(instant_edges))];
    const int64_t away = (int64_t)chance_below(by, 2 * NEIGHBOURS + 1) - NEIGHBOURS;
    return edge + away;
}

/* Right mostly, often less than three days from an end. */
static int64_t any_instant(chance *by)
{
    switch (chance_below(by, 8)) {
    case 0: return (int64_t)chance_bits(by);
    case 1: return some_edge(by);
    case 2: return STAMP_MIN_INSTANT + (int64_t)chance_below(by, 3 * STAMP_END_OF_DAY);
    case 3: return STAMP_MAX_INSTANT - (int64_t)chance_below(by, 3 * STAMP_END_OF_DAY);
    default: return STAMP_MIN_INSTANT + (int64_t)chance_below(by, STAMP_MAX_INSTANT - STAMP_MIN_INSTANT + 1);
    }
}

/* What is added to an instant: of any size, whole days, at an edge, or what leads to another, right or wrong. */
static int64_t any_step(chance *by, int64_t from)
{
    const uint64_t bits = chance_below(by, 64);
    switch (chance_below(by, 5)) {
    case 0: return (int64_t)(chance_bits(by) >> bits);
    case 1: return less(0, (int64_t)(chance_bits(by) >> bits));
    case 2: return ((int64_t)chance_below(by, 2 * DAYS) - DAYS) * DAY;
    case 3: return some_edge(by);
    default: return less(any_instant(by), from);
    }
}

/* 10,000 rounds to all five calls. */
void try_random_instants(uint64_t unit, chance *by)
{
    (void)unit;
    for (int round = 0; round < CHANCE_ROUNDS; round++) {
        const stamp_value value = any_stamp(by);
        const int64_t a = any_instant(by);
        const int64_t b = any_instant(by);
        stamp_value found;
        check_instant(&value, NULL);
        check_restate(&value, any_offset(by));
        check_at(a, any_offset(by), &found);
        check_add(a, any_step(by, a));
        check_difference(a, b);
    }
}
