#include "question.h"

#include "../second/fast.h"

#define COUNT(of) (sizeof (of) / sizeof (of)[0])
#define PICK(by, from) ((from)[chance_below((by), COUNT(from))])

static const int64_t far_instants[] = {
    INT64_MIN, INT64_MIN + 1, STAMP_MIN_INSTANT - 1, STAMP_MIN_INSTANT, -1, 0, 1, STAMP_MAX_INSTANT,
    STAMP_MAX_INSTANT + 1, INT64_MAX - 1, INT64_MAX
};
static const uint32_t bad_channels[] = {
    0, 17, 32, 255, 256, 257, 272, 65536, 65537, 0x7FFFFFFF, 0x80000001, 0xFFFFFFF1, 0xFFFFFFFF
};

/* Of the stamp at a place. */
static int64_t instant_at(const card *of, uint32_t place, size_t stamps)
{
    const size_t record = record_at(place);
    const uint8_t *stamp = of->octets + stamps + card_number(of, record + START_AT, 4);
    int64_t parts[8] = {0}, instant = 0;
    fast_read(STAMP_DATETIMETZ, stamp, (size_t)card_number(of, record + LENGTH_AT, 2), parts);
    fast_instant((uint32_t)parts[3], (uint32_t)parts[4], (uint32_t)parts[5], (uint64_t)parts[6], (int32_t)parts[7],
                 &instant);
    return instant;
}

void take_outline(outline *to, const card *of, uint32_t records)
{
    to->records = records;
    for (uint32_t i = 0; i < records; i++) {
        to->instants[i] = instant_at(of, i + 1, record_at(records + 1));
        to->channels[i] = (uint32_t)card_number(of, record_at(i + 1) + CHANNEL_AT, 2);
    }
}

/* At an instant and beside it, for a channel and the next one. */
static void ask_beside(const card *file, int64_t instant, uint32_t channel)
{
    for (int64_t away = -1; away <= 1; away++) {
        check_schedule_holds(file, instant + away, channel);
        check_schedule_holds(file, instant + away, channel % STAMP_MAX_CHANNEL + 1);
    }
}

void ask_everywhere(const card *file, const outline *of, uint32_t step)
{
    const uint32_t records = of->records;
    for (uint32_t i = records == 0 ? 0 : (records - 1) % step; i < records; i += step)
        ask_beside(file, of->instants[i], of->channels[i]);
    for (size_t i = 0; i < COUNT(far_instants); i++)
        check_schedule_holds(file, far_instants[i], records == 0 ? 1 : of->channels[i % records]);
    for (size_t i = 0; i < COUNT(bad_channels); i++)
        check_schedule_holds(file, records == 0 ? 0 : of->instants[i % records], bad_channels[i]);
}

int64_t instant_to_ask(const outline *of, chance *by)
{
    if (of->records > 0 && !chance_once_in(by, 8)) {
        const int64_t instant = of->instants[chance_below(by, of->records)];
        return instant + (int64_t)chance_below(by, 3) - 1;
    }
    return chance_once_in(by, 4) ? (int64_t)chance_bits(by) : PICK(by, far_instants);
}

uint32_t channel_to_ask(const outline *of, chance *by)
{
    const uint64_t way = chance_below(by, 16);
    if (way == 0)
        return PICK(by, bad_channels);
    if (way <= 3 || of->records == 0)
        return 1 + (uint32_t)chance_below(by, STAMP_MAX_CHANNEL);
    return of->channels[chance_below(by, of->records)];
}

void ask_somewhere(const card *file, const outline *of, chance *by)
{
    const int64_t instant = instant_to_ask(of, by);
    check_schedule_holds(file, instant, channel_to_ask(of, by));
}
