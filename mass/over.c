#include "over.h"

void make_other(card *file, outline *of, uint32_t records, const outline *beside, chance *by)
{
    if (beside->records == 0 || chance_once_in(by, 8))
        make_card(file, records, by);
    else
        make_card_beside(file, records, beside, by);
    take_outline(of, file, records);
}

/* Each as the plan, and each as both. */
static void ask_both_ways(const card *one, const card *other, int64_t instant, uint32_t channel)
{
    check_schedule_over(one, other, instant, channel);
    check_schedule_over(other, one, instant, channel);
    check_schedule_over(one, one, instant, channel);
    check_schedule_over(other, other, instant, channel);
}

/* Of the records of one of them. */
static void ask_beside(const card *one, const card *other, const outline *of)
{
    for (uint32_t i = 0; i < of->records; i++)
        for (int64_t away = -1; away <= 1; away++)
            ask_both_ways(one, other, of->instants[i] + away, of->channels[i]);
}

void ask_over_everywhere(const card *one, const outline *of_one, const card *other, const outline *of_other)
{
    static const card no_octets;
    ask_beside(one, other, of_one);
    ask_beside(one, other, of_other);
    ask_both_ways(one, other, INT64_MIN, 1);
    ask_both_ways(one, other, INT64_MAX, 1);
    ask_both_ways(one, other, INT64_MAX, STAMP_MAX_CHANNEL + 1);
    ask_both_ways(one, &no_octets, INT64_MAX, of_one->records == 0 ? 1 : of_one->channels[0]);
}

void ask_over_somewhere(const card *one, const outline *of_one, const card *other, const outline *of_other, chance *by)
{
    const outline *of = chance_once_in(by, 2) ? of_one : of_other;
    const int64_t instant = instant_to_ask(of, by);
    const uint32_t channel = channel_to_ask(of, by);
    const bool same = chance_once_in(by, 16);
    if (chance_once_in(by, 2))
        check_schedule_over(one, same ? one : other, instant, channel);
    else
        check_schedule_over(other, same ? other : one, instant, channel);
}

void ask_over_changed(const card *whole, const card *changed, const outline *of, const card *other,
                      const outline *of_other, chance *by)
{
    static card other_changed;
    switch (chance_below(by, 4)) {
    case 0:
        ask_over_somewhere(changed, of, other, of_other, by);
        break;
    case 1:
        copy_card(&other_changed, other);
        change_card(&other_changed, of_other->records, by);
        ask_over_somewhere(changed, of, &other_changed, of_other, by);
        break;
    default:
        ask_over_somewhere(whole, of, other, of_other, by);
        break;
    }
}
