/* Manual over plan: of which of two schedules the correction is that holds, and where its stamp stands. */
#include "header.h"

#include <string.h>

/* Four records, to be asked beside the plan, whose instants are so many milliseconds after the beginning:
 *     place  channel  correction  milliseconds  stamp
 *     1      1        +3          4             compact
 *     2      2        -9          4             compact
 *     3      3        +5          6             compact
 *     4      1        -7          9             text */
#define MANUAL_LENGTH 96
static const uint8_t manual[MANUAL_LENGTH] = {
    0, 0, 0, 4, 0, 0, 0, 16, 0, 0, 0, 32, 0, 0, 0, 64,
    0, 0, 0, 0, 0, 1, 0, 1, 0, 0, 0, 3,
    0, 0, 0, 1, 0, 1, 0, 2, 0xFF, 0xFF, 0xFF, 0xF7,
    0, 0, 0, 2, 0, 1, 0, 3, 0, 0, 0, 5,
    0, 0, 0, 3, 0, 29, 0, 1, 0xFF, 0xFF, 0xFF, 0xF9,
    4, 4, 6,
    '2', '0', '2', '0', '-', '0', '1', '-', '0', '1', 'T', '0', '0', ':', '0', '0', ':', '0', '0', '.', '0', '0', '9',
    '+', '0', '0', ':', '0', '0'
};

typedef struct lent_file {
    const uint8_t *octets;
    size_t length;
} lent_file;

static const lent_file of_plan = {plan, PLAN_LENGTH}, of_manual = {manual, MANUAL_LENGTH};
static const lent_file of_none = {empty, sizeof empty}, of_null = {NULL, 0};

/* The last octet of the channel of the fourth record: with 0 there, each of the two files is refused, but only where
 * this record is read. */
#define FOURTH_CHANNEL 59

static lent_file spoilt(lent_file of, uint8_t *room)
{
    const lent_file made = {room, of.length};
    memcpy(room, of.octets, of.length);
    room[FOURTH_CHANNEL] = 0;
    return made;
}

static lent_file bad_plan(void)
{
    static uint8_t room[PLAN_LENGTH];
    return spoilt(of_plan, room);
}

static lent_file bad_manual(void)
{
    static uint8_t room[MANUAL_LENGTH];
    return spoilt(of_manual, room);
}

/* ---- One question ---- */

/* Two files and what is asked of them. */
typedef struct question_of_two {
    lent_file plan, manual;
    int64_t instant;
    uint32_t channel;
} question_of_two;

static question_of_two ask(lent_file the_plan, lent_file the_manual, int64_t instant, uint32_t channel)
{
    question_of_two made;
    made.plan = the_plan;
    made.manual = the_manual;
    made.instant = instant;
    made.channel = channel;
    return made;
}

/* So many microseconds after the beginning. */
static question_of_two ask_after(lent_file the_plan, lent_file the_manual, int64_t after, uint32_t channel)
{
    return ask(the_plan, the_manual, beginning + after, channel);
}

static question_of_two ask_both(int64_t after, uint32_t channel)
{
    return ask_after(of_plan, of_manual, after, channel);
}

/* By its part: this is written whatever was lent, and nothing around it. */
static void try_part(const question_of_two *of, uint32_t which, size_t start, size_t length, const char *what)
{
    static const size_t lent[] = {0, 7, SIZE_MAX};
    size_t at;
    for (at = 0; at < sizeof lent / sizeof lent[0]; at++) {
        size_t room[4] = {lent[at], lent[at], lent[at], lent[at]};
        uint32_t found = stamp_schedule_over(of->plan.octets, of->plan.length, of->manual.octets, of->manual.length,
                                             of->instant, of->channel, room + 1);
        try_that(found == which && room[1] == start && room[2] == length && room[0] == lent[at] && room[3] == lent[at],
                 what);
    }
}

/* By its part and by its names. The stamp stands in the very file that was lent. */
static void try_over(question_of_two of, uint32_t which, stamp_held expected, const char *what)
{
    const uint8_t *octets = which == STAMP_OF_MANUAL ? of.manual.octets : of.plan.octets;
    stamp_part part = stamp_over(of.plan.octets, of.plan.length, of.manual.octets, of.manual.length, of.instant,
                                 of.channel);
    stamp_held found = lent_held();
    uint32_t answer = stamp_held_over(of.plan.octets, of.plan.length, of.manual.octets, of.manual.length, of.instant,
                                      of.channel, &found);
    if (expected.length != 0)
        octets += expected.start;
    try_part(&of, which, expected.start, expected.length, what);
    try_that(part.of == which && part.octets == octets && part.length == expected.length, what);
    try_that(answer == which && same_held(&found, &expected), what);
}

/* Where nothing holds or a question is refused: no octets of the plan, and all else 0. */
static void try_nothing(question_of_two of, const char *what)
{
    try_over(of, STAMP_OF_PLAN, none_yet(0), what);
}

/* ---- Which of the two ---- */

static void try_choice(void)
{
    const stamp_held first = held(1, 2, 76, 1, beginning, 25), third = held(3, 4, 78, 29, beginning + 5000, 7);
    const stamp_held early = held(1, 3, 64, 1, beginning + 4000, 3), still = held(1, 4, 64, 1, beginning + 4000, 3);
    const stamp_held fourth = held(4, 4, 67, 29, beginning + 9000, -7);
    try_that(STAMP_OF_PLAN == 0 && STAMP_OF_MANUAL == 1, "the plan is 0, the manual one 1");
    try_nothing(ask_both(-1, 1), "none yet in both");
    try_over(ask_both(0, 1), STAMP_OF_PLAN, first, "only the plan has one");
    try_over(ask_both(3999, 1), STAMP_OF_PLAN, first, "a microsecond before the manual one");
    try_over(ask_both(4000, 1), STAMP_OF_MANUAL, early, "the later instant is the manual one's");
    try_over(ask_both(8999, 1), STAMP_OF_MANUAL, still, "it holds on");
    try_over(ask_both(9000, 1), STAMP_OF_MANUAL, fourth, "the manual one at equality");
    try_over(ask_both(10000, 1), STAMP_OF_MANUAL, fourth, "also later on");
    try_over(ask_both(4999, 2), STAMP_OF_MANUAL, held(2, 3, 65, 1, beginning + 4000, -9), "only the manual one has");
    try_over(ask_both(5000, 2), STAMP_OF_PLAN, third, "the later instant is the plan's");
    try_over(ask_both(6000, 3), STAMP_OF_MANUAL, held(3, 4, 66, 1, beginning + 6000, 5), "the plan has none ever");
    try_over(ask_both(10000, 16), STAMP_OF_PLAN, held(5, 5, 108, 1, beginning + 10000, STAMP_MAX_CORRECTION),
             "nor has the manual one");
    try_nothing(ask_both(10000, 4), "none yet in both, though all are read");
}

static void try_ends(void)
{
    const stamp_held fourth = held(4, 4, 67, 29, beginning + 9000, -7);
    const stamp_held last = held(5, 5, 108, 1, beginning + 10000, STAMP_MAX_CORRECTION);
    try_nothing(ask(of_plan, of_manual, INT64_MIN, 1), "the least number of 64 bits");
    try_nothing(ask(of_plan, of_manual, STAMP_MIN_INSTANT - 1, 1), "a number that no stamp has");
    try_over(ask(of_plan, of_manual, STAMP_MAX_INSTANT + 1, 1), STAMP_OF_MANUAL, fourth, "nor this one");
    try_over(ask(of_plan, of_manual, INT64_MAX, 1), STAMP_OF_MANUAL, fourth, "the greatest number");
    try_over(ask(of_plan, of_manual, INT64_MAX, 16), STAMP_OF_PLAN, last, "the greatest, in the plan");
    try_nothing(ask(of_plan, of_manual, INT64_MAX, 4), "the greatest, and none yet in both");
}

/* Which is the plan and which the manual one is told by where they are lent, and by nothing in them. */
static void try_places(void)
{
    const stamp_held of_first = held(4, 5, 107, 1, beginning + 9000, -1);
    try_over(ask_after(of_manual, of_plan, 9000, 1), STAMP_OF_MANUAL, of_first, "the two changed about, at equality");
    try_over(ask_after(of_manual, of_plan, 5000, 2), STAMP_OF_MANUAL, held(3, 4, 78, 29, beginning + 5000, 7), "later");
    try_over(ask_after(of_plan, of_plan, 9000, 1), STAMP_OF_MANUAL, of_first, "one file lent as both is manual");
    try_nothing(ask_after(of_plan, of_plan, 10000, 3), "and has none yet");
    try_over(ask_after(of_plan, of_none, 9000, 1), STAMP_OF_PLAN, of_first, "a manual one without records");
    try_over(ask_after(of_none, of_plan, 9000, 1), STAMP_OF_MANUAL, of_first, "a plan without records");
    try_nothing(ask_after(of_none, of_none, 9000, 1), "both without records");
}

/* ---- Refusals ---- */

static void try_refused(void)
{
    const lent_file cut = {plan, PLAN_LENGTH - 1};
    const stamp_held early = held(1, 3, 64, 1, beginning + 4000, 3);
    try_over(ask_after(bad_plan(), of_manual, 4999, 1), STAMP_OF_MANUAL, early, "what is bad in the plan is not read");
    try_nothing(ask_after(bad_plan(), of_manual, 5000, 1), "it is read, and the manual one does not count");
    try_nothing(ask_after(bad_plan(), of_manual, 5000, 4), "nor where none holds");
    try_over(ask_after(of_plan, bad_manual(), 5999, 1), STAMP_OF_MANUAL, early, "what is bad in the manual one is not");
    try_nothing(ask_after(of_plan, bad_manual(), 6000, 1), "it is read, and the plan does not count");
    try_nothing(ask_after(of_plan, bad_manual(), 6000, 2), "nor where the plan is the later");
    try_nothing(ask_after(bad_plan(), bad_manual(), 6000, 1), "both are refused");
    try_nothing(ask_after(cut, of_manual, 4000, 1), "a plan cut short");
    try_nothing(ask_after(of_manual, cut, 4000, 1), "a manual one cut short");
    try_nothing(ask(cut, cut, INT64_MIN, 1), "both cut short, though the records are later");
}

/* A null pointer to no octets comes back as it is. */
static void try_null(void)
{
    try_nothing(ask_after(of_null, of_manual, 9000, 1), "no plan");
    try_nothing(ask_after(of_plan, of_null, 9000, 1), "no manual one");
    try_nothing(ask_after(of_null, of_null, 9000, 1), "neither");
    try_that(stamp_over(NULL, 0, manual, sizeof manual, beginning + 9000, 1).octets == NULL, "no octets of no plan");
    try_that(stamp_over(plan, sizeof plan, NULL, 0, beginning + 9000, 1).octets == plan, "no octets of the plan");
}

static void try_channels(void)
{
    size_t at;
    for (at = 0; at < NO_CHANNELS; at++) {
        try_nothing(ask_both(9000, no_channels[at]), "no such channel");
        try_nothing(ask_after(of_null, of_null, 9000, no_channels[at]), "nor of no files");
    }
}

/* ---- All together ---- */

/* What two questions, one of each file, come to. Answers which file. */
static uint32_t by_questions(const question_of_two *of, stamp_held *expected)
{
    stamp_held planned, by_hand;
    uint32_t refusal = stamp_held_at(of->plan.octets, of->plan.length, of->instant, of->channel, &planned);
    uint32_t other = stamp_held_at(of->manual.octets, of->manual.length, of->instant, of->channel, &by_hand);
    *expected = none_yet(0);
    if (refusal != STAMP_ACCEPTED || other != STAMP_ACCEPTED)
        return STAMP_OF_PLAN;
    if (by_hand.place != STAMP_NONE_YET && (planned.place == STAMP_NONE_YET || by_hand.instant >= planned.instant)) {
        *expected = by_hand;
        return STAMP_OF_MANUAL;
    }
    if (planned.place != STAMP_NONE_YET)
        *expected = planned;
    return STAMP_OF_PLAN;
}

static void try_by_questions(lent_file the_plan, lent_file the_manual)
{
    static const int64_t moments[] = {-1, 0, 4000, 4999, 5000, 6000, 9000, 10000};
    static const uint32_t channels[] = {0, 1, 2, 3, 16};
    size_t when, at;
    for (when = 0; when < sizeof moments / sizeof moments[0]; when++)
        for (at = 0; at < sizeof channels / sizeof channels[0]; at++) {
            question_of_two of = ask_after(the_plan, the_manual, moments[when], channels[at]);
            stamp_held expected;
            uint32_t which = by_questions(&of, &expected);
            try_over(of, which, expected, "as two questions have it");
        }
}

/* Every file beside every other and itself. */
static void try_pairs(void)
{
    const lent_file files[] = {of_plan, of_manual, of_none, of_null, bad_plan(), bad_manual()};
    const size_t count = sizeof files / sizeof files[0];
    size_t one, other;
    for (one = 0; one < count; one++)
        for (other = 0; other < count; other++)
            try_by_questions(files[one], files[other]);
}

/* The files are as they were, in memory that could be written to. */
static void try_unchanged(void)
{
    uint8_t own_plan[PLAN_LENGTH], own_manual[MANUAL_LENGTH];
    const lent_file the_plan = {own_plan, sizeof own_plan}, the_manual = {own_manual, sizeof own_manual};
    memcpy(own_plan, plan, sizeof plan);
    memcpy(own_manual, manual, sizeof manual);
    try_by_questions(the_plan, the_manual);
    try_that(memcmp(own_plan, plan, sizeof plan) == 0, "the plan is as it was");
    try_that(memcmp(own_manual, manual, sizeof manual) == 0, "the manual one is as it was");
}

void try_two_schedules(void)
{
    try_choice();
    try_ends();
    try_places();
    try_refused();
    try_null();
    try_channels();
    try_pairs();
    try_unchanged();
}
