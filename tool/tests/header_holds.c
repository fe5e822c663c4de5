/* The question which correction holds on a channel at an instant. */
#include "header.h"

#include <string.h>

const uint8_t plan[PLAN_LENGTH] = {
    0, 0, 0, 5, 0, 0, 0, 16, 0, 0, 0, 33, 0, 0, 0, 76,
    0, 0, 0, 0, 0, 1, 0, 1, 0, 0, 0, 25,
    0, 0, 0, 1, 0, 1, 0, 2, 0xFF, 0xFF, 0xFF, 0xD8,
    0, 0, 0, 2, 0, 29, 0, 2, 0, 0, 0, 7,
    0, 0, 0, 31, 0, 1, 0, 1, 0xFF, 0xFF, 0xFF, 0xFF,
    0, 0, 0, 32, 0, 1, 0, 16, 0, 0x0F, 0x42, 0x40,
    0, 5,
    '2', '0', '2', '0', '-', '0', '1', '-', '0', '1', 'T', '0', '0', ':', '0', '0', ':', '0', '0', '.', '0', '0', '5',
    '+', '0', '0', ':', '0', '0',
    9, 10
};

const uint32_t no_channels[NO_CHANNELS] = {0, STAMP_MAX_CHANNEL + 1, 257, 65537, UINT32_MAX};

/* A file and what is asked of it. */
typedef struct question {
    const uint8_t *file;
    size_t length;
    int64_t instant;
    uint32_t channel;
} question;

static question ask(const uint8_t *file, size_t length, int64_t instant, uint32_t channel)
{
    question made;
    made.file = file;
    made.length = length;
    made.instant = instant;
    made.channel = channel;
    return made;
}

/* Of the plan, so many microseconds after its first record. */
static question ask_plan(int64_t after, uint32_t channel)
{
    return ask(plan, sizeof plan, beginning + after, channel);
}

/* ---- Answers and refusals ---- */

stamp_held none_yet(uint32_t read)
{
    stamp_held made;
    memset(&made, 0, sizeof made);
    made.place = STAMP_NONE_YET;
    made.read = read;
    return made;
}

stamp_held held(uint32_t place, uint32_t read, size_t start, size_t length, int64_t instant, int32_t correction)
{
    stamp_held made;
    made.read = read;
    made.place = place;
    made.start = start;
    made.length = length;
    made.instant = instant;
    made.correction = correction;
    return made;
}

stamp_held lent_held(void)
{
    stamp_held lent;
    memset(&lent, 0x5A, sizeof lent);
    return lent;
}

bool same_held(const stamp_held *left, const stamp_held *right)
{
    return left->read == right->read && left->place == right->place && left->start == right->start
        && left->length == right->length && left->instant == right->instant && left->correction == right->correction;
}

/* By its parts and by its name. */
static void try_answer(question of, stamp_held expected, const char *what)
{
    int64_t parts[5] = {lent_number, lent_number, lent_number, lent_number, lent_number};
    uint32_t read = 99;
    stamp_held found = lent_held();
    try_that(stamp_schedule_holds(of.file, of.length, of.instant, of.channel, &read, parts) == STAMP_ACCEPTED, what);
    try_that(read == expected.read && parts[0] == expected.place, what);
    try_that(parts[1] == (int64_t)expected.start && parts[2] == (int64_t)expected.length, what);
    try_that(parts[3] == expected.instant && parts[4] == expected.correction, what);
    try_that(stamp_held_at(of.file, of.length, of.instant, of.channel, &found) == STAMP_ACCEPTED, what);
    try_that(same_held(&found, &expected), what);
}

/* Nothing is read then, and all else stays as lent. */
static void try_refusal(question of, uint32_t refusal, const char *what)
{
    int64_t parts[5] = {lent_number, lent_number, lent_number, lent_number, lent_number};
    uint32_t read = 99;
    stamp_held found = lent_held(), expected = lent_held();
    size_t at;
    expected.read = 0;
    try_that(stamp_schedule_holds(of.file, of.length, of.instant, of.channel, &read, parts) == refusal, what);
    try_that(read == 0, what);
    for (at = 0; at < 5; at++)
        try_that(parts[at] == lent_number, what);
    try_that(stamp_held_at(of.file, of.length, of.instant, of.channel, &found) == refusal, what);
    try_that(same_held(&found, &expected), what);
}

/* ---- The plan ---- */

static void try_plan(void)
{
    const stamp_held first = held(1, 2, 76, 1, beginning, 25), third = held(3, 4, 78, 29, beginning + 5000, 7);
    const stamp_held last = held(5, 5, 108, 1, beginning + 10000, STAMP_MAX_CORRECTION);
    try_answer(ask_plan(-1, 1), none_yet(1), "before the first record, which is read");
    try_answer(ask_plan(0, 1), first, "at its instant");
    try_answer(ask_plan(4999, 1), first, "until the next record");
    try_answer(ask_plan(0, 2), none_yet(2), "none yet of another channel");
    try_answer(ask_plan(4999, 2), none_yet(2), "a microsecond too early");
    try_answer(ask_plan(5000, 2), third, "the last of two at one instant");
    try_answer(ask_plan(8999, 2), third, "it holds on");
    try_answer(ask_plan(5000, 1), held(1, 4, 76, 1, beginning, 25), "other channels count in what is read");
    try_answer(ask_plan(9000, 1), held(4, 5, 107, 1, beginning + 9000, -1), "a later record of the channel");
    try_answer(ask_plan(9999, 16), none_yet(5), "none yet, and the last record is the later one");
    try_answer(ask_plan(10000, 16), last, "the last record, and all are read");
    try_answer(ask_plan(10000, 3), none_yet(5), "none yet, and all are read");
    try_answer(ask(plan, sizeof plan, INT64_MIN, 1), none_yet(1), "the least number of 64 bits");
    try_answer(ask(plan, sizeof plan, STAMP_MIN_INSTANT - 1, 1), none_yet(1), "a number that no stamp has");
    try_answer(ask(plan, sizeof plan, STAMP_MAX_INSTANT + 1, 16), last, "nor this one");
    try_answer(ask(plan, sizeof plan, INT64_MAX, 16), last, "the greatest number");
    try_answer(ask(plan, sizeof plan, INT64_MAX, 3), none_yet(5), "the greatest number, and none yet");
    try_answer(ask(empty, sizeof empty, INT64_MIN, 1), none_yet(0), "no records, and none is read");
    try_answer(ask(empty, sizeof empty, INT64_MAX, STAMP_MAX_CHANNEL), none_yet(0), "nor at the other end");
}

/* What holds, gone by over all records of the plan. */
static stamp_held over_all(question of)
{
    stamp_held answer = none_yet(0);
    stamp_record found;
    uint32_t place, later = 0;
    for (place = 1; stamp_record_at(of.file, of.length, place, &found) == STAMP_ACCEPTED; place++) {
        if (found.instant > of.instant && later == 0)
            later = place;
        if (found.instant <= of.instant && found.channel == of.channel)
            answer = held(place, 0, found.start, found.length, found.instant, found.correction);
    }
    answer.read = later != 0 ? later : place - 1;
    return answer;
}

static void try_all_channels(void)
{
    int64_t after;
    uint32_t channel;
    for (after = -1000; after <= 11000; after += 500)
        for (channel = 1; channel <= STAMP_MAX_CHANNEL; channel++)
            try_answer(ask_plan(after, channel), over_all(ask_plan(after, channel)), "the answer over all records");
}

/* ---- Refusals ---- */

static void try_channels(void)
{
    size_t at;
    for (at = 0; at < NO_CHANNELS; at++) {
        try_refusal(ask_plan(0, no_channels[at]), STAMP_REFUSED_VALUE, "no such channel");
        try_refusal(ask(NULL, 0, 0, no_channels[at]), STAMP_REFUSED_VALUE, "before the file");
        try_refusal(ask(plan, 40, INT64_MIN, no_channels[at]), STAMP_REFUSED_VALUE, "before a file cut short");
    }
}

static void try_headers(void)
{
    uint8_t longer[PLAN_LENGTH + 1] = {0};
    size_t length;
    memcpy(longer, plan, sizeof plan);
    try_refusal(ask(NULL, 0, 0, 1), STAMP_REFUSED_HEADER, "no octets at a null pointer");
    for (length = 0; length < sizeof plan; length++)
        try_refusal(ask(plan, length, INT64_MIN, 1), STAMP_REFUSED_HEADER, "cut short, though the records are later");
    try_refusal(ask(longer, sizeof longer, INT64_MIN, 1), STAMP_REFUSED_HEADER, "an octet over");
}

/* The plan with one octet changed: the refusal, and the record that it is for, or 0 for the header. */
typedef struct change {
    size_t at;
    uint8_t octet;
    uint32_t refusal, place;
    const char *what;
} change;

/* It is refused where the bad record is read, be it the first later one; where that one comes before it, the answer is
 * as if nothing were wrong. */
static void try_changed_plan(const change *made, int64_t after, uint32_t channel)
{
    uint8_t changed[PLAN_LENGTH];
    stamp_held expected = over_all(ask_plan(after, channel));
    memcpy(changed, plan, sizeof plan);
    changed[made->at] = made->octet;
    if (made->place <= expected.read)
        try_refusal(ask(changed, sizeof changed, beginning + after, channel), made->refusal, made->what);
    else
        try_answer(ask(changed, sizeof changed, beginning + after, channel), expected, made->what);
}

static void try_changed_plans(void)
{
    static const change changes[] = {
        {3, 6, 13, 0, "a record too many"}, {11, 32, 13, 0, "a stamp octet too few"},
        {15, 77, 13, 0, "stamps elsewhere"}, {23, 17, 14, 1, "no channel 17"}, {35, 0, 14, 2, "no channel 0"},
        {36, 0x80, 14, 2, "a correction too far"}, {43, 3, 14, 3, "a gap"}, {55, 30, 14, 4, "an overlap"},
        {69, 0, 14, 5, "the last stamp ends too early"},
        {33, 0, 5, 2, "no stamp octets"}, {88, 'X', 6, 3, "no T"}, {101, '-', 7, 3, "-00:00"},
        {83, '9', 8, 3, "month 91"}, {107, 1, 15, 4, "an instant before that of the record before"}
    };
    static const int64_t moments[] = {-1, 0, 4999, 5000, 9000, 10000};
    size_t at, when;
    for (at = 0; at < sizeof changes / sizeof changes[0]; at++)
        for (when = 0; when < sizeof moments / sizeof moments[0]; when++) {
            try_changed_plan(&changes[at], moments[when], 1);
            try_changed_plan(&changes[at], moments[when], 2);
        }
}

/* An octet between the last stamp and the end of the file is the last record's fault, and no other's. */
static void try_last_stamp(void)
{
    uint8_t longer[PLAN_LENGTH + 1] = {0};
    memcpy(longer, plan, sizeof plan);
    longer[11] = 34;
    try_answer(ask(longer, sizeof longer, beginning + 8999, 2), held(3, 4, 78, 29, beginning + 5000, 7), "four read");
    try_refusal(ask(longer, sizeof longer, beginning + 9000, 2), STAMP_REFUSED_RECORD, "and now the last");
}

/* ---- Large files ---- */

/* Every record there may be, all at one instant. */
static void try_most(void)
{
    static uint8_t most[STAMP_SCHEDULE_HEADER + (STAMP_SCHEDULE_RECORD + 1) * STAMP_MAX_RECORDS];
    const size_t stamps = STAMP_SCHEDULE_HEADER + STAMP_SCHEDULE_RECORD * STAMP_MAX_RECORDS;
    const stamp_held last = held(1000, 1000, stamps + 999, 1, beginning, 999);
    const stamp_held last_but_one = held(999, 1000, stamps + 998, 1, beginning, 998);
    uint32_t at;
    put_number(most, 4, STAMP_MAX_RECORDS);
    put_number(most + 4, 4, STAMP_SCHEDULE_HEADER);
    put_number(most + 8, 4, STAMP_MAX_RECORDS);
    put_number(most + 12, 4, (uint32_t)stamps);
    for (at = 0; at < STAMP_MAX_RECORDS; at++) {
        uint8_t *record = most + STAMP_SCHEDULE_HEADER + STAMP_SCHEDULE_RECORD * at;
        put_number(record, 4, at);
        put_number(record + 4, 2, 1);
        put_number(record + 6, 2, 1 + at % 2);
        put_number(record + 8, 4, at);
    }
    try_answer(ask(most, sizeof most, beginning - 1, 2), none_yet(1), "the first of 1,000 is later");
    try_answer(ask(most, sizeof most, beginning, 2), last, "the last of 1,000");
    try_answer(ask(most, sizeof most, beginning, 1), last_but_one, "the last but one");
    try_answer(ask(most, sizeof most, beginning, 3), none_yet(1000), "none of 1,000");
}

/* Full reading takes no file that is so long; but what is too long stands in the second record. */
static void try_too_long(void)
{
    static uint8_t longer[STAMP_LONGEST_SCHEDULE + 1];
    const size_t stamps = STAMP_SCHEDULE_HEADER + STAMP_SCHEDULE_RECORD * 2;
    uint32_t records, fault, refusal;
    put_number(longer, 4, 2);
    put_number(longer + 4, 4, STAMP_SCHEDULE_HEADER);
    put_number(longer + 8, 4, (uint32_t)(sizeof longer - stamps));
    put_number(longer + 12, 4, (uint32_t)stamps);
    put_number(longer + 20, 2, 1);
    put_number(longer + 22, 2, 1);
    put_number(longer + 28, 4, 1);
    put_number(longer + 32, 2, (uint32_t)(sizeof longer - stamps - 1));
    put_number(longer + 34, 2, 1);
    try_answer(ask(longer, sizeof longer, beginning - 1, 1), none_yet(1), "the second record is not looked at");
    try_refusal(ask(longer, sizeof longer, beginning, 1), STAMP_REFUSED_LENGTH, "it is, and its stamp is too long");
    refusal = stamp_schedule_read(longer, sizeof longer, &records, &fault);
    try_that(refusal == STAMP_REFUSED_LENGTH && fault == 2, "as full reading refuses it");
}

void try_questions(void)
{
    try_plan();
    try_all_channels();
    try_channels();
    try_headers();
    try_changed_plans();
    try_last_stamp();
    try_most();
    try_too_long();
}
