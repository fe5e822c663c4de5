/* Tries what include/stamp.h adds to the calls: constants, structs, words; and of the calls on instants what the header
 * promises. The files header_*.c beside this one try those on schedules. Compiled as C99 and as C++17, and linked with
 * the library. Last line: 'N passed, M failed'. */
#include "header.h"

#include <stdio.h>
#include <string.h>

static unsigned passed, failed;

void try_that(bool holds, const char *what)
{
    if (holds) {
        passed++;
    } else {
        failed++;
        printf("FAILED header: %s\n", what);
    }
}

/* 10 to 12 are free. */
static bool is_free(uint32_t refusal)
{
    return refusal > STAMP_REFUSED_RESULT && refusal < STAMP_REFUSED_HEADER;
}

static bool is_sentence(uint32_t refusal, const char *expected)
{
    return strcmp(stamp_refusal_sentence(refusal), expected) == 0;
}

static void try_sentence(uint32_t number)
{
    const char *sentence = stamp_refusal_sentence(number);
    uint32_t other;
    try_that(strlen(sentence) > 10, "each refusal has a sentence");
    /* The tool prints sentences into JSON as they are. */
    try_that(strchr(sentence, '"') == NULL && strchr(sentence, '\\') == NULL, "sentences need no escapes");
    try_that(is_sentence(number, "no such refusal") == is_free(number), "the numbers have no gap but 10 to 12");
    for (other = 0; other < number && !is_free(number); other++)
        try_that(!is_sentence(other, sentence), "no two refusals have one sentence");
}

static void try_sentences(void)
{
    uint32_t number;
    try_that(STAMP_REFUSED_DIGITS == 1 && STAMP_REFUSED_RESULT == 9, "refusals are 1 to 9");
    try_that(STAMP_REFUSED_HEADER == 13 && STAMP_REFUSED_RECORD == 14 && STAMP_REFUSED_ORDER == STAMP_LAST_REFUSAL, "and 13 to 15");
    for (number = 1; number <= STAMP_LAST_REFUSAL; number++)
        try_sentence(number);
    try_that(is_sentence(2, "a part of the value or an offset is out of range, there is no such day, "
                            "no stamp has such an instant, the schedule has no such record, "
                            "or no channel has such a number"), "the sentence of 2");
    try_that(is_sentence(9, "the result can't be given: no stamp has such an instant, "
                            "or the local reading is outside the years 1 to 9999"), "the sentence of 9");
    try_that(is_sentence(13, "the schedule's header is wrong: it is cut short, "
                             "says too many records or stamp octets without records, "
                             "or its regions do not follow it one behind the other and end the file"), "the sentence of 13");
    try_that(is_sentence(14, "a record's channel or correction is out of range, or its stamp is not in its place"), "that of 14");
    try_that(is_sentence(15, "a record's instant is before that of the record before it"), "that of 15");
    try_that(is_sentence(10, "no such refusal") && is_sentence(16, "no such refusal"), "10 and 16 are no refusals");
    try_that(is_sentence(UINT32_MAX, "no such refusal"), "nor is the largest number");
    try_that(strcmp(stamp_kind_name(5), "DatetimeTz") == 0 && *stamp_kind_name(6) == '\0', "names of kinds");
    try_that(strcmp(stamp_form_name(2), "extended") == 0 && *stamp_form_name(3) == '\0', "names of forms");
}

/* A value of each kind, all with the same parts. */
static stamp_value value_of(uint32_t kind, uint64_t micros, int32_t offset)
{
    switch (kind) {
    case STAMP_DATE: return stamp_date(2019, 12, 31);
    case STAMP_DATETZ: return stamp_datetz(2019, 12, 31, offset);
    case STAMP_TIME: return stamp_time(micros);
    case STAMP_TIMETZ: return stamp_timetz(micros, offset);
    case STAMP_DATETIME: return stamp_datetime(2019, 12, 31, micros);
    default: return stamp_datetimetz(2019, 12, 31, micros, offset);
    }
}

static bool same_value(const stamp_value *left, const stamp_value *right)
{
    return left->kind == right->kind && left->year == right->year && left->month == right->month
        && left->day == right->day && left->micros == right->micros && left->offset == right->offset;
}

/* Written, read, and written again in the form found. */
static void try_round(const stamp_value *value, stamp_settings settings, uint32_t form)
{
    uint8_t lent[STAMP_LONGEST_IMAGE + 1], again[STAMP_LONGEST_IMAGE];
    size_t count = 99, count_again = 99;
    stamp_decoded found;
    memset(lent, 0x5A, sizeof lent);
    memset(&found, 0x5A, sizeof found);
    try_that(stamp_encode(value, settings, lent, STAMP_LONGEST_IMAGE, &count) == STAMP_ACCEPTED, "it is written");
    try_that(count <= STAMP_LONGEST_IMAGE && lent[count] == 0x5A, "what is past the stamp stays as lent");
    if (form == STAMP_TEXT)
        try_that(count == stamp_text_length(value->kind, settings.digits), "the text has the length that the header tells");
    try_that(stamp_decode(value->kind, lent, count, &found) == STAMP_ACCEPTED, "it is read");
    try_that(found.form == form && same_value(&found.value, value), "it says the same");
    try_that(stamp_encode(&found.value, stamp_settings_found(&found), again, sizeof again, &count_again) == STAMP_ACCEPTED
             && count_again == count && memcmp(again, lent, count) == 0, "it is written back");
}

static void try_rounds(void)
{
    uint32_t kind, digits;
    for (kind = 0; kind < STAMP_KINDS; kind++) {
        stamp_value whole = value_of(kind, stamp_micros(23, 59, 59, 0), -30);
        stamp_value fine = value_of(kind, stamp_micros(0, 0, 0, 5), 1439);
        uint32_t finest = kind < STAMP_TIME ? STAMP_COMPACT : STAMP_EXTENDED;
        for (digits = 0; digits <= STAMP_MAX_DIGITS; digits++)
            try_round(&whole, stamp_make_settings(false, 0, digits), STAMP_TEXT);
        try_round(&fine, stamp_make_settings(false, 0, STAMP_MAX_DIGITS), STAMP_TEXT);
        try_round(&whole, stamp_make_settings(true, 0, STAMP_DEFAULT_DIGITS), STAMP_COMPACT);
        try_round(&fine, stamp_make_settings(true, STAMP_EXTENDED_FROM, STAMP_MAX_DIGITS), finest);
    }
    try_that(stamp_text_length(STAMP_DATETIMETZ, 6) == STAMP_LONGEST_IMAGE, "the longest text is the longest image");
    try_that(stamp_text_length(6, 0) == 0 && stamp_text_length(STAMP_TIME, 7) == 0, "no such text");
}

/* What a refusal leaves, and that fields which make no time are refused. */
static void try_refused(void)
{
    uint8_t lent[2] = {0x5A, 0x5A};
    size_t count = 99;
    stamp_decoded found;
    stamp_value late = stamp_datetime(2020, 1, 1, stamp_micros(23, 60, 0, 0)), good = stamp_date(2020, 1, 1);
    memset(&found, 0x5A, sizeof found);
    try_that(stamp_encode(&late, stamp_default_settings(), lent, sizeof lent, &count) == STAMP_REFUSED_VALUE, "23:60");
    try_that(count == 0 && lent[0] == 0x5A && lent[1] == 0x5A, "a refused write leaves the buffer, and count 0");
    count = 99;
    try_that(stamp_encode(&good, stamp_default_settings(), NULL, 0, &count) == STAMP_REFUSED_BUFFER, "no room");
    try_that(count == 0, "a refusal for want of room leaves count 0");
    try_that(stamp_decode(STAMP_DATE, lent, 0, &found) == STAMP_REFUSED_LENGTH, "no octets");
    try_that(stamp_decode(STAMP_DATE, NULL, 0, &found) == STAMP_REFUSED_LENGTH, "no octets at a null pointer");
    try_that(stamp_decode(STAMP_READERS, lent, 2, &found) == STAMP_REFUSED_VALUE, "no such kind");
    try_that(found.form == 0x5A5A5A5A && found.value.micros == 0x5A5A5A5A5A5A5A5AU, "a refused read leaves the answer");
}

static void try_micros(void)
{
    try_that(stamp_micros(24, 0, 0, 0) == STAMP_END_OF_DAY, "24:00");
    try_that(stamp_micros(23, 59, 59, 999999) == STAMP_END_OF_DAY - 1, "the last microsecond");
    try_that(stamp_micros(1, 2, 3, 4) == 3723000004U, "01:02:03.000004");
    try_that(stamp_micros(24, 0, 0, 1) > STAMP_END_OF_DAY && stamp_micros(25, 0, 0, 0) > STAMP_END_OF_DAY
             && stamp_micros(0, 60, 0, 0) > STAMP_END_OF_DAY && stamp_micros(0, 0, 60, 0) > STAMP_END_OF_DAY
             && stamp_micros(0, 0, 0, 1000000) > STAMP_END_OF_DAY && stamp_micros(UINT32_MAX, 0, 0, 0) > STAMP_END_OF_DAY,
             "fields that make no time give no time");
}

/* ---- Instants ---- */

/* Likewise a value. */
static stamp_value lent_value(void)
{
    stamp_value lent;
    memset(&lent, 0x5A, sizeof lent);
    return lent;
}

/* By its parts and by its name. */
static void try_instant(stamp_value value, uint32_t refusal, int64_t expected, const char *what)
{
    int64_t by_parts = lent_number, by_name = lent_number;
    if (refusal != STAMP_ACCEPTED)
        expected = lent_number;
    try_that(stamp_instant(value.year, value.month, value.day, value.micros, value.offset, &by_parts) == refusal
             && by_parts == expected, what);
    try_that(stamp_instant_of(&value, &by_name) == refusal && by_name == expected, what);
}

static void try_instants(void)
{
    const uint64_t last = STAMP_END_OF_DAY - 1;
    uint32_t kind;
    try_instant(stamp_datetimetz(1, 1, 1, 0, STAMP_MAX_OFFSET), 0, STAMP_MIN_INSTANT, "the first instant");
    try_instant(stamp_datetimetz(9999, 12, 31, STAMP_END_OF_DAY, -STAMP_MAX_OFFSET), 0, STAMP_MAX_INSTANT, "the last");
    try_instant(stamp_datetimetz(1970, 1, 1, 0, 0), 0, STAMP_UNIX_EPOCH, "what Unix time counts from");
    try_instant(stamp_datetimetz(1, 1, 1, 0, 0), 0, 0, "what instants count from");
    try_instant(stamp_datetimetz(1, 1, 1, stamp_micros(0, 0, 59, 999999), 1), 0, -1, "a microsecond before it");
    try_instant(stamp_datetimetz(2020, 2, 29, last, -270), 0, INT64_C(63718633799999999), "an offset is taken away");
    try_instant(stamp_datetimetz(2020, 2, 29, STAMP_END_OF_DAY, -270), 0, INT64_C(63718633800000000), "24:00");
    try_instant(stamp_datetimetz(2020, 3, 1, 0, -270), 0, INT64_C(63718633800000000), "24:00 is the next day's start");
    try_instant(stamp_datetimetz(0, 1, 1, 0, 0), 2, 0, "no year 0");
    try_instant(stamp_datetimetz(10000, 1, 1, 0, 0), 2, 0, "no year 10000");
    try_instant(stamp_datetimetz(2021, 2, 29, 0, 0), 2, 0, "no such day");
    try_instant(stamp_datetimetz(2020, 1, 1, STAMP_END_OF_DAY + 1, 0), 2, 0, "no such time");
    try_instant(stamp_datetimetz(2020, 1, 1, 0, STAMP_MAX_OFFSET + 1), 2, 0, "no such offset ahead");
    try_instant(stamp_datetimetz(2020, 1, 1, 0, -STAMP_MAX_OFFSET - 1), 2, 0, "no such offset behind");
    try_instant(stamp_datetimetz(UINT32_MAX, UINT32_MAX, UINT32_MAX, UINT64_MAX, INT32_MIN), 2, 0, "any numbers");
    for (kind = 0; kind < STAMP_DATETIMETZ; kind++) {
        stamp_value other = value_of(kind, 0, 0);
        int64_t instant = lent_number;
        try_that(stamp_instant_of(&other, &instant) == 2 && instant == lent_number, "other kinds have no instant");
    }
}

static void try_sum(int64_t instant, int64_t micros, uint32_t refusal, int64_t expected, const char *what)
{
    int64_t sum = lent_number;
    try_that(stamp_add(instant, micros, &sum) == refusal && sum == (refusal == 0 ? expected : lent_number), what);
}

static void try_difference(int64_t a, int64_t b, uint32_t refusal, int64_t expected, const char *what)
{
    int64_t found = lent_number;
    try_that(stamp_difference(a, b, &found) == refusal && found == (refusal == 0 ? expected : lent_number), what);
}

static void try_sums(void)
{
    const int64_t least = STAMP_MIN_INSTANT, greatest = STAMP_MAX_INSTANT, span = STAMP_MAX_INSTANT - STAMP_MIN_INSTANT;
    try_sum(STAMP_UNIX_EPOCH, INT64_C(1577836800000000), 0, INT64_C(63713433600000000), "2020 by its Unix time");
    try_sum(least, 0, 0, least, "nothing added to the least");
    try_sum(greatest, 0, 0, greatest, "nothing added to the greatest");
    try_sum(least, span, 0, greatest, "from end to end");
    try_sum(greatest, -span, 0, least, "and back");
    try_sum(least, -1, 9, 0, "before the least");
    try_sum(greatest, 1, 9, 0, "past the greatest");
    try_sum(greatest, INT64_MAX, 9, 0, "a sum that overflows");
    try_sum(least, INT64_MIN, 9, 0, "a sum that overflows downwards");
    try_sum(least - 1, 1, 2, 0, "no stamp has the instant that is added to, though one has the sum");
    try_sum(greatest + 1, -1, 2, 0, "nor this one");
    try_sum(INT64_MAX, INT64_MAX, 2, 0, "2 before 9");
    try_sum(INT64_MIN, INT64_MIN, 2, 0, "2 before 9 downwards");
    try_difference(greatest, least, 0, span, "the greatest difference");
    try_difference(least, greatest, 0, -span, "the other way round it is below 0");
    try_difference(STAMP_UNIX_EPOCH, STAMP_UNIX_EPOCH, 0, 0, "no difference");
    try_difference(least - 1, 0, 2, 0, "no stamp has the first instant");
    try_difference(0, greatest + 1, 2, 0, "no stamp has the second");
    try_difference(INT64_MIN, INT64_MAX, 2, 0, "nor these");
}

/* The stamp that was answered, by its parts and by its name; after a refusal both stay as lent. */
static void try_stamp(uint32_t refusal, const int64_t parts[5], const stamp_value *found, const stamp_value *expected,
                      const char *what)
{
    stamp_value by_parts = stamp_value_of_parts(parts), lent = lent_value();
    size_t at;
    if (refusal == STAMP_ACCEPTED) {
        try_that(same_value(&by_parts, expected) && same_value(found, expected), what);
        return;
    }
    try_that(same_value(found, &lent), what);
    for (at = 0; at < 5; at++)
        try_that(parts[at] == lent_number, what);
}

static void try_at(int64_t instant, int32_t offset, uint32_t refusal, stamp_value expected, const char *what)
{
    int64_t parts[5] = {lent_number, lent_number, lent_number, lent_number, lent_number};
    stamp_value found = lent_value();
    try_that(stamp_at(instant, offset, parts) == refusal, what);
    try_that(stamp_value_at(instant, offset, &found) == refusal, what);
    try_stamp(refusal, parts, &found, &expected, what);
}

static void try_ats(void)
{
    const stamp_value none = lent_value();
    try_at(STAMP_UNIX_EPOCH, 0, 0, stamp_datetimetz(1970, 1, 1, 0, 0), "the epoch at UTC");
    try_at(STAMP_UNIX_EPOCH, -270, 0, stamp_datetimetz(1969, 12, 31, stamp_micros(19, 30, 0, 0), -270), "behind UTC");
    try_at(STAMP_MIN_INSTANT, STAMP_MAX_OFFSET, 0, stamp_datetimetz(1, 1, 1, 0, STAMP_MAX_OFFSET), "the least");
    try_at(STAMP_MAX_INSTANT - 1, -STAMP_MAX_OFFSET, 0,
           stamp_datetimetz(9999, 12, 31, STAMP_END_OF_DAY - 1, -STAMP_MAX_OFFSET), "the greatest but one");
    try_at(STAMP_MAX_INSTANT, -STAMP_MAX_OFFSET, 9, none, "never at 24:00");
    try_at(-1, 0, 9, none, "before year 1");
    try_at(STAMP_MIN_INSTANT, STAMP_MAX_OFFSET - 1, 9, none, "before year 1, ahead of UTC");
    try_at(STAMP_MIN_INSTANT - 1, STAMP_MAX_OFFSET, 2, none, "no such instant");
    try_at(STAMP_MAX_INSTANT + 1, 0, 2, none, "nor such");
    try_at(0, STAMP_MAX_OFFSET + 1, 2, none, "no such offset");
    try_at(-1, INT32_MIN, 2, none, "2 before 9");
    try_at(INT64_MIN, INT32_MAX, 2, none, "any numbers");
}

/* By its parts, by its name, and into the very value that is restated. */
static void try_restated(stamp_value value, int32_t to, uint32_t refusal, stamp_value expected, const char *what)
{
    int64_t parts[5] = {lent_number, lent_number, lent_number, lent_number, lent_number};
    stamp_value found = lent_value(), own = value;
    try_that(stamp_restate(value.year, value.month, value.day, value.micros, value.offset, to, parts) == refusal, what);
    try_that(stamp_restate_value(&value, to, &found) == refusal, what);
    try_that(stamp_restate_value(&own, to, &own) == refusal, what);
    try_stamp(refusal, parts, &found, &expected, what);
    try_that(same_value(&own, refusal == STAMP_ACCEPTED ? &expected : &value), what);
}

static void try_restating(void)
{
    const stamp_value none = lent_value();
    const stamp_value noon = stamp_datetimetz(2020, 2, 29, stamp_micros(12, 0, 0, 5), -270);
    const stamp_value end = stamp_datetimetz(2020, 2, 29, STAMP_END_OF_DAY, 60), date = stamp_date(2020, 2, 29);
    stamp_value found = lent_value();
    try_restated(noon, 270, 0, stamp_datetimetz(2020, 2, 29, stamp_micros(21, 0, 0, 5), 270), "nine hours on");
    try_restated(noon, -270, 0, noon, "at its own offset it is the same");
    try_restated(end, 60, 0, stamp_datetimetz(2020, 3, 1, 0, 60), "but never at 24:00");
    try_restated(end, -60, 0, stamp_datetimetz(2020, 2, 29, stamp_micros(22, 0, 0, 0), -60), "24:00 behind UTC");
    try_restated(stamp_datetimetz(1, 1, 1, 0, 0), -1, 9, none, "before year 1");
    try_restated(stamp_datetimetz(9999, 12, 31, STAMP_END_OF_DAY, 0), 0, 9, none, "after year 9999");
    try_restated(noon, STAMP_MAX_OFFSET + 1, 2, none, "no such offset");
    try_restated(stamp_datetimetz(2021, 2, 29, 0, 0), 0, 2, none, "no such day");
    try_restated(stamp_datetimetz(1, 1, 1, STAMP_END_OF_DAY + 1, 0), -1, 2, none, "2 before 9");
    try_that(stamp_restate_value(&date, 0, &found) == 2 && same_value(&found, &none), "a Date has no instant");
}

int main(void)
{
    try_sentences();
    try_rounds();
    try_refused();
    try_micros();
    try_instants();
    try_sums();
    try_ats();
    try_restating();
    try_schedules();
    try_questions();
    try_two_schedules();
    printf("%u passed, %u failed\n", passed, failed);
    return failed == 0 ? 0 : 1;
}
