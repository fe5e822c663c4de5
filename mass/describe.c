#include "describe.h"

#include <inttypes.h>
#include <stdarg.h>
#include <stdio.h>

#define FILE_SAID 400                  /* octets of a file; there must be room for the answers behind them */
#define FILE_OF_TWO_SAID 200           /* octets of each of two */

static void say(words *to, const char *format, ...)
{
    va_list rest;
    va_start(rest, format);
    int said = vsnprintf(to->text + to->length, DIFFERENCE_ROOM - to->length, format, rest);
    va_end(rest);
    to->length += (size_t)said;
    if (to->length > DIFFERENCE_ROOM - 1)
        to->length = DIFFERENCE_ROOM - 1;
}

static void say_hex(words *to, const uint8_t *octets, size_t length)
{
    for (size_t i = 0; i < length; i++)
        say(to, "%02X", (unsigned)octets[i]);
    if (length == 0)
        say(to, "-");
}

static void say_value(words *to, const stamp_value *value)
{
    say(to, "year %" PRIu32 " month %" PRIu32 " day %" PRIu32 ", micros %" PRIu64 ", offset %" PRId32,
        value->year, value->month, value->day, value->micros, value->offset);
}

static void say_file_up_to(words *to, const card *file, size_t most)
{
    say(to, "%zu octets: ", file->length);
    say_hex(to, file->octets, file->length < most ? file->length : most);
    if (file->length > most)
        say(to, "..");
}

static void say_file(words *to, const card *file)
{
    say_file_up_to(to, file, FILE_SAID);
}

void say_call(words *to, const call *made)
{
    switch (made->which) {
    case ASKED_WRITE:
        say(to, "write, kind %" PRIu32 ", ", made->value.kind);
        say_value(to, &made->value);
        say(to, ", %s, version %" PRIu32 ", digits %" PRIu32 ", room %zu", made->settings.binary ? "binary" : "text",
            made->settings.version, made->settings.digits, made->room);
        break;
    case ASKED_READ:
        say(to, "read, kind %" PRIu32 ", %zu octets: ", made->kind, made->read.length);
        say_hex(to, made->read.octets, made->read.length);
        break;
    case ASKED_INSTANT:
        say(to, "instant, ");
        say_value(to, &made->value);
        break;
    case ASKED_ADD:
        say(to, "add, instant %" PRId64 ", micros %" PRId64, made->a, made->b);
        break;
    case ASKED_DIFFERENCE:
        say(to, "difference, a %" PRId64 ", b %" PRId64, made->a, made->b);
        break;
    case ASKED_AT:
        say(to, "at, instant %" PRId64 ", offset %" PRId32, made->a, made->to);
        break;
    case ASKED_RESTATE:
        say(to, "restate, ");
        say_value(to, &made->value);
        say(to, ", to %" PRId32, made->to);
        break;
    case ASKED_SCHEDULE_READ:
        say(to, "schedule read, ");
        say_file(to, &made->file);
        break;
    case ASKED_SCHEDULE_RECORD:
        say(to, "schedule record, place %" PRIu32 ", ", made->place);
        say_file(to, &made->file);
        break;
    case ASKED_SCHEDULE_HOLDS:
        say(to, "schedule holds, instant %" PRId64 ", channel %" PRIu32 ", ", made->a, made->channel);
        say_file(to, &made->file);
        break;
    case ASKED_SCHEDULE_OVER:
        say(to, "schedule over, instant %" PRId64 ", channel %" PRIu32 ", plan ", made->a, made->channel);
        say_file_up_to(to, &made->file, FILE_OF_TWO_SAID);
        say(to, ", manual ");
        say_file_up_to(to, &made->manual, FILE_OF_TWO_SAID);
        break;
    }
    say(to, "\n");
}

void say_write(words *to, const char *who, const write_answer *answer)
{
    say(to, "  %s refusal %" PRIu32 ", count %zu, buffer between its guards ", who, answer->refusal, answer->count);
    say_hex(to, answer->area, GUARD);
    say(to, " ");
    say_hex(to, answer->area + GUARD, LONGEST_TRIED);
    say(to, " ");
    say_hex(to, answer->area + GUARD + LONGEST_TRIED, GUARD);
    say(to, "\n");
}

/* The parts of each call in order; a null ends them. A write, a full reading and manual over plan fill none. */
static const char *const part_names[][9] = {
    [ASKED_WRITE] = {NULL},
    [ASKED_READ] = {"kind", "form", "digits", "year", "month", "day", "micros", "offset"},
    [ASKED_INSTANT] = {"instant"},
    [ASKED_ADD] = {"sum"},
    [ASKED_DIFFERENCE] = {"difference"},
    [ASKED_AT] = {"year", "month", "day", "micros", "offset"},
    [ASKED_RESTATE] = {"year", "month", "day", "micros", "offset"},
    [ASKED_SCHEDULE_READ] = {NULL},
    [ASKED_SCHEDULE_RECORD] = {"channel", "correction", "instant", "start", "length"},
    [ASKED_SCHEDULE_HOLDS] = {"place", "start", "length", "instant", "correction"},
    [ASKED_SCHEDULE_OVER] = {NULL},
};

int parts_filled(asked which)
{
    int count = 0;
    while (part_names[which][count] != NULL)
        count++;
    return count;
}

void say_parts(words *to, const char *who, asked which, const parts_answer *answer)
{
    const char *const *names = part_names[which];
    say(to, "  %s refusal %" PRIu32, who, answer->refusal);
    for (int i = 0; names[i] != NULL; i++) {
        if (part_is_as_lent(answer, 1 + i))
            say(to, ", %s -", names[i]);
        else
            say(to, ", %s %" PRId64, names[i], answer->parts[1 + i]);
    }
    say(to, "\n");
}

void say_whole(words *to, const char *who, const whole_answer *answer)
{
    say(to, "  %s refusal %" PRIu32 ", records %" PRIu32 ", fault %" PRIu32 "\n", who, answer->refusal,
        answer->numbers[RECORDS], answer->numbers[FAULT]);
}

void say_held(words *to, const char *who, const held_answer *answer)
{
    say_parts(to, who, ASKED_SCHEDULE_HOLDS, &answer->record);
    say(to, "           records read %" PRIu32 "\n", answer->numbers[RECORDS_READ]);
}

void say_over(words *to, const char *who, const over_answer *answer)
{
    say(to, "  %s of %" PRIu32 ", start %zu, length %zu\n", who, answer->of, answer->part[PART_START],
        answer->part[PART_LENGTH]);
}

void say_held_of(words *to, const char *who, uint32_t of, const stamp_held *answer)
{
    say(to, "  %s of %" PRIu32 ", records read %" PRIu32 ", place %" PRIu32 ", start %zu, length %zu, instant %" PRId64
        ", correction %" PRId32 "\n", who, of, answer->read, answer->place, answer->start, answer->length,
        answer->instant, answer->correction);
}

void say_wanted_instant(words *to, int64_t instant)
{
    say(to, "  wanted:  instant %" PRId64 "\n", instant);
}
