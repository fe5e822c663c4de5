#include "schedule_refusal.h"

#include "print.h"
#include "say.h"

/* ---- What is shown ---- */

/* A part of the file, and so much of it as is shown. */
typedef struct span {
    const uint8_t *octets;
    size_t length;
} span;

static span shown_of(span whole, size_t most)
{
    if (whole.length > most)
        whole.length = most;
    return whole;
}

/* The record; for place 0 the header, or what there is of it. */
static span refused_octets(const schedule *of, uint32_t place)
{
    span found = {of->octets, of->length};
    if (place == 0)
        return shown_of(found, STAMP_SCHEDULE_HEADER);
    found.octets += entry_at(place);
    found.length = STAMP_SCHEDULE_RECORD;
    return found;
}

/* Of a record whose stamp is in its place. */
static span stamp_octets(const schedule *of, uint32_t place)
{
    entry numbers = entry_of(of->octets, place);
    span found = {of->octets + header_of(of->octets).stamps_start + numbers.start, (size_t)numbers.length};
    return found;
}

static bool is_of_stamp(uint32_t refusal)
{
    return refusal >= STAMP_REFUSED_LENGTH && refusal <= STAMP_REFUSED_RANGE;
}

/* Extended has the first bit set and ten octets, compact has fewer: so this is text, or was meant to be. */
static bool is_like_text(span stamp)
{
    return stamp.length >= 10 && stamp.octets[0] < 0x80;
}

static void print_text_of(FILE *to, span stamp, bool json)
{
    span shown = shown_of(stamp, LONGEST_SHOWN);
    print_escaped(to, (const char *)shown.octets, shown.length, json);
}

static void print_hex_of(FILE *to, span stamp)
{
    span shown = shown_of(stamp, STAMP_LONGEST_IMAGE);
    print_hex(to, shown.octets, shown.length);
}

/* The number that makes the refusal; none for those of a stamp and of the order. */
static bool find_wrong(const schedule *of, uint32_t refusal, uint32_t place, wrong_number *into)
{
    header numbers;
    entry found, before = {0, 0, 0, 0};
    if (refusal == STAMP_REFUSED_HEADER)
        return wrong_in_header(of->octets, of->length, into);
    if (refusal != STAMP_REFUSED_RECORD)
        return false;
    numbers = header_of(of->octets);
    found = entry_of(of->octets, place);
    if (place > 1)
        before = entry_of(of->octets, place - 1);
    return wrong_in_entry(&found, before.start + before.length, numbers.stamps, place == numbers.records, into);
}

/* A stamp that was accepted, and its instant. */
typedef struct moment {
    stamp_decoded found;
    int64_t instant;
} moment;

static moment moment_of(const schedule *of, uint32_t place)
{
    span stamp = stamp_octets(of, place);
    moment read;
    if (stamp_decode(STAMP_DATETIMETZ, stamp.octets, stamp.length, &read.found) != STAMP_ACCEPTED
        || stamp_instant_of(&read.found.value, &read.instant) != STAMP_ACCEPTED)
        end_in_doubt("the library refuses a stamp of a schedule, which it took");
    return read;
}

/* ---- Plain ---- */

void print_refusal(FILE *to, uint32_t refusal)
{
    fprintf(to, "refusal %u: %s", (unsigned)refusal, stamp_refusal_sentence(refusal));
}

void print_wrong_number(FILE *to, const wrong_number *of)
{
    fprintf(to, ": the %s is %lld, and must be %lld", of->name, (long long)of->found, (long long)of->least);
    if (of->least != of->most)
        fprintf(to, " to %lld", (long long)of->most);
}

static void print_refused_stamp(FILE *to, span stamp)
{
    fputs(stamp.length == 0 ? ": the stamp has no octets" : ": the stamp is ", to);
    print_hex_of(to, stamp);
    fputs(stamp.length > STAMP_LONGEST_IMAGE ? ".." : "", to);
    if (!is_like_text(stamp))
        return;
    fputs(" (text ", to);
    print_text_of(to, stamp, false);
    fputs(stamp.length > LONGEST_SHOWN ? "..)" : ")", to);
}

static void print_moment(FILE *to, const schedule *of, uint32_t place)
{
    moment read = moment_of(of, place);
    print_value(to, &read.found);
    fputs(" (UTC ", to);
    print_utc(to, read.instant);
    fputc(')', to);
}

static void print_order(FILE *to, const schedule *of, uint32_t place)
{
    fputs(": ", to);
    print_moment(to, of, place);
    fputs(" is earlier than ", to);
    print_moment(to, of, place - 1);
}

void print_refused(FILE *to, const schedule *of, uint32_t refusal, uint32_t place)
{
    span octets = refused_octets(of, place);
    wrong_number wrong;
    print_refusal(to, refusal);
    if (find_wrong(of, refusal, place, &wrong))
        print_wrong_number(to, &wrong);
    else if (refusal == STAMP_REFUSED_ORDER)
        print_order(to, of, place);
    else if (is_of_stamp(refusal))
        print_refused_stamp(to, stamp_octets(of, place));
    fputs(octets.length == 0 ? "  no octets" : "  ", to);
    print_hex(to, octets.octets, octets.length);
    fputc('\n', to);
}

/* ---- JSON ---- */

static void print_json_sentence(FILE *to, uint32_t refusal)
{
    fprintf(to, "\"refusal\":%u,\"sentence\":\"%s\"", (unsigned)refusal, stamp_refusal_sentence(refusal));
}

static void print_json_wrong(FILE *to, const wrong_number *of)
{
    fprintf(to, ",\"field\":\"%s\",\"found\":%lld,\"least\":%lld,\"most\":%lld", of->name, (long long)of->found,
            (long long)of->least, (long long)of->most);
}

static void print_json_stamp(FILE *to, span stamp)
{
    fputs(",\"stamp\":{\"octets\":\"", to);
    print_hex_of(to, stamp);
    if (is_like_text(stamp)) {
        fputs("\",\"given\":\"", to);
        print_text_of(to, stamp, true);
    }
    fputs(stamp.length > STAMP_LONGEST_IMAGE ? "\",\"shortened\":true}" : "\"}", to);
}

static void print_json_moment(FILE *to, const char *name, const schedule *of, uint32_t place)
{
    moment read = moment_of(of, place);
    fprintf(to, ",\"%s\":{", name);
    print_json_instant(to, read.instant);
    fputc(',', to);
    print_json_value(to, &read.found.value, digits_kept(&read.found));
    fputc('}', to);
}

static void print_json_order(FILE *to, const schedule *of, uint32_t place)
{
    print_json_moment(to, "stamp", of, place);
    print_json_moment(to, "before", of, place - 1);
}

static void print_json_refused(FILE *to, const schedule *of, uint32_t refusal, uint32_t place)
{
    span octets = refused_octets(of, place);
    wrong_number wrong;
    print_json_file(to, of);
    if (place != 0)
        fprintf(to, ",\"record\":%u", (unsigned)place);
    fputc(',', to);
    print_json_sentence(to, refusal);
    if (find_wrong(of, refusal, place, &wrong))
        print_json_wrong(to, &wrong);
    else if (refusal == STAMP_REFUSED_ORDER)
        print_json_order(to, of, place);
    else if (is_of_stamp(refusal))
        print_json_stamp(to, stamp_octets(of, place));
    fputc(',', to);
    print_json_octets(to, octets.octets, octets.length);
    fputs("}\n", to);
}

/* No octets are refused: it is the question that is. */
static void print_json_no_channel(FILE *to, const schedule *of, const wrong_number *wrong)
{
    if (of != NULL)
        print_json_file(to, of);
    fputc(of != NULL ? ',' : '{', to);
    print_json_sentence(to, STAMP_REFUSED_VALUE);
    print_json_wrong(to, wrong);
    fputs("}\n", to);
}

/* ---- Lines ---- */

int report_refused(bool json, const schedule *of, uint32_t refusal, uint32_t place)
{
    if (json) {
        print_json_refused(stdout, of, refusal, place);
        return EXIT_REFUSED;
    }
    print_name(stdout, of);
    if (place != 0)
        printf(": record %u", (unsigned)place);
    fputs(": ", stdout);
    print_refused(stdout, of, refusal, place);
    return EXIT_REFUSED;
}

int report_no_channel(bool json, const schedule *of, uint32_t channel)
{
    wrong_number wrong = {"channel", channel, 1, STAMP_MAX_CHANNEL};
    if (json) {
        print_json_no_channel(stdout, of, &wrong);
        return EXIT_REFUSED;
    }
    if (of != NULL) {
        print_name(stdout, of);
        fputs(": ", stdout);
    }
    print_refusal(stdout, STAMP_REFUSED_VALUE);
    print_wrong_number(stdout, &wrong);
    fputc('\n', stdout);
    return EXIT_REFUSED;
}
