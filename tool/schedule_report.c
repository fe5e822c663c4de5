#include "schedule_report.h"

#include <string.h>

#include "print.h"
#include "say.h"

/* The stamp of a record that was accepted. */
static stamp_decoded stamp_of(const schedule *in, const stamp_record *of)
{
    stamp_decoded read;
    if (stamp_decode(STAMP_DATETIMETZ, in->octets + of->start, of->length, &read) != STAMP_ACCEPTED)
        end_in_doubt("the library refuses a stamp of a schedule, which it took");
    return read;
}

/* ---- Plain ---- */

void print_name(FILE *to, const schedule *of)
{
    if (of->name == standard_input)
        fputs("standard input", to);
    else
        print_escaped(to, of->name, strlen(of->name), false);
    if (of->role != NULL)
        fprintf(to, " (%s)", of->role);
}

static void print_records(FILE *to, uint32_t records)
{
    fprintf(to, records == 1 ? "%u record" : "%u records", (unsigned)records);
}

/* In columns, as people read them; a reading at UTC that is none is shorter. */
static void print_record(FILE *to, const schedule *in, uint32_t place, const stamp_record *of)
{
    stamp_decoded read = stamp_of(in, of);
    size_t length = stamp_text_length(STAMP_DATETIMETZ, digits_kept(&read));
    fprintf(to, "%4u  ", (unsigned)place);
    print_value(to, &read);
    fprintf(to, "%*s  UTC ", (int)(STAMP_LONGEST_IMAGE - length), "");
    print_utc(to, of->instant);
    fprintf(to, "  channel %2u  correction %+8ld parts in 10^18", (unsigned)of->channel, (long)of->correction);
}

static void print_held(FILE *to, const schedule *in, const stamp_held *found, const stamp_record *of)
{
    print_name(to, in);
    fputs(": ", to);
    if (found->place == STAMP_NONE_YET)
        fprintf(to, "none yet  channel %2u", (unsigned)of->channel);
    else
        print_record(to, in, found->place, of);
    fputs("  ", to);
    print_records(to, found->read);
    fputs(" read\n", to);
}

/* ---- JSON ---- */

void print_json_file(FILE *to, const schedule *of)
{
    fputs("{\"file\":\"", to);
    print_escaped(to, of->name, strlen(of->name), true);
    fputc('"', to);
    if (of->role != NULL)
        fprintf(to, ",\"of\":\"%s\"", of->role);
}

/* The object but for its end. */
static void print_json_record(FILE *to, const schedule *in, uint32_t place, const stamp_record *of)
{
    stamp_decoded read = stamp_of(in, of);
    print_json_file(to, in);
    fprintf(to, ",\"record\":%u,\"refusal\":0,\"channel\":%u,\"correction\":%ld,", (unsigned)place,
            (unsigned)of->channel, (long)of->correction);
    print_json_instant(to, of->instant);
    fputc(',', to);
    print_json_found(to, &read);
    fputc(',', to);
    print_json_octets(to, in->octets + of->start, of->length);
}

/* Of none yet there is no correction, nor anything else that could pass for a record's. */
static void print_json_held(FILE *to, const schedule *in, const stamp_held *found, const stamp_record *of)
{
    if (found->place == STAMP_NONE_YET) {
        print_json_file(to, in);
        fprintf(to, ",\"record\":null,\"refusal\":0,\"channel\":%u", (unsigned)of->channel);
    } else {
        print_json_record(to, in, found->place, of);
    }
    fprintf(to, ",\"read\":%u}\n", (unsigned)found->read);
}

/* ---- Lines ---- */

void report_count(bool json, const schedule *of, uint32_t records)
{
    if (json) {
        print_json_file(stdout, of);
        printf(",\"refusal\":0,\"records\":%u}\n", (unsigned)records);
    } else {
        print_name(stdout, of);
        fputs(": ", stdout);
        print_records(stdout, records);
        fputc('\n', stdout);
    }
}

void report_record(bool json, const schedule *of, uint32_t place, const stamp_record *found)
{
    if (json)
        print_json_record(stdout, of, place, found);
    else
        print_record(stdout, of, place, found);
    fputs(json ? "}\n" : "\n", stdout);
}

void report_held(bool json, const schedule *of, uint32_t channel, const stamp_held *found)
{
    stamp_record holds = {channel, found->correction, found->instant, found->start, found->length};
    if (json)
        print_json_held(stdout, of, found, &holds);
    else
        print_held(stdout, of, found, &holds);
}

int report_too_long(bool json, const schedule *of)
{
    if (json) {
        print_json_file(stdout, of);
        printf(",\"error\":\"too long\",\"most\":%d}\n", STAMP_LONGEST_SCHEDULE);
    } else {
        print_name(stdout, of);
        printf(": no schedule is longer than %d octets, and this is\n", STAMP_LONGEST_SCHEDULE);
    }
    return EXIT_REFUSED;
}

int report_unread(const schedule *of, int reason)
{
    if (of->name == standard_input) {
        say_failure("standard input cannot be read", 0, reason);
        return EXIT_TROUBLE;
    }
    fputs("stamp: '", stderr);
    print_escaped(stderr, of->name, strlen(of->name), false);
    fprintf(stderr, "' cannot be read: %s\n", strerror(reason));
    return EXIT_TROUBLE;
}
