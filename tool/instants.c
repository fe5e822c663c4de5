#include "instants.h"

#include "print.h"
#include "say.h"

/* ---- Stamps and their instants ---- */

/* A stamp that was read. */
typedef struct moment {
    const record *of;
    stamp_decoded found;
    int64_t instant;
} moment;

/* What is made of it: by instant its own instant, by restate a value, by add both. */
typedef struct result {
    int64_t instant;
    stamp_value value;
    uint32_t digits;        /* to show of the value: what the form found keeps, or all where something was added */
} result;

/* Reads the record; what is refused, or is not hex, is reported. The status. */
static int read_moment(const report *how, const record *of, moment *into)
{
    uint32_t refusal;
    if (of->fault != 0)
        return report_fault(how, of);
    into->of = of;
    refusal = read_record(STAMP_DATETIMETZ, of, &into->found);
    if (refusal == STAMP_ACCEPTED)
        refusal = stamp_instant_of(&into->found.value, &into->instant);
    return refusal == STAMP_ACCEPTED ? EXIT_ACCEPTED : report_refusal(how, of, refusal, NULL);
}

/* Answers the refusal. */
static uint32_t make_result(const request *what, const moment *read, result *into)
{
    const stamp_value *value = &read->found.value;
    uint32_t refusal;
    into->instant = read->instant;
    into->value = *value;
    into->digits = digits_kept(&read->found);
    if (what->asked == COMMAND_RESTATE)
        return stamp_restate_value(value, what->to, &into->value);
    if (what->asked != COMMAND_ADD)
        return STAMP_ACCEPTED;
    into->digits = STAMP_MAX_DIGITS;
    refusal = stamp_add(read->instant, what->micros, &into->instant);
    return refusal == STAMP_ACCEPTED ? stamp_value_at(into->instant, value->offset, &into->value) : refusal;
}

/* ---- Parts of a line ---- */

/* Days and the time beyond them, behind the sign of the whole: -1 is -0 days and a microsecond. */
static void print_duration(FILE *to, int64_t micros)
{
    uint64_t size = micros < 0 ? 0 - (uint64_t)micros : (uint64_t)micros;
    stamp_value rest = stamp_time(size % STAMP_END_OF_DAY);
    fprintf(to, "%c%llu days ", micros < 0 ? '-' : '+', (unsigned long long)(size / STAMP_END_OF_DAY));
    print_text(to, &rest, STAMP_MAX_DIGITS);
}

/* ---- Plain lines: the answer, then what was read ---- */

static void print_plain_read(FILE *to, const moment *read)
{
    fputs("  ", to);
    print_value(to, &read->found);
}

static void print_plain(FILE *to, command asked, const moment *read, const result *made)
{
    if (asked == COMMAND_INSTANT) {
        print_micros(to, made->instant);
        fputs("  UTC ", to);
        print_utc(to, made->instant);
    } else if (asked == COMMAND_ADD) {
        print_text(to, &made->value, made->digits);
        fputs("  ", to);
        print_micros(to, made->instant);
    } else {
        print_text(to, &made->value, made->digits);
    }
    print_plain_read(to, read);
    fputc('\n', to);
}

static void print_plain_difference(FILE *to, const moment *a, const moment *b, int64_t micros)
{
    print_micros(to, micros);
    fputs("  ", to);
    print_duration(to, micros);
    print_plain_read(to, a);
    print_plain_read(to, b);
    fputc('\n', to);
}

/* ---- JSON: the same ---- */

static void print_json_accepted(FILE *to, const record *of)
{
    print_json_start(to, of);
    fputs(",\"refusal\":0,", to);
}

/* What `read` has of it, to the object's end. */
static void print_json_read(FILE *to, const moment *read)
{
    print_json_found(to, &read->found);
    fputc(',', to);
    print_json_octets(to, read->of->octets, read->of->length);
    fputc('}', to);
}

static void print_json(FILE *to, command asked, const moment *read, const result *made)
{
    print_json_accepted(to, read->of);
    if (asked == COMMAND_INSTANT) {
        print_json_instant(to, made->instant);
        fputc(',', to);
    } else if (asked == COMMAND_ADD) {
        fputs("\"sum\":{", to);
        print_json_micros(to, "instant", made->instant);
        fputc(',', to);
        print_json_value(to, &made->value, made->digits);
        fputs("},", to);
    } else {
        fputs("\"restated\":{", to);
        print_json_value(to, &made->value, made->digits);
        fputs("},", to);
    }
    print_json_read(to, read);
    fputc('\n', to);
}

static void print_json_difference(FILE *to, const moment *a, const moment *b, int64_t micros)
{
    print_json_accepted(to, a->of);
    print_json_micros(to, "difference", micros);
    fputs(",\"duration\":\"", to);
    print_duration(to, micros);
    fputs("\",\"a\":{", to);
    print_json_read(to, a);
    fputs(",\"b\":{", to);
    print_json_read(to, b);
    fputs("}\n", to);
}

/* ---- Answers ---- */

static int answer_one(const request *what, const report *how, const record *of)
{
    moment read;
    result made;
    uint32_t refusal;
    int status = read_moment(how, of, &read);
    if (status != EXIT_ACCEPTED)
        return status;
    refusal = make_result(what, &read, &made);
    if (refusal != STAMP_ACCEPTED)
        return report_refusal(how, of, refusal, NULL);
    if (how->json)
        print_json(how->to, what->asked, &read, &made);
    else
        print_plain(how->to, what->asked, &read, &made);
    return EXIT_ACCEPTED;
}

/* A less B. Where both are refused, both are reported. */
static int answer_pair(const report *how, const record pair[2])
{
    moment a, b;
    int64_t micros;
    uint32_t refusal;
    int of_a = read_moment(how, &pair[0], &a), of_b = read_moment(how, &pair[1], &b);
    if (of_a != EXIT_ACCEPTED || of_b != EXIT_ACCEPTED)
        return of_a > of_b ? of_a : of_b;
    refusal = stamp_difference(a.instant, b.instant, &micros);
    if (refusal != STAMP_ACCEPTED)
        return report_refusal(how, a.of, refusal, NULL);
    if (how->json)
        print_json_difference(how->to, &a, &b, micros);
    else
        print_plain_difference(how->to, &a, &b, micros);
    return EXIT_ACCEPTED;
}

int read_instant(const report *how, const record *of, int64_t *instant)
{
    moment read;
    int status = read_moment(how, of, &read);
    if (status == EXIT_ACCEPTED)
        *instant = read.instant;
    return status;
}

bool is_of_instants(command asked)
{
    return asked == COMMAND_INSTANT || asked == COMMAND_RESTATE || asked == COMMAND_DIFFERENCE || asked == COMMAND_ADD;
}

int answer_instants(const request *what, const report *how, const record *of)
{
    return what->asked == COMMAND_DIFFERENCE ? answer_pair(how, of) : answer_one(what, how, of);
}
