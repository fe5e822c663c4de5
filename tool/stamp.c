/* stamp - reads, writes and explains date-and-time stamps at a prompt, compares them, and reads, asks and makes
 * schedule files. docs/stamp.1 describes it. The library does the work; here are arguments, hex and printing. */
#include <stdio.h>

#include "arguments.h"
#include "help.h"
#include "instants.h"
#include "output.h"
#include "records.h"
#include "report.h"
#include "say.h"
#include "schedules.h"

static const about of_a_stamp = {NULL, false, true};
static const about of_a_value = {NULL, true, true};

static int answer_read(const request *what, const report *how, const record *of)
{
    stamp_decoded found;
    uint32_t refusal = read_record(what->kind, of, &found);
    if (refusal != STAMP_ACCEPTED)
        return report_refusal(how, of, refusal, NULL);
    report_stamp(how, of, &found, of->octets, of->length, of_a_stamp);
    return EXIT_ACCEPTED;
}

static bool same_value(const stamp_value *left, const stamp_value *right)
{
    return left->kind == right->kind && left->year == right->year && left->month == right->month
        && left->day == right->day && left->micros == right->micros && left->offset == right->offset;
}

/* A stamp that was written. What is shown of it is read back from it, so that one sees what its reader will see. */
typedef struct written {
    stamp_decoded given, kept;
    uint8_t octets[STAMP_LONGEST_IMAGE];
    size_t length;
} written;

static uint32_t write_stamp(const request *what, const record *of, written *into)
{
    uint32_t refusal = read_record(what->kind, of, &into->given);
    if (refusal == STAMP_ACCEPTED)
        refusal = stamp_encode(&into->given.value, what->settings, into->octets, sizeof into->octets, &into->length);
    if (refusal == STAMP_ACCEPTED)
        refusal = stamp_decode(what->kind, into->octets, into->length, &into->kept);
    return refusal;
}

static int answer_write(const request *what, const report *how, const record *of)
{
    written made;
    about more = of_a_value;
    uint32_t refusal = write_stamp(what, of, &made);
    if (refusal != STAMP_ACCEPTED)
        return report_refusal(how, of, refusal, NULL);
    more.exact = same_value(&made.given.value, &made.kept.value);
    if (what->raw)
        fwrite(made.octets, 1, made.length, stdout);
    else
        report_stamp(how, of, &made.kept, made.octets, made.length, more);
    return EXIT_ACCEPTED;
}

/* What each of the nine readers says; accepted if one of them accepts. */
static int answer_explain(const report *how, const record *of)
{
    stamp_decoded found;
    about more = of_a_stamp;
    uint32_t kind, refusal;
    int status = EXIT_REFUSED;
    report_heading(how, of);
    for (kind = 0; kind < STAMP_READERS; kind++) {
        more.reader = reader_words[kind];
        refusal = stamp_decode(kind, of->octets, of->length, &found);
        if (refusal == STAMP_ACCEPTED) {
            report_stamp(how, of, &found, of->octets, of->length, more);
            status = EXIT_ACCEPTED;
        } else {
            report_refusal(how, of, refusal, more.reader);
        }
    }
    return status;
}

/* Answers one record, or for difference two. */
static int answer(const request *what, const report *how, const record *of)
{
    if (is_of_instants(what->asked))
        return answer_instants(what, how, of);
    if (of->fault != 0)
        return report_fault(how, of);
    if (what->asked == COMMAND_READ)
        return answer_read(what, how, of);
    if (what->asked == COMMAND_WRITE)
        return answer_write(what, how, of);
    return answer_explain(how, of);
}

static notation notation_of(const request *what)
{
    if (what->asked == COMMAND_WRITE)
        return NOTATION_TEXT;
    if (what->raw)
        return NOTATION_RAW;
    return is_of_instants(what->asked) ? NOTATION_EITHER : NOTATION_HEX;
}

static int none_given(void)
{
    say_usage("no stamp was given", NULL);
    return EXIT_TROUBLE;
}

static int one_alone(void)
{
    say_usage("difference takes stamps in pairs, and the last has no second", NULL);
    return EXIT_TROUBLE;
}

/* The records of one answer. Of a pair that is not whole there is nothing to answer. */
static outcome next_records(source *from, bool pairs, record of[2])
{
    outcome found = next_record(from, &of[0]);
    return pairs && found == RECORD_TAKEN ? next_record(from, &of[1]) : found;
}

/* Answers all records. The status is the gravest of theirs; none at all, or half a pair, is never 'accepted'. */
static int answer_all(const request *what, source *from)
{
    report how = {stdout, what->json, what->count > 1, what->asked == COMMAND_DIFFERENCE};
    record of[2];
    outcome found;
    int status = EXIT_ACCEPTED, one;
    while ((found = next_records(from, how.pairs, of)) == RECORD_TAKEN) {
        one = answer(what, &how, of);
        output_record();
        if (one > status)
            status = one;
    }
    if (found == RECORD_FAILED)
        return EXIT_TROUBLE;
    if (how.pairs && from->taken % 2 != 0)
        return one_alone();
    return from->taken == 0 ? none_given() : status;
}

/* Writes the octets of one stamp and nothing else: what is refused is said on standard error, and of two values neither is written. */
static int answer_raw(const request *what, source *from)
{
    report how = {stderr, false, false, false};
    record of, other;
    outcome found = next_record(from, &of);
    if (found == RECORD_NONE)
        return none_given();
    if (found == RECORD_FAILED)
        return EXIT_TROUBLE;
    found = next_record(from, &other);
    if (found == RECORD_NONE)
        return answer_write(what, &how, &of);
    if (found == RECORD_TAKEN)
        say_usage("--raw is for one stamp, and there are more lines", NULL);
    return EXIT_TROUBLE;
}

int main(int argc, char **argv)
{
    request what;
    source from;
    int status = EXIT_ACCEPTED;
    if (!parse_arguments(argc, argv, &what))
        return EXIT_TROUBLE;
    output_start();
    from = source_of(what.records, what.count, notation_of(&what));
    if (what.asked == COMMAND_HELP)
        print_help();
    else if (what.asked == COMMAND_RELEASE)
        printf("stamp %s\n", STAMP_RELEASE);
    else if (what.asked == COMMAND_WRITE && what.raw)
        status = answer_raw(&what, &from);
    else if (is_of_schedules(what.asked))
        status = answer_schedules(&what);
    else
        status = answer_all(&what, &from);
    output_end();
    return status;
}
