#include "schedules.h"

#include <errno.h>
#include <string.h>

#include "clock.h"
#include "input.h"
#include "instants.h"
#include "making.h"
#include "output.h"
#include "say.h"
#include "schedule_refusal.h"

/* Takes the file's octets, but for what is beyond the room. A device or a pipe may have no end. */
static bool take_octets(FILE *from, schedule *into)
{
    int octet = 0;
    into->length = 0;
    while (into->length < sizeof into->octets && (octet = next_octet(from)) >= 0)
        into->octets[into->length++] = (uint8_t)octet;
    return octet != INPUT_FAILED;
}

/* What is not read to its end is said. The status. */
static int read_file(char *name, schedule *into)
{
    FILE *from = name == standard_input ? stdin : fopen(name, "rb");
    int reason;
    bool taken;
    into->name = name;
    if (from == NULL)
        return report_unread(into, errno);
    taken = take_octets(from, into);
    reason = errno;
    if (from != stdin)
        fclose(from);
    return taken ? EXIT_ACCEPTED : report_unread(into, reason);
}

/* Of such a file there are not all octets here. */
static bool is_too_long(const schedule *of)
{
    return of->length > STAMP_LONGEST_SCHEDULE;
}

/* Reads the file as a schedule; what is refused is reported. The status. */
static int read_schedule(bool json, const schedule *of, uint32_t *records)
{
    uint32_t refusal, fault;
    if (is_too_long(of))
        return report_too_long(json, of);
    refusal = stamp_schedule_read(of->octets, of->length, records, &fault);
    return refusal == STAMP_ACCEPTED ? EXIT_ACCEPTED : report_refused(json, of, refusal, fault);
}

static void list(bool json, const schedule *of, uint32_t records)
{
    stamp_record found;
    uint32_t place;
    for (place = 1; place <= records; place++) {
        if (stamp_record_at(of->octets, of->length, place, &found) != STAMP_ACCEPTED)
            end_in_doubt("the library refuses a record of a schedule that it took");
        report_record(json, of, place, &found);
        output_record();
    }
}

/* Check and list: the whole file is read. The status. */
static int answer_whole(const request *what, const schedule *of)
{
    uint32_t records;
    int status = read_schedule(what->json, of, &records);
    if (status == EXIT_ACCEPTED && what->asked == COMMAND_LIST)
        list(what->json, of, records);
    else if (status == EXIT_ACCEPTED)
        report_count(what->json, of, records);
    return status;
}

/* ---- What holds ---- */

/* Where a question is refused. It does not tell, but full reading refuses the same file in the same way. */
static uint32_t place_refused(const schedule *of, uint32_t refusal)
{
    uint32_t records, fault;
    if (stamp_schedule_read(of->octets, of->length, &records, &fault) != refusal)
        end_in_doubt("the library refuses a schedule in two ways");
    return fault;
}

/* A channel is refused before the file is looked at, so a file of no octets will do to ask. */
static bool is_channel(uint32_t channel)
{
    stamp_held found;
    return stamp_held_at(NULL, 0, 0, channel, &found) != STAMP_REFUSED_VALUE;
}

/* Asks one file, on a channel that there is; a file that is refused is reported. The status. */
static int ask_file(const request *what, int64_t instant, const schedule *of, stamp_held *found)
{
    uint32_t refusal;
    if (is_too_long(of))
        return report_too_long(what->json, of);
    refusal = stamp_held_at(of->octets, of->length, instant, what->channel, found);
    return refusal == STAMP_ACCEPTED ? EXIT_ACCEPTED
                                     : report_refused(what->json, of, refusal, place_refused(of, refusal));
}

/* One file by itself. The status. */
static int answer_question(const request *what, int64_t instant, const schedule *of)
{
    stamp_held found;
    int status;
    if (!is_channel(what->channel))
        return report_no_channel(what->json, of, what->channel);
    status = ask_file(what, instant, of, &found);
    if (status == EXIT_ACCEPTED)
        report_held(what->json, of, what->channel, &found);
    return status;
}

/* Why nothing holds by two files: each that is refused, or else both, as none holds yet in either. Of a file that is not
 * refused nothing is told beside one that is: it would be half an answer. The status. */
static int answer_why(const request *what, int64_t instant, const schedule *plan, const schedule *manual)
{
    stamp_held planned, by_hand;
    int status = ask_file(what, instant, plan, &planned);
    if (ask_file(what, instant, manual, &by_hand) != EXIT_ACCEPTED || status != EXIT_ACCEPTED)
        return EXIT_REFUSED;
    if (planned.place != STAMP_NONE_YET || by_hand.place != STAMP_NONE_YET)
        end_in_doubt("the library answers for a schedule, and not for it and another");
    report_held(what->json, plan, what->channel, &planned);
    report_held(what->json, manual, what->channel, &by_hand);
    return EXIT_ACCEPTED;
}

/* The library tells which file; why none, each file by itself. The status. */
static int answer_over(const request *what, int64_t instant, const schedule *plan, const schedule *manual)
{
    stamp_held found;
    uint32_t of;
    if (!is_channel(what->channel))
        return report_no_channel(what->json, NULL, what->channel);
    if (is_too_long(plan) || is_too_long(manual))
        return answer_why(what, instant, plan, manual);
    of = stamp_held_over(plan->octets, plan->length, manual->octets, manual->length, instant, what->channel, &found);
    if (found.place == STAMP_NONE_YET)
        return answer_why(what, instant, plan, manual);
    report_held(what->json, of == STAMP_OF_MANUAL ? manual : plan, what->channel, &found);
    return EXIT_ACCEPTED;
}

/* The instant that is asked about, if one is; a text that is no stamp's is reported. It is text alone, as the answer
 * does not show it again: of hex, as which 20200101 would pass, a slip would not be seen. The status. */
static int read_question(const request *what, int64_t *instant)
{
    report how = {stdout, what->json, false, false};
    char *word = what->at;
    source from;
    record of;
    *instant = what->instant;
    if (word == NULL)
        return EXIT_ACCEPTED;
    if (strcmp(word, "now") == 0)
        return read_clock(instant);
    from = source_of(&word, 1, NOTATION_TEXT);
    next_record(&from, &of);
    return read_instant(&how, &of, instant);
}

/* ---- Files ---- */

static int answer_file(const request *what, int64_t instant, char *name)
{
    static schedule file;
    int status = read_file(name, &file);
    if (status == EXIT_ACCEPTED)
        status = what->asked == COMMAND_HOLDS ? answer_question(what, instant, &file) : answer_whole(what, &file);
    output_record();
    return status;
}

/* Nothing is answered where one of them cannot be read; the other is read too, so that it is said of both. */
static int answer_two(const request *what, int64_t instant)
{
    static schedule plan, manual;
    int status = read_file(what->records[0], &plan), other = read_file(what->records[1], &manual);
    plan.role = "plan";
    manual.role = "manual";
    if (status != EXIT_ACCEPTED || other != EXIT_ACCEPTED)
        return EXIT_TROUBLE;
    status = answer_over(what, instant, &plan, &manual);
    output_record();
    return status;
}

bool is_of_schedules(command asked)
{
    return asked == COMMAND_CHECK || asked == COMMAND_LIST || asked == COMMAND_HOLDS || asked == COMMAND_OVER
        || asked == COMMAND_MAKE;
}

/* The status is the gravest of the files': one that cannot be read does not keep the others from being answered. All
 * are asked about one moment, also where that is now. */
int answer_schedules(const request *what)
{
    int64_t instant;
    int status, one;
    size_t at;
    if (what->asked == COMMAND_MAKE)
        return make_schedule();
    status = read_question(what, &instant);
    if (status != EXIT_ACCEPTED)
        return status;
    if (what->asked == COMMAND_OVER)
        return answer_two(what, instant);
    for (at = 0; at < what->count; at++) {
        one = answer_file(what, instant, what->records[at]);
        if (one > status)
            status = one;
    }
    return status;
}
