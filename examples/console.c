/* A console: prints which correction of a plan (a schedule file) holds on each channel at a moment (a DatetimeTz text),
 * or now; with a manual schedule beside the plan, which of the two files it is of:
 *     console PLAN [--manual FILE] [MOMENT]
 * Ends with 0; with 1 where a file or the moment is refused; with 2 where a file can't be read or written. */
#include <stdio.h>
#include <string.h>
#include <time.h>

#include "stamp.h"

enum { GIVEN = 0, REFUSED = 1, TROUBLE = 2 };

static int refused(const char *what, uint32_t refusal)
{
    fprintf(stderr, "%s: refusal %u: %s\n", what, (unsigned)refusal, stamp_refusal_sentence(refusal));
    return REFUSED;
}

static int trouble(const char *what)
{
    perror(what);
    return TROUBLE;
}

/* Room for one octet more than any schedule has, to tell one that is too long. */
typedef struct schedule {
    const char *name;
    uint8_t octets[STAMP_LONGEST_SCHEDULE + 1];
    size_t length;
} schedule;

static int load(const char *name, schedule *into)
{
    FILE *from = fopen(name, "rb");
    int status = GIVEN;
    if (from == NULL)
        return trouble(name);
    into->name = name;
    into->length = fread(into->octets, 1, sizeof into->octets, from);
    if (ferror(from)) {
        status = trouble(name);
    } else if (into->length > STAMP_LONGEST_SCHEDULE) {
        fprintf(stderr, "%s: no schedule is longer than %d octets\n", name, STAMP_LONGEST_SCHEDULE);
        status = REFUSED;
    }
    fclose(from);
    return status;
}

/* A schedule without records: beside it, the plan alone tells what holds. */
static void load_none(schedule *into)
{
    static const uint8_t header[STAMP_SCHEDULE_HEADER] = {0, 0, 0, 0, 0, 0, 0, 16, 0, 0, 0, 0, 0, 0, 0, 16};
    into->name = "no manual schedule";
    into->length = sizeof header;
    memcpy(into->octets, header, sizeof header);
}

/* The instant of a moment's text, or of the clock where that is null. Answers the refusal. */
static uint32_t instant_of(const char *text, int64_t *instant)
{
    stamp_decoded moment;
    uint32_t refusal;
    if (text == NULL)
        return stamp_add(STAMP_UNIX_EPOCH, (int64_t)time(NULL) * 1000000, instant);
    refusal = stamp_decode(STAMP_DATETIMETZ, (const uint8_t *)text, strlen(text), &moment);
    if (refusal != STAMP_ACCEPTED)
        return refusal;
    if (moment.form != STAMP_TEXT)      /* a few characters can pass for a stamp of another form */
        return STAMP_REFUSED_LENGTH;
    return stamp_instant_of(&moment.value, instant);
}

/* A stamp of a schedule, of any form, as text. */
static void print_stamp(const uint8_t *octets, size_t length)
{
    uint8_t text[STAMP_LONGEST_IMAGE];
    size_t count = 0;
    stamp_decoded found;
    if (stamp_decode(STAMP_DATETIMETZ, octets, length, &found) == STAMP_ACCEPTED)
        stamp_encode(&found.value, stamp_make_settings(false, 0, STAMP_MAX_DIGITS), text, sizeof text, &count);
    printf("%.*s", (int)count, (char *)text);
}

/* Why nothing holds on a channel: the file is refused, which is said; or none of it does yet. The status. */
static int why_none(const schedule *of, int64_t instant, uint32_t channel)
{
    stamp_held held;
    uint32_t refusal = stamp_held_at(of->octets, of->length, instant, channel, &held);
    return refusal == STAMP_ACCEPTED ? GIVEN : refused(of->name, refusal);
}

/* A file that is refused is so on every channel: nothing has been printed then, as half an answer is none. The status. */
static int print_channels(const schedule *plan, const schedule *manual, bool tell, int64_t instant)
{
    const schedule *of;
    uint32_t channel, file;
    stamp_held held;
    for (channel = 1; channel <= STAMP_MAX_CHANNEL; channel++) {
        file = stamp_held_over(plan->octets, plan->length, manual->octets, manual->length, instant, channel, &held);
        of = file == STAMP_OF_MANUAL ? manual : plan;
        if (held.place == STAMP_NONE_YET) {
            if (why_none(plan, instant, channel) != GIVEN || why_none(manual, instant, channel) != GIVEN)
                return REFUSED;
            printf("channel %2u: none yet\n", (unsigned)channel);
            continue;
        }
        printf("channel %2u: %+d parts in 10^18 since ", (unsigned)channel, (int)held.correction);
        print_stamp(of->octets + held.start, held.length);
        puts(!tell ? "" : of == manual ? " (manual)" : " (plan)");
    }
    return GIVEN;
}

int main(int argc, char **argv)
{
    static schedule plan, manual;
    bool given = argc > 2 && strcmp(argv[2], "--manual") == 0;
    int words = given ? 4 : 2, status;
    const char *moment = argc > words ? argv[words] : NULL;
    int64_t instant;
    uint32_t refusal;
    if (argc != words && argc != words + 1) {
        fputs("usage: console PLAN [--manual FILE] [MOMENT]\n", stderr);
        return TROUBLE;
    }
    refusal = instant_of(moment, &instant);
    if (refusal != STAMP_ACCEPTED)
        return refused(moment == NULL ? "now" : moment, refusal);
    load_none(&manual);
    status = load(argv[1], &plan);
    if (status == GIVEN && given)
        status = load(argv[3], &manual);
    if (status == GIVEN)
        status = print_channels(&plan, &manual, given, instant);
    if (status != GIVEN)
        return status;
    return fflush(stdout) == 0 ? GIVEN : trouble("standard output");
}
