/* Times our calls beside the plain C version of the same work, in one process. Prints what was compiled and how often
 * it is run, `WHAT <tab> WORDS`, and then a line a row, `NAME <tab> OURS <tab> PLAIN`, in nanoseconds a call, or a
 * record where the name says so.
 *
 * A row's calls go over many different values, in no order: with a few hundred the processor learns by heart which
 * branch each of them takes. Ours and plain take turns, and of all turns the median counts: what else the machine
 * does falls on both alike. */
#define _POSIX_C_SOURCE 199309L
#include <stdio.h>
#include <stdlib.h>
#include <time.h>

#include "work.h"

enum { TURNS = 101 };

/* ---- turns ---- */

static double seconds_now(void)
{
    struct timespec now;
    clock_gettime(CLOCK_MONOTONIC, &now);
    return (double)now.tv_sec + (double)now.tv_nsec * 1e-9;
}

static double nanoseconds(void (*pass)(const stamps *), const stamps *r, int count)
{
    const double start = seconds_now();
    pass(r);
    return (seconds_now() - start) * 1e9 / count;
}

static int by_size(const void *a, const void *b)
{
    const double x = *(const double *)a, y = *(const double *)b;
    return (x > y) - (x < y);
}

static double median(double times[TURNS])
{
    qsort(times, TURNS, sizeof times[0], by_size);
    return times[TURNS / 2];
}

/* A measure of two programs that differ would say nothing, nor would one of refusals. */
static void compare(const char *name, const work *w, const stamps *r)
{
    for (int i = 0; i < w->count; i++)
        if (!w->same(r, i)) {
            fprintf(stderr, "measure: %s: ours and plain differ, or refuse\n", name);
            exit(1);
        }
}

static void report(const char *name, work w, stamps r)
{
    double ours[TURNS], plain[TURNS];
    w.fill(&r);
    compare(name, &w, &r);
    nanoseconds(w.ours, &r, w.count);
    nanoseconds(w.plain, &r, w.count);
    for (int i = 0; i < TURNS; i++) {
        ours[i] = nanoseconds(w.ours, &r, w.count);
        plain[i] = nanoseconds(w.plain, &r, w.count);
    }
    printf("%s\t%.3f\t%.3f\n", name, median(ours), median(plain));
}

/* ---- the rows ---- */

static const char *reader_name(uint32_t kind)
{
    static const char *const either[] = {"Date or DateTz", "Time or TimeTz", "Datetime or DatetimeTz"};
    return kind < STAMP_KINDS ? stamp_kind_name(kind) : either[kind - STAMP_KINDS];
}

static bool timed(uint32_t kind) { return kind < STAMP_KINDS ? kind >= STAMP_TIME : kind > STAMP_DATE_OR_DATETZ; }

static void report_stamps(uint32_t kind, uint32_t form)
{
    const stamps r = {kind, form, STAMP_DEFAULT_DIGITS, 0, 0};
    char name[80];
    if (form == STAMP_EXTENDED && !timed(kind))
        return;
    snprintf(name, sizeof name, "write %s, %s", reader_name(kind), stamp_form_name(form));
    if (kind < STAMP_KINDS)
        report(name, writing, r);
    snprintf(name, sizeof name, "read %s, %s", reader_name(kind), stamp_form_name(form));
    report(name, reading, r);
}

/* 02, request 1: of a text with an offset the either-or readers also look at the octet behind the seconds. */
static void report_without_fraction(uint32_t kind)
{
    const stamps r = {kind, STAMP_TEXT, 0, 0, 0};
    char name[80];
    snprintf(name, sizeof name, "read %s, text without fraction", reader_name(kind));
    report(name, reading, r);
}

/* By themselves: files with stamps of one form each. */
static void report_schedules(uint32_t form)
{
    const stamps r = {STAMP_DATETIMETZ, form, STAMP_DEFAULT_DIGITS, STAMP_MAX_RECORDS, 0};
    char name[80];
    snprintf(name, sizeof name, "schedule, 1,000 records, %s (ns a record)", stamp_form_name(form));
    report(name, schedule_work, r);
}

/* 02, requests 5 and 6: where in the file, or in both, the question is asked, so that the page shows what its cost
 * grows with. */
typedef struct {
    uint32_t place, records;
    const char *words;
} asked;

enum { FIRST, MIDDLE, LAST, PLACES };

static const asked asked_at[PLACES] = {
    {1, 1000, "1 of 1,000"}, {500, 1000, "500 of 1,000"}, {1000, 1000, "1,000 of 1,000"}};
static const asked asked_of_few = {1, 10, "1 of 10"};

static void report_asked(const char *what, work (*work_of)(const stamps *), const asked *at, uint32_t form)
{
    const stamps r = {STAMP_DATETIMETZ, form, STAMP_DEFAULT_DIGITS, at->records, at->place};
    char name[80];
    snprintf(name, sizeof name, "%s at record %s, %s (ns a call)", what, at->words, stamp_form_name(form));
    report(name, work_of(&r), r);
}

static void report_questions(const asked *at, uint32_t form)
{
    report_asked("which correction holds,", question_work, at, form);
}

static void report_pairs(const asked *at, uint32_t form)
{
    report_asked("manual over plan, both", over_work, at, form);
}

int main(void)
{
    const stamps text = {STAMP_DATETIMETZ, STAMP_TEXT, STAMP_DEFAULT_DIGITS, STAMP_MAX_RECORDS, 0};
    const stamps any = {STAMP_DATE, STAMP_TEXT, STAMP_DEFAULT_DIGITS, 0, 0};
    printf("kit\t%s\ncompiler\t%s, %s\nvalues\t%d\nfiles\t%d\nturns\t%d\n", KIT, __VERSION__, LEVEL, VALUES, FILES, TURNS);
    for (uint32_t form = 0; form < STAMP_FORMS; form++)
        for (uint32_t kind = 0; kind < STAMP_READERS; kind++)
            report_stamps(kind, form);
    report_without_fraction(STAMP_TIME_OR_TIMETZ);
    report_without_fraction(STAMP_DATETIME_OR_DATETIMETZ);
    report("day number of a date", number_work, any);
    report("date of a day number", date_work, any);
    report("instant of a DatetimeTz", instant_work, any);
    report("sum of an instant and microseconds", add_work, any);
    report("difference of two instants", difference_work, any);
    report("DatetimeTz of an instant at an offset", at_work, any);
    report("restate a DatetimeTz at another offset", restate_work, any);
    for (uint32_t form = 0; form < STAMP_FORMS; form++)
        report_schedules(form);
    report("schedule, the record at place 1,000, text (ns a record)", record_work, text);
    for (uint32_t form = 0; form < STAMP_FORMS; form++)
        for (int i = 0; i < PLACES; i++)
            report_questions(&asked_at[i], form);
    report_questions(&asked_of_few, STAMP_TEXT);
    for (uint32_t form = 0; form < STAMP_FORMS; form++)
        report_pairs(&asked_at[LAST], form);
    report_pairs(&asked_at[FIRST], STAMP_COMPACT);
    return kept == 0;
}
