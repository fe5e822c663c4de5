#include "making.h"

#include <string.h>

#include "numbers.h"
#include "report.h"
#include "say.h"
#include "schedule_refusal.h"

/* Answers go to standard error: standard output is for the file. */
static report said(void)
{
    report how = {stderr, false, false, false};
    return how;
}

static void say_line(const record *line)
{
    fprintf(stderr, "stamp: line %llu: ", (unsigned long long)line->line);
}

/* ---- A line: stamp, channel, correction ---- */

enum { WORDS = 3 };

typedef struct words {
    char text[LONGEST_KEPT + 1];
    const char *at[WORDS + 1];
    size_t count;
} words;

/* The words between the blanks, four at most, of a line that was kept whole. False where an octet would end a word too early. */
static bool split(const record *line, words *into)
{
    size_t at;
    bool inside = false;
    into->count = 0;
    for (at = 0; at < line->given_length; at++) {
        char octet = line->given[at];
        bool blank = octet == ' ' || octet == '\t';
        if (octet == '\0')
            return false;
        into->text[at] = octet;
        if (blank)
            into->text[at] = '\0';
        else if (!inside && into->count <= WORDS)
            into->at[into->count++] = &into->text[at];
        inside = !blank;
    }
    into->text[at] = '\0';
    return true;
}

static int refused_numbers(const record *line, const wrong_number *wrong)
{
    say_line(line);
    print_refusal(stderr, STAMP_REFUSED_RECORD);
    print_wrong_number(stderr, wrong);
    end_with_given(stderr, line);
    return EXIT_REFUSED;
}

/* Reads the line: the stamp's octets and, but for the start, the numbers of its record. What is wrong is said, in the order of full
 * reading. The status. */
static int read_line(const record *line, record *stamp, entry *numbers)
{
    report how = said();
    words found;
    wrong_number wrong;
    stamp_decoded value;
    uint32_t refusal;
    if (line->given_length > LONGEST_KEPT)
        return report_wrong(&how, line, "the line is too long");
    if (!split(line, &found) || found.count != WORDS)
        return report_wrong(&how, line, "a line is a stamp without blanks, a channel and a correction");
    if (!parse_signed(found.at[1], &numbers->channel) || !parse_signed(found.at[2], &numbers->correction))
        return report_wrong(&how, line, "the channel and the correction behind the stamp must be whole numbers");
    take_word(line, found.at[0], stamp);
    if (stamp->fault != 0)
        return report_fault(&how, stamp);
    numbers->length = (int64_t)stamp->length;
    if (wrong_in_entry(numbers, numbers->start, numbers->start + numbers->length, true, &wrong))
        return refused_numbers(line, &wrong);
    refusal = read_record(STAMP_DATETIMETZ, stamp, &value);
    return refusal == STAMP_ACCEPTED ? EXIT_ACCEPTED : report_refusal(&how, stamp, refusal, NULL);
}

/* ---- The file ---- */

/* Of an accepted stamp, which is not too long, and of 1,000 records at most: so there is room. */
static void add_record(schedule *file, entry *numbers, const uint8_t *stamp)
{
    header now = header_of(file->octets);
    uint8_t *stamps = file->octets + now.stamps_start;
    memmove(stamps + STAMP_SCHEDULE_RECORD, stamps, (size_t)now.stamps);
    put_entry(file->octets, (uint32_t)now.records + 1, numbers);
    now.records++;
    now.stamps_start += STAMP_SCHEDULE_RECORD;
    memcpy(file->octets + now.stamps_start + now.stamps, stamp, (size_t)numbers->length);
    now.stamps += numbers->length;
    put_header(file->octets, &now);
    file->length = (size_t)(now.stamps_start + now.stamps);
}

/* Full reading of what was made. All but the last record was read before, so what is refused is the line at hand. The status. */
static int judge(const schedule *file, const record *line)
{
    uint32_t records, fault, refusal = stamp_schedule_read(file->octets, file->length, &records, &fault);
    if (refusal == STAMP_ACCEPTED)
        return EXIT_ACCEPTED;
    say_line(line);
    print_refused(stderr, file, refusal, fault);
    return EXIT_REFUSED;
}

static int add_line(schedule *file, const record *line)
{
    header now = header_of(file->octets);
    record stamp;
    entry numbers = {now.stamps, 0, 0, 0};
    int status;
    if (now.records == STAMP_MAX_RECORDS) {
        say_line(line);
        fprintf(stderr, "a schedule has at most %d records\n", STAMP_MAX_RECORDS);
        return EXIT_REFUSED;
    }
    status = read_line(line, &stamp, &numbers);
    if (status != EXIT_ACCEPTED)
        return status;
    add_record(file, &numbers, stamp.octets);
    return judge(file, line);
}

/* What is printed is what full reading took, whatever the lines were. */
static void print_file(const schedule *file)
{
    uint32_t records, fault;
    if (stamp_schedule_read(file->octets, file->length, &records, &fault) != STAMP_ACCEPTED)
        end_in_doubt("the library refuses the schedule that was made");
    fwrite(file->octets, 1, file->length, stdout);
}

int make_schedule(void)
{
    static schedule file;
    static char *arguments[] = {standard_input};
    static const header none = {0, STAMP_SCHEDULE_HEADER, 0, STAMP_SCHEDULE_HEADER};
    source lines = source_of(arguments, 1, NOTATION_TEXT);
    record line;
    outcome found;
    int status;
    put_header(file.octets, &none);
    file.length = STAMP_SCHEDULE_HEADER;
    while ((found = next_record(&lines, &line)) == RECORD_TAKEN) {
        status = add_line(&file, &line);
        if (status != EXIT_ACCEPTED)
            return status;
    }
    if (found == RECORD_FAILED)
        return EXIT_TROUBLE;
    print_file(&file);
    return EXIT_ACCEPTED;
}
