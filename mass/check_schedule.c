/* The calls on schedules that read a whole file. */
#include "check.h"

#include <stddef.h>

#include "../second/fast.h"
#include "counting.h"

#define NUMBERS_LENT 5

/* ---- Full reading ---- */

/* Another number in each. */
static void lend_numbers(whole_answer *to)
{
    for (uint32_t i = 0; i < NUMBERS_LENT; i++)
        to->numbers[i] = LENT_NUMBER + i;
}

static bool guards_are_as_lent(const whole_answer *answer)
{
    for (uint32_t i = 0; i < NUMBERS_LENT; i++)
        if (i != RECORDS && i != FAULT && answer->numbers[i] != LENT_NUMBER + i)
            return false;
    return true;
}

/* What is wrong with the library's answer, or null. */
static const char *wrong_in_whole(const whole_answer *library, const whole_answer *second)
{
    if (library->refusal != second->refusal)
        return "the refusal numbers differ";
    if (!guards_are_as_lent(library))
        return "a number beside the answer changed";
    if (library->numbers[RECORDS] != second->numbers[RECORDS])
        return "the numbers of records differ";
    if (library->numbers[FAULT] != second->numbers[FAULT])
        return "the places of the refused record differ";
    if (library->refusal == STAMP_ACCEPTED ? library->numbers[FAULT] != 0 : library->numbers[RECORDS] != 0)
        return "a place that nothing is refused at, or records of a refused file";
    return NULL;
}

/* One check, of the file at `lent`; true where it was accepted, and rightly. */
static bool read_checked(const uint8_t *lent)
{
    const card *file = &now->last.file;
    whole_answer library, second;
    words said;
    lend_numbers(&library);
    lend_numbers(&second);
    library.refusal = stamp_schedule_read(lent, file->length, &library.numbers[RECORDS], &library.numbers[FAULT]);
    second.refusal = fast_schedule_read(file->octets, file->length, &second.numbers[RECORDS], &second.numbers[FAULT]);
    const char *why = wrong_in_whole(&library, &second);
    if (why == NULL && !file_is_as_lent(lent))
        why = "an octet of the file changed";
    count_answer(library.refusal);
    if (why == NULL)
        return library.refusal == STAMP_ACCEPTED;
    if (start_difference(&said, why)) {
        say_whole(&said, "library:", &library);
        say_whole(&said, "second: ", &second);
    }
    return false;
}

bool check_schedule_read(const card *file)
{
    const uint8_t *lent = note_file(ASKED_SCHEDULE_READ, file);
    /* A pointer to no octets may be null. */
    if (file->length == 0)
        read_checked(NULL);
    return read_checked(lent);
}

/* ---- The record at a place ---- */

static void record_checked(const uint8_t *lent)
{
    const card *file = &now->last.file;
    parts_answer library, second;
    words said;
    lend_parts(&library);
    lend_parts(&second);
    library.refusal = stamp_schedule_record(lent, file->length, now->last.place, library.parts + 1);
    second.refusal = fast_schedule_record(file->octets, file->length, now->last.place, second.parts + 1);
    const char *why = wrong_in_parts(&library, &second, parts_filled(ASKED_SCHEDULE_RECORD));
    if (why == NULL && !file_is_as_lent(lent))
        why = "an octet of the file changed";
    count_answer(library.refusal);
    if (why != NULL && start_difference(&said, why)) {
        say_parts(&said, "library:", ASKED_SCHEDULE_RECORD, &library);
        say_parts(&said, "second: ", ASKED_SCHEDULE_RECORD, &second);
    }
}

void check_schedule_record(const card *file, uint32_t place)
{
    const uint8_t *lent = note_file(ASKED_SCHEDULE_RECORD, file);
    now->last.place = place;
    if (file->length == 0)
        record_checked(NULL);
    record_checked(lent);
}
