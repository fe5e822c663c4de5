/* The call on schedules that reads no further than it must: which correction holds. */
#include "check.h"

#include <stddef.h>
#include <string.h>

#include "../second/fast.h"
#include "counting.h"
#include "make_card.h"

#define NUMBERS_LENT 3

/* Another number in each. */
static void lend_answer(held_answer *to)
{
    lend_parts(&to->record);
    for (uint32_t i = 0; i < NUMBERS_LENT; i++)
        to->numbers[i] = LENT_NUMBER + i;
}

static bool guards_are_as_lent(const held_answer *answer)
{
    for (uint32_t i = 0; i < NUMBERS_LENT; i++)
        if (i != RECORDS_READ && answer->numbers[i] != LENT_NUMBER + i)
            return false;
    return true;
}

/* What is wrong with the library's answer, or null. */
static const char *wrong_in_held(const held_answer *library, const held_answer *second)
{
    const char *why = wrong_in_parts(&library->record, &second->record, parts_filled(ASKED_SCHEDULE_HOLDS));
    if (why != NULL)
        return why;
    if (!guards_are_as_lent(library))
        return "a number beside the answer changed";
    if (library->numbers[RECORDS_READ] != second->numbers[RECORDS_READ])
        return "the numbers of records read differ";
    if (library->record.refusal != STAMP_ACCEPTED && library->numbers[RECORDS_READ] != 0)
        return "records were read of a refused file";
    return NULL;
}

static bool same_answers(const held_answer *one, const held_answer *other)
{
    return one->record.refusal == other->record.refusal
        && memcmp(one->record.parts, other->record.parts, sizeof one->record.parts) == 0
        && one->numbers[RECORDS_READ] == other->numbers[RECORDS_READ];
}

/* One check of the question that was noted, to the file at `lent`; true where it was answered, and rightly. `same_as`
 * is the answer that must come, or null where any may that both agree on. */
static bool holds_checked(const uint8_t *lent, const held_answer *same_as, held_answer *library)
{
    const call *made = &now->last;
    held_answer second;
    words said;
    lend_answer(library);
    lend_answer(&second);
    library->record.refusal = stamp_schedule_holds(lent, made->file.length, made->a, made->channel,
                                                   &library->numbers[RECORDS_READ], library->record.parts + 1);
    second.record.refusal = fast_schedule_holds(made->file.octets, made->file.length, made->a, made->channel,
                                                &second.numbers[RECORDS_READ], second.record.parts + 1);
    const char *why = wrong_in_held(library, &second);
    if (why == NULL && !file_is_as_lent(lent))
        why = "an octet of the file changed";
    if (why == NULL && same_as != NULL && !same_answers(library, same_as))
        why = "what stands behind the records read changes the answer";
    count_answer(library->record.refusal);
    if (why == NULL)
        return library->record.refusal == STAMP_ACCEPTED;
    if (start_difference(&said, why)) {
        say_held(&said, "library:", library);
        say_held(&said, "second: ", &second);
        if (same_as != NULL)
            say_held(&said, "before: ", same_as);
    }
    return false;
}

/* Every octet of the records behind those read, and of their stamps, is another; the header and the length stay. */
static void replace_unread(card *in, uint32_t read)
{
    const uint8_t other = (uint8_t)(1 + checks_of_unit % 255);
    const size_t stamps = (size_t)card_number(in, STAMPS_AT, 4), last = record_at(read);
    const size_t last_stamp = stamps + (size_t)card_number(in, last + START_AT, 4);
    for (size_t i = record_at(read + 1); i < stamps; i++)
        in->octets[i] ^= other;
    for (size_t i = last_stamp + (size_t)card_number(in, last + LENGTH_AT, 2); i < in->length; i++)
        in->octets[i] ^= other;
}

static void ask_again(const held_answer *before)
{
    static card other;
    held_answer library;
    const uint32_t read = before->numbers[RECORDS_READ];
    copy_card(&other, &now->last.file);
    if (read == card_number(&other, COUNT_AT, 4))
        return;
    replace_unread(&other, read);
    now->again++;
    holds_checked(note_file(ASKED_SCHEDULE_HOLDS, &other), before, &library);
}

void check_schedule_holds(const card *file, int64_t instant, uint32_t channel)
{
    const uint8_t *lent = note_file(ASKED_SCHEDULE_HOLDS, file);
    held_answer library;
    now->last.a = instant;
    now->last.channel = channel;
    /* A pointer to no octets may be null. */
    if (file->length == 0)
        holds_checked(NULL, NULL, &library);
    if (holds_checked(lent, NULL, &library))
        ask_again(&library);
}
