/* The call on two schedules: manual over plan, as the library answers it and as the header's two forms of it do. */
#include "check.h"

#include <stddef.h>
#include <string.h>

#include "../second/fast.h"
#include "counting.h"

#define NUMBERS_LENT 4

/* Where the two files of the call that was noted are lent. */
typedef struct lent_files {
    const uint8_t *plan, *manual;
} lent_files;

/* What the second program says to the call that was noted. */
typedef struct second_says {
    over_answer over;
    stamp_held held;                   /* of the file that it names; all 0 where the part is empty */
    int outcome;
} second_says;

/* Another number in each. */
static void lend_answer(over_answer *to)
{
    for (size_t i = 0; i < NUMBERS_LENT; i++)
        to->part[i] = LENT_SIZE - i;
}

static bool guard_is_as_lent(const over_answer *answer, size_t at)
{
    return answer->part[at] == LENT_SIZE - at;
}

/* ---- The second program ---- */

/* What holds by one of the files; false where the question is refused. */
static bool ask_one(const card *file, stamp_held *held)
{
    static const stamp_held none = {0, STAMP_NONE_YET, 0, 0, 0, 0};
    int64_t parts[5];
    *held = none;
    if (fast_schedule_holds(file->octets, file->length, now->last.a, now->last.channel, &held->read, parts) != 0)
        return false;
    held->place = (uint32_t)parts[0];
    held->start = (size_t)parts[1];
    held->length = (size_t)parts[2];
    held->instant = parts[3];
    held->correction = (int32_t)parts[4];
    return true;
}

static int outcome_of(const stamp_held *plan, const stamp_held *manual)
{
    if (plan->place == STAMP_NONE_YET && manual->place == STAMP_NONE_YET)
        return OVER_NEITHER;
    if (manual->place == STAMP_NONE_YET)
        return OVER_PLAN_ALONE;
    if (plan->place == STAMP_NONE_YET)
        return OVER_MANUAL_ALONE;
    if (plan->instant == manual->instant)
        return OVER_EQUAL;
    return plan->instant > manual->instant ? OVER_PLAN_LATER : OVER_MANUAL_LATER;
}

static second_says ask_second(void)
{
    const call *made = &now->last;
    second_says found;
    stamp_held plan, manual;
    const bool plan_answers = ask_one(&made->file, &plan), manual_answers = ask_one(&made->manual, &manual);
    lend_answer(&found.over);
    found.over.of = fast_schedule_over(made->file.octets, made->file.length, made->manual.octets, made->manual.length,
                                       made->a, made->channel, &found.over.part[PART_START]);
    found.outcome = plan_answers && manual_answers ? outcome_of(&plan, &manual) : OVER_REFUSED;
    found.held = found.over.of == STAMP_OF_MANUAL ? manual : plan;
    if (found.over.part[PART_LENGTH] == 0)
        memset(&found.held, 0, sizeof found.held);
    return found;
}

/* ---- The checks ---- */

/* Whether the answer names the file that has to be named where it came to this, and a part that is empty or not. */
static bool fits_outcome(const over_answer *answer, int outcome)
{
    const bool none = outcome == OVER_REFUSED || outcome == OVER_NEITHER;
    const bool plan = none || outcome == OVER_PLAN_ALONE || outcome == OVER_PLAN_LATER;
    return answer->of == (plan ? STAMP_OF_PLAN : STAMP_OF_MANUAL)
        && (none ? answer->part[PART_START] == 0 && answer->part[PART_LENGTH] == 0 : answer->part[PART_LENGTH] > 0);
}

/* What is wrong with the library's answer, or null. */
static const char *wrong_in_over(const over_answer *library, const second_says *second)
{
    if (library->of != second->over.of)
        return "the files named differ";
    if (!guard_is_as_lent(library, 0) || !guard_is_as_lent(library, NUMBERS_LENT - 1))
        return "a number beside the part changed";
    if (library->part[PART_START] != second->over.part[PART_START]
        || library->part[PART_LENGTH] != second->over.part[PART_LENGTH])
        return "the parts differ";
    if (!fits_outcome(library, second->outcome))
        return "the answer is not what comes of the two questions";
    return NULL;
}

static bool files_are_as_lent(lent_files lent)
{
    return file_is_as_lent(lent.plan) && manual_is_as_lent(lent.manual);
}

/* One check, of the library's own call. */
static void over_checked(lent_files lent, const second_says *second)
{
    const call *made = &now->last;
    over_answer library;
    words said;
    lend_answer(&library);
    library.of = stamp_schedule_over(lent.plan, made->file.length, lent.manual, made->manual.length, made->a,
                                     made->channel, &library.part[PART_START]);
    const char *why = wrong_in_over(&library, second);
    if (why == NULL && !files_are_as_lent(lent))
        why = "an octet of a file changed";
    count_outcome(second->outcome);
    if (why != NULL && start_difference(&said, why)) {
        say_over(&said, "library:", &library);
        say_over(&said, "second: ", &second->over);
    }
}

/* One check, of the part as a place in memory: within the file that is named, or the plan itself, which may be null. */
static void place_checked(lent_files lent, const second_says *second)
{
    const call *made = &now->last;
    words said;
    const uint8_t *file = second->over.of == STAMP_OF_MANUAL ? lent.manual : lent.plan;
    const uint8_t *wanted = second->over.part[PART_LENGTH] == 0 ? lent.plan : file + second->over.part[PART_START];
    const stamp_part found = stamp_over(lent.plan, made->file.length, lent.manual, made->manual.length, made->a,
                                        made->channel);
    count_outcome(second->outcome);
    if (found.of == second->over.of && found.octets == wanted && found.length == second->over.part[PART_LENGTH])
        return;
    if (start_difference(&said, "stamp_over gives another file, place or length"))
        say_over(&said, "second: ", &second->over);
}

static bool same_held(const stamp_held *one, const stamp_held *other)
{
    return one->read == other->read && one->place == other->place && one->start == other->start
        && one->length == other->length && one->instant == other->instant && one->correction == other->correction;
}

/* One check, of all that the file that is named answers. */
static void held_checked(lent_files lent, const second_says *second)
{
    const call *made = &now->last;
    words said;
    stamp_held found;
    memset(&found, 0xA5, sizeof found);
    const uint32_t of = stamp_held_over(lent.plan, made->file.length, lent.manual, made->manual.length, made->a,
                                        made->channel, &found);
    count_outcome(second->outcome);
    if (of == second->over.of && same_held(&found, &second->held))
        return;
    if (start_difference(&said, "stamp_held_over gives another file or record")) {
        say_held_of(&said, "library:", of, &found);
        say_held_of(&said, "second: ", second->over.of, &second->held);
    }
}

static void all_checked(lent_files lent, const second_says *second)
{
    over_checked(lent, second);
    place_checked(lent, second);
    held_checked(lent, second);
}

void check_schedule_over(const card *plan, const card *manual, int64_t instant, uint32_t channel)
{
    lent_files lent;
    lent.plan = note_file(ASKED_SCHEDULE_OVER, plan);
    lent.manual = note_manual(manual);
    if (plan == manual)
        lent.manual = lent.plan;
    now->last.a = instant;
    now->last.channel = channel;
    const second_says second = ask_second();
    all_checked(lent, &second);
    /* A pointer to no octets may be null. */
    if (plan->length > 0 && manual->length > 0)
        return;
    if (plan->length == 0)
        lent.plan = NULL;
    if (manual->length == 0)
        lent.manual = NULL;
    all_checked(lent, &second);
}
