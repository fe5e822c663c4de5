/* The calls on instants. */
#include "check.h"

#include <stddef.h>

#include "../second/fast.h"
#include "counting.h"

/* The five calls of the library, or of the second program. */
typedef struct calls {
    uint32_t (*instant)(uint32_t, uint32_t, uint32_t, uint64_t, int32_t, int64_t *);
    uint32_t (*add)(int64_t, int64_t, int64_t *);
    uint32_t (*difference)(int64_t, int64_t, int64_t *);
    uint32_t (*at)(int64_t, int32_t, int64_t *);
    uint32_t (*restate)(uint32_t, uint32_t, uint32_t, uint64_t, int32_t, int32_t, int64_t *);
} calls;

static const calls of_library = {stamp_instant, stamp_add, stamp_difference, stamp_at, stamp_restate};
static const calls of_second = {fast_instant, fast_add, fast_difference, fast_at, fast_restate};

static uint32_t ask(const calls *of, const call *made, int64_t *lent)
{
    const stamp_value *value = &made->value;
    switch (made->which) {
    case ASKED_INSTANT:
        return of->instant(value->year, value->month, value->day, value->micros, value->offset, lent);
    case ASKED_ADD:
        return of->add(made->a, made->b, lent);
    case ASKED_DIFFERENCE:
        return of->difference(made->a, made->b, lent);
    case ASKED_AT:
        return of->at(made->a, made->to, lent);
    default:
        return of->restate(value->year, value->month, value->day, value->micros, value->offset, made->to, lent);
    }
}

/* One check of the call that was noted; true where it was accepted, and rightly. `same_as` is the instant that must be
 * the result, or null where any result may be that both agree on. */
static bool checked(const int64_t *same_as, parts_answer *library)
{
    const asked which = now->last.which;
    parts_answer second;
    words said;
    lend_parts(library);
    lend_parts(&second);
    library->refusal = ask(&of_library, &now->last, library->parts + 1);
    second.refusal = ask(&of_second, &now->last, second.parts + 1);
    const char *why = wrong_in_parts(library, &second, parts_filled(which));
    if (why == NULL && same_as != NULL && (library->refusal != STAMP_ACCEPTED || library->parts[1] != *same_as))
        why = "a stamp has another instant than it must have";
    count_answer(library->refusal);
    if (why == NULL)
        return library->refusal == STAMP_ACCEPTED;
    if (start_difference(&said, why)) {
        say_parts(&said, "library:", which, library);
        say_parts(&said, "second: ", which, &second);
        if (same_as != NULL)
            say_wanted_instant(&said, *same_as);
    }
    return false;
}

void check_instant(const stamp_value *value, const int64_t *same_as)
{
    parts_answer answer;
    now->last.which = ASKED_INSTANT;
    now->last.value = *value;
    checked(same_as, &answer);
}

static void check_two(asked which, int64_t a, int64_t b)
{
    parts_answer answer;
    now->last.which = which;
    now->last.a = a;
    now->last.b = b;
    checked(NULL, &answer);
}

void check_add(int64_t instant, int64_t micros)
{
    check_two(ASKED_ADD, instant, micros);
}

void check_difference(int64_t a, int64_t b)
{
    check_two(ASKED_DIFFERENCE, a, b);
}

/* The stamp that was answered has this instant. */
static stamp_value ask_again(const parts_answer *answer, int64_t instant)
{
    const stamp_value found = stamp_value_of_parts(answer->parts + 1);
    now->again++;
    check_instant(&found, &instant);
    return found;
}

bool check_at(int64_t instant, int32_t offset, stamp_value *found)
{
    parts_answer answer;
    now->last.which = ASKED_AT;
    now->last.a = instant;
    now->last.to = offset;
    if (!checked(NULL, &answer))
        return false;
    *found = ask_again(&answer, instant);
    return true;
}

void check_restate(const stamp_value *value, int32_t to)
{
    parts_answer answer;
    int64_t instant = 0;
    now->last.which = ASKED_RESTATE;
    now->last.value = *value;
    now->last.to = to;
    if (!checked(NULL, &answer))
        return;
    fast_instant(value->year, value->month, value->day, value->micros, value->offset, &instant);
    ask_again(&answer, instant);
}
