/* Writing and reading. */
#include "check.h"

#include <string.h>

#include "../second/fast.h"
#include "counting.h"

/* ---- Writing ---- */

/* Another octet each time, so that no octet of an image can hide in the filling. */
static void lend_area(write_answer *to)
{
    memset(to->area, (int)((0x5A + 37 * checks_of_unit) % 256), sizeof to->area);
    to->count = (size_t)-1;
}

static void write_with_both(const call *made, write_answer *library, write_answer *second)
{
    const stamp_value *value = &made->value;
    const stamp_settings *settings = &made->settings;
    lend_area(library);
    lend_area(second);
    /* A pointer to no octets may be null: every other one is. */
    bool null = made->room == 0 && checks_of_unit % 2 == 0;
    library->refusal = stamp_write(value->kind, value->year, value->month, value->day, value->micros, value->offset,
                                   settings->binary, settings->version, settings->digits,
                                   null ? NULL : library->area + GUARD, made->room, &library->count);
    second->refusal = fast_write(value->kind, value->year, value->month, value->day, value->micros, value->offset,
                                 settings->binary, settings->version, settings->digits,
                                 second->area + GUARD, made->room, &second->count);
}

/* All of the area but the image is still the filling. */
static bool rest_is_as_lent(const write_answer *answer)
{
    write_answer fresh;
    lend_area(&fresh);
    size_t after = GUARD + answer->count;
    return memcmp(answer->area, fresh.area, GUARD) == 0
        && memcmp(answer->area + after, fresh.area + after, sizeof fresh.area - after) == 0;
}

/* What is wrong with the library's answer, or null. */
static const char *wrong_in_write(const call *made, const write_answer *library, const write_answer *second)
{
    if (library->refusal != second->refusal)
        return "the refusal numbers differ";
    if (library->count != second->count)
        return "the counts differ";
    if (memcmp(library->area, second->area, sizeof library->area) != 0)
        return "the buffers differ";
    if (library->refusal == STAMP_ACCEPTED ? library->count > made->room : library->count != 0)
        return "a count that may not be";
    return rest_is_as_lent(library) ? NULL : "an octet outside the image changed";
}

/* One check. `same_as` is the image that must come out, or null where any may that both agree on. */
static bool write_checked(const image *same_as, image *written)
{
    write_answer library, second;
    words said;
    write_with_both(&now->last, &library, &second);
    const char *why = wrong_in_write(&now->last, &library, &second);
    if (why == NULL && same_as != NULL
        && (library.count != same_as->length || memcmp(library.area + GUARD, same_as->octets, same_as->length) != 0))
        why = "what was read is not written again as the same octets";
    count_answer(library.refusal);
    if (why != NULL) {
        if (start_difference(&said, why)) {
            say_write(&said, "library:", &library);
            say_write(&said, "second: ", &second);
        }
        return false;
    }
    written->length = library.count;
    memcpy(written->octets, library.area + GUARD, LONGEST_TRIED);
    return library.refusal == STAMP_ACCEPTED;
}

static void note_write(const stamp_value *value, stamp_settings settings, size_t room)
{
    now->last.which = ASKED_WRITE;
    now->last.value = *value;
    now->last.settings = settings;
    now->last.room = room;
}

bool check_write(const stamp_value *value, stamp_settings settings, size_t room, image *written)
{
    note_write(value, settings, room);
    return write_checked(NULL, written);
}

/* ---- Reading ---- */

static void write_again(const parts_answer *answer)
{
    const int64_t *parts = answer->parts + 1;
    stamp_decoded found;
    image before = now->last.read, written;
    found.value = stamp_make_value((uint32_t)parts[0], (uint32_t)parts[3], (uint32_t)parts[4], (uint32_t)parts[5],
                                   (uint64_t)parts[6], (int32_t)parts[7]);
    found.form = (uint32_t)parts[1];
    found.digits = (uint32_t)parts[2];
    note_write(&found.value, stamp_settings_found(&found), before.length);
    now->again++;
    write_checked(&before, &written);
}

/* One check, of the input at `lent`; and one more where it was accepted. */
static void read_checked(const uint8_t *lent)
{
    parts_answer library, second;
    words said;
    const image *input = &now->last.read;
    lend_parts(&library);
    lend_parts(&second);
    library.refusal = stamp_read(now->last.kind, lent, input->length, library.parts + 1);
    second.refusal = fast_read(now->last.kind, input->octets, input->length, second.parts + 1);
    const char *why = wrong_in_parts(&library, &second, 8);
    if (why == NULL && lent != NULL && memcmp(lent, input->octets, input->length) != 0)
        why = "an octet of the input changed";
    count_answer(library.refusal);
    if (why != NULL) {
        if (start_difference(&said, why)) {
            say_parts(&said, "library:", ASKED_READ, &library);
            say_parts(&said, "second: ", ASKED_READ, &second);
        }
    } else if (library.refusal == STAMP_ACCEPTED) {
        write_again(&library);
    }
}

void check_read(uint32_t kind, const uint8_t *octets, size_t length)
{
    uint8_t *lent = fence() - length;
    memcpy(lent, octets, length);
    now->last.which = ASKED_READ;
    now->last.kind = kind;
    now->last.read.length = length;
    memcpy(now->last.read.octets, octets, length);
    read_checked(lent);
    /* A pointer to no octets may be null. */
    if (length == 0)
        read_checked(NULL);
}

void check_read_by_all(const uint8_t *octets, size_t length)
{
    for (uint32_t kind = 0; kind < STAMP_READERS; kind++)
        check_read(kind, octets, length);
}

void check_read_by_two(uint32_t kind, const uint8_t *octets, size_t length)
{
    check_read(kind, octets, length);
    check_read(STAMP_DATE_OR_DATETZ + kind / 2, octets, length);
}

bool check_both_ways(const stamp_value *value, stamp_settings settings)
{
    image written;
    if (!check_write(value, settings, LONGEST_TRIED, &written))
        return false;
    check_read_by_two(value->kind, written.octets, written.length);
    return true;
}
