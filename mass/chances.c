/* By chance: stamps that were changed after writing, octets of any kind, and values right and wrong. */
#include "check.h"
#include "make.h"
#include "parts.h"

#include <string.h>

/* ---- Changed stamps ---- */

static uint8_t likely_octet(chance *by)
{
    static const uint8_t likely[] = "0123456789+-:.T\x00\x01\x7F\x80\x81\x8F\x90\x91\x9F\xFE\xFF";
    return chance_once_in(by, 2) ? likely[chance_below(by, sizeof likely - 1)] : chance_octet(by);
}

static void delete_octet(image *in, size_t place)
{
    memmove(in->octets + place, in->octets + place + 1, in->length - place - 1);
    in->length--;
}

static void insert_octet(image *in, size_t place, uint8_t octet)
{
    if (in->length == LONGEST_TRIED)
        return;
    memmove(in->octets + place + 1, in->octets + place, in->length - place);
    in->octets[place] = octet;
    in->length++;
}

static void grow(image *in, chance *by)
{
    for (uint64_t more = 1 + chance_below(by, 8); more > 0; more--)
        add_octet(in, likely_octet(by));
}

/* One change. */
static void change(image *in, chance *by)
{
    if (in->length == 0) {
        grow(in, by);
        return;
    }
    size_t place = (size_t)chance_below(by, in->length);
    switch (chance_below(by, 9)) {
    case 0: in->octets[place] = chance_octet(by); break;
    case 1: in->octets[place] = likely_octet(by); break;
    case 2: in->octets[place] ^= (uint8_t)(1 << chance_below(by, 8)); break;
    case 3: in->octets[place]++; break;
    case 4: in->octets[place]--; break;
    case 5: delete_octet(in, place); break;
    case 6: insert_octet(in, place, likely_octet(by)); break;
    case 7: in->length = place; break;
    default: grow(in, by); break;
    }
}

/* 10,000 rounds: a stamp, as written or with up to three changes, to all nine readers. */
void try_mutated(uint64_t unit, chance *by)
{
    (void)unit;
    for (int round = 0; round < CHANCE_ROUNDS; round++) {
        image made;
        stamp_value value = some_value(by, (uint32_t)chance_below(by, STAMP_KINDS));
        if (!check_write(&value, some_settings(by), LONGEST_TRIED, &made))
            continue;
        for (uint64_t changes = chance_below(by, 4); changes > 0; changes--)
            change(&made, by);
        check_read_by_all(made.octets, made.length);
    }
}

/* ---- Octets ---- */

static void any_octets(image *to, chance *by)
{
    for (uint64_t length = chance_below(by, LONGEST_TRIED + 1); length > 0; length--)
        add_octet(to, chance_octet(by));
}

/* Of the octets that a text can have, and one that follows them in ASCII. */
static void text_octets(image *to, chance *by)
{
    static const char letters[] = "0123456789-:+.T;";
    for (uint64_t length = chance_below(by, LONGEST_TRIED + 1); length > 0; length--)
        add_octet(to, (uint8_t)letters[chance_below(by, sizeof letters - 1)]);
}

/* A text with digits at all the right places; low ones often, so that some fields are in range. */
static void shaped_text(image *to, chance *by)
{
    static const char *const shapes[] = {"9999-99-99", "9999-99-99#99:99", "99:99:99", "99:99:99#99:99",
                                         "9999-99-99T99:99:99", "9999-99-99T99:99:99#99:99", "99:99:99.99",
                                         "99:99:99.9999#99:99", "9999-99-99T99:99:99.999", "9999-99-99T99:99:99.999999",
                                         "9999-99-99T99:99:99.9#99:99", "9999-99-99T99:99:99.999999#99:99"};
    const char *shape = shapes[chance_below(by, sizeof shapes / sizeof shapes[0])];
    for (; *shape != '\0'; shape++) {
        if (*shape == '9')
            add_octet(to, (uint8_t)('0' + chance_below(by, chance_once_in(by, 4) ? 10 : 3)));
        else if (*shape == '#')
            add_octet(to, chance_once_in(by, 2) ? '+' : '-');
        else
            add_octet(to, (uint8_t)*shape);
    }
}

/* A header's bits and then what an extended form may have, of a right or a wrong length. */
static void headed_octets(image *to, chance *by)
{
    uint64_t header = 0x8000 + 0x1000 * chance_below(by, 2);
    header += chance_once_in(by, 2) ? 0 : chance_below(by, 4096);
    add_number(to, header, 2);
    if (chance_once_in(by, 2))
        add_number(to, chance_below(by, 3652058 * 5 / 4), 3);
    add_number(to, chance_below(by, STAMP_END_OF_DAY * 5 / 4), 5);
    if (chance_once_in(by, 4))
        change(to, by);
}

/* What a compact form may have: an offset or none, then a number that may begin with redundant octets. */
static void compact_octets(image *to, chance *by)
{
    if (chance_once_in(by, 2))
        add_number(to, chance_once_in(by, 4) ? 0 : (uint64_t)some_offset(by), 2);
    uint64_t number = chance_below(by, (uint64_t)1 << chance_below(by, 50));
    if (chance_once_in(by, 2))
        number = 0 - number;
    add_number(to, number, 1 + (int)chance_below(by, 8));
}

/* 10,000 rounds to all nine readers. */
void try_random_octets(uint64_t unit, chance *by)
{
    (void)unit;
    for (int round = 0; round < CHANCE_ROUNDS; round++) {
        image made = {{0}, 0};
        switch (chance_below(by, 5)) {
        case 0: any_octets(&made, by); break;
        case 1: text_octets(&made, by); break;
        case 2: shaped_text(&made, by); break;
        case 3: compact_octets(&made, by); break;
        default: headed_octets(&made, by); break;
        }
        check_read_by_all(made.octets, made.length);
    }
}

/* ---- Values ---- */

/* 10,000 rounds: any value under any settings into any room; what was accepted is read by the two readers. */
void try_random_values(uint64_t unit, chance *by)
{
    (void)unit;
    for (int round = 0; round < CHANCE_ROUNDS; round++) {
        image written;
        stamp_value value = any_value(by);
        stamp_settings settings = any_settings(by);
        if (check_write(&value, settings, (size_t)chance_below(by, LONGEST_TRIED + 1), &written))
            check_read_by_two(value.kind, written.octets, written.length);
    }
}
