/* What chooses between a plain and a zoned kind: the length, the first bits, and of some texts one octet more. */
#include "check.h"
#include "make.h"
#include "parts.h"

/* The octet at every place as every octet, to all nine readers. */
static void read_with_every_octet(image in)
{
    for (size_t place = 0; place < in.length; place++) {
        const uint8_t was = in.octets[place];
        for (int octet = 0; octet <= 255; octet++) {
            in.octets[place] = (uint8_t)octet;
            check_read_by_all(in.octets, in.length);
        }
        in.octets[place] = was;
    }
}

/* As it is, and behind the first bits of the extended form. */
static void read_behind_first_bits(image in)
{
    static const uint8_t first[] = {0x80, 0x8F, 0x90, 0x9F};
    read_with_every_octet(in);
    for (size_t i = 0; i < sizeof first; i++) {
        in.octets[0] = first[i];
        read_with_every_octet(in);
    }
}

/* The text of a value, and the same with an octet less and one more. */
static void read_text_of(uint32_t kind, int32_t offset, uint32_t digits)
{
    const stamp_value value = stamp_make_value(kind, 2020, 2, 29, 45296789012, offset);
    image text;
    if (!check_write(&value, as_text(digits), LONGEST_TRIED, &text))
        return;
    read_behind_first_bits(text);
    text.length--;
    read_behind_first_bits(text);
    text.length++;
    add_octet(&text, '0');
    read_behind_first_bits(text);
}

/* A unit is a kind and a number of digits; a kind without a time has one text for all of them. Of an offset both signs. */
void try_choices(uint64_t unit, chance *by)
{
    const uint32_t kind = (uint32_t)(unit % STAMP_KINDS), digits = (uint32_t)(unit / STAMP_KINDS);
    const bool timed = kind >= STAMP_TIME, zoned = kind % 2 != 0;
    (void)by;
    if (!timed && digits > 0)
        return;
    read_text_of(kind, 270, digits);
    if (zoned)
        read_text_of(kind, -30, digits);
}
