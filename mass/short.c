/* Every input of 0 to 3 octets, by all nine readers; and kind numbers that are no kind. */
#include "check.h"
#include "parts.h"

#include <string.h>

static void read_by_no_kind(uint32_t kind)
{
    static const char *const inputs[] = {"", "\x01", "\xFE\xF2\x01\x01", "\x80\x01\x14\x1D\xD7\x60\x01", "12:34:56",
                                         "2020-05-08", "2020-05-08T12:34:56.789-00:30",
                                         "2020-05-08T12:34:56.789-00:00"};
    for (size_t i = 0; i < sizeof inputs / sizeof inputs[0]; i++)
        check_read(kind, (const uint8_t *)inputs[i], strlen(inputs[i]));
}

/* Digits above 6 come first, then the kind, whatever the rest. */
static void write_of_no_kind(uint32_t kind)
{
    image written;
    for (uint32_t digits = 0; digits <= 8; digits++) {
        for (int binary = 0; binary <= 1; binary++) {
            stamp_settings settings = stamp_make_settings(binary, STAMP_EXTENDED_FROM, digits);
            stamp_value right = stamp_make_value(kind, 2020, 5, 8, 1, -30);
            stamp_value wrong = stamp_make_value(kind, 0, 13, 32, STAMP_END_OF_DAY + 1, 1440);
            check_write(&right, settings, LONGEST_TRIED, &written);
            check_write(&right, settings, 0, &written);
            check_write(&wrong, settings, LONGEST_TRIED, &written);
        }
    }
}

static void try_no_kinds(void)
{
    static const uint32_t none[] = {6, 7, 8, 9, 10, 15, 16, 255, 256, 261, 65536, 65541, 2147483647, 2147483648,
                                    4294967290, 4294967295};
    for (size_t i = 0; i < sizeof none / sizeof none[0]; i++) {
        read_by_no_kind(none[i]);
        write_of_no_kind(none[i]);
    }
}

/* A unit is a first octet; the last unit has none. */
void try_short(uint64_t unit, chance *by)
{
    (void)by;
    uint8_t octets[3] = {(uint8_t)unit, 0, 0};
    if (unit == SHORT_UNITS - 1) {
        check_read_by_all(octets, 0);
        try_no_kinds();
        return;
    }
    check_read_by_all(octets, 1);
    for (int second = 0; second <= 255; second++) {
        octets[1] = (uint8_t)second;
        check_read_by_all(octets, 2);
        for (int third = 0; third <= 255; third++) {
            octets[2] = (uint8_t)third;
            check_read_by_all(octets, 3);
        }
    }
}
