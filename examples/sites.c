/* Compares the stamps of two sites by their UTC instants, and restates the second at the first one's offset. */
#include <stdio.h>
#include <stdlib.h>
#include <string.h>

#include "stamp.h"

/* Ends the program where a call refuses. */
static void accepted(uint32_t refusal)
{
    if (refusal == STAMP_ACCEPTED)
        return;
    printf("refusal %u: %s\n", (unsigned)refusal, stamp_refusal_sentence(refusal));
    exit(1);
}

static void print_stamp(const char *what, const stamp_value *value)
{
    uint8_t text[STAMP_LONGEST_IMAGE];
    size_t length;
    accepted(stamp_encode(value, stamp_default_settings(), text, sizeof text, &length));
    printf("%s%.*s\n", what, (int)length, (char *)text);
}

int main(void)
{
    const uint8_t compact[7] = {0xFE, 0xF2, 0xFF, 0xFF, 0xFF, 0xFF, 0xFF};
    const char *text = "2020-01-01T09:00:00.25+04:30";
    stamp_decoded here, there;
    stamp_value restated, new_year;
    int64_t first, second, micros, sum;
    accepted(stamp_decode(STAMP_DATETIMETZ, compact, sizeof compact, &here));
    accepted(stamp_decode(STAMP_DATETIMETZ, (const uint8_t *)text, strlen(text), &there));
    accepted(stamp_instant_of(&here.value, &first));
    accepted(stamp_instant_of(&there.value, &second));
    accepted(stamp_difference(second, first, &micros));
    accepted(stamp_restate_value(&there.value, here.value.offset, &restated));
    print_stamp("first:    ", &here.value);
    print_stamp("second:   ", &there.value);
    print_stamp("restated: ", &restated);
    printf("the second is %s: %lld microseconds\n", first < second ? "later" : "not later", (long long)micros);

    /* Unix time counts seconds from 1970: here those of 2020. */
    accepted(stamp_add(STAMP_UNIX_EPOCH, INT64_C(1577836800) * 1000000, &sum));
    accepted(stamp_value_at(sum, here.value.offset, &new_year));
    print_stamp("at 1577836800 of Unix time: ", &new_year);
    return 0;
}
