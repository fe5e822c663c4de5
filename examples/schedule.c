/* Reads a schedule card and prints its records, or where and why it is refused. */
#include <stdio.h>
#include <string.h>

#include "stamp.h"

/* Two records, each with a stamp: of one octet in compact form, and of 25 as text. */
static const uint8_t card[] = {
    0, 0, 0, 2, 0, 0, 0, 16, 0, 0, 0, 26, 0, 0, 0, 40,      /* records, their start, stamp octets, their start */
    0, 0, 0, 0, 0, 1, 0, 1, 0, 0, 0, 25,                    /* stamp start and length, channel, correction */
    0, 0, 0, 1, 0, 25, 0, 16, 0xFF, 0xFF, 0xFF, 0xE7,
    0x00,
    '2', '0', '2', '0', '-', '0', '2', '-', '2', '8', 'T', '0', '0', ':', '0', '0', ':', '0', '0', '+', '0', '0', ':', '0', '0'
};

static void print_records(const uint8_t *file, size_t length)
{
    uint32_t records, fault, place;
    stamp_record found;
    uint32_t refusal = stamp_schedule_read(file, length, &records, &fault);
    if (refusal != STAMP_ACCEPTED) {
        printf("record %u: refusal %u: %s\n", (unsigned)fault, (unsigned)refusal, stamp_refusal_sentence(refusal));
        return;
    }
    for (place = 1; place <= records; place++)
        if (stamp_record_at(file, length, place, &found) == STAMP_ACCEPTED)
            printf("%u: channel %u, correction %+d, from instant %lld on\n", (unsigned)place, (unsigned)found.channel,
                   (int)found.correction, (long long)found.instant);
}

int main(void)
{
    uint8_t wrong[sizeof card];
    print_records(card, sizeof card);
    memcpy(wrong, card, sizeof card);
    wrong[35] = 17;                     /* the channel of the second record: 1 to 16 is right */
    print_records(wrong, sizeof wrong);
    return 0;
}
