/* Reads a stamp, prints what it says, and writes it back in the form found: the same octets again. */
#include <stdio.h>
#include <string.h>

#include "stamp.h"

static int refused(uint32_t refusal)
{
    printf("refusal %u: %s\n", (unsigned)refusal, stamp_refusal_sentence(refusal));
    return 1;
}

int main(void)
{
    const uint8_t lent[7] = {0xFE, 0xF2, 0xFF, 0xFF, 0xFF, 0xFF, 0xFF};
    uint8_t text[STAMP_LONGEST_IMAGE], again[STAMP_LONGEST_IMAGE];
    size_t length, count;
    stamp_decoded found;
    uint32_t refusal = stamp_decode(STAMP_DATETIMETZ, lent, sizeof lent, &found);
    if (refusal != STAMP_ACCEPTED)
        return refused(refusal);

    refusal = stamp_encode(&found.value, stamp_default_settings(), text, sizeof text, &length);
    if (refusal != STAMP_ACCEPTED)
        return refused(refusal);
    printf("%s, %s: %.*s\n", stamp_kind_name(found.value.kind), stamp_form_name(found.form), (int)length, (char *)text);

    refusal = stamp_encode(&found.value, stamp_settings_found(&found), again, sizeof again, &count);
    if (refusal != STAMP_ACCEPTED)
        return refused(refusal);
    puts(count == sizeof lent && memcmp(again, lent, count) == 0 ? "written back: the same" : "written back: different");
    return 0;
}
