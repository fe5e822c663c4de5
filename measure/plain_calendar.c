/* The plain C version: the calendar's calls. See plain.h. */
#include "plain_common.h"

int32_t plain_day_number(uint32_t year, uint32_t month, uint32_t day)
{
    return is_day(year, month, day) ? (int32_t)day_number(year, month, day) : -1;
}

uint32_t plain_date_of(uint32_t number)
{
    struct stamp stamp;

    if (number > LAST_DAY_NUMBER)
        return 0;
    set_date(&stamp, number);
    return stamp.year * 10000 + stamp.month * 100 + stamp.day;
}
