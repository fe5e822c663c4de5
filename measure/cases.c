/* Answers the second program's cases (a line each on standard input, as second/cases.py has them) by the plain C version, so that what is
 * measured beside the library is known to do the same work. A line that is no case is answered by '?', as is a call that refuses and yet gives. */
#include <inttypes.h>
#include <stdio.h>
#include <string.h>

#include "plain.h"

/* A case has octets at its end: a stamp, or a file of at most so many, or two such files. */
enum { MOST_OCTETS = 65536 };

static uint8_t octets[MOST_OCTETS], manual[MOST_OCTETS];

static int digit_of(char hex)
{
    return hex >= '0' && hex <= '9' ? hex - '0' : hex >= 'A' && hex <= 'F' ? hex - 'A' + 10 : -1;
}

/* Octets in hex, `-` for none, up to a blank or the line's end, where *hex is then. */
static bool take_file(const char **hex, uint8_t *file, size_t *length)
{
    const char *next = **hex == '-' ? *hex + 1 : *hex;
    for (*length = 0; *next != ' ' && *next != '\n' && *next != '\0'; next += 2, ++*length) {
        if (*length == MOST_OCTETS || digit_of(next[0]) < 0 || digit_of(next[1]) < 0)
            return false;
        file[*length] = (uint8_t)(16 * digit_of(next[0]) + digit_of(next[1]));
    }
    *hex = next;
    return true;
}

/* The octets at a line's end. */
static bool take_octets(const char *hex, size_t *length)
{
    return take_file(&hex, octets, length) && *hex != ' ';
}

static void print_hex(const uint8_t *written, size_t count)
{
    size_t i;
    if (count == 0)
        putchar('-');
    for (i = 0; i < count; i++)
        printf("%02X", written[i]);
}

static bool answer_write(const char *line)
{
    uint32_t kind, year, month, day, binary, version, digits;
    uint64_t micros;
    int32_t offset;
    size_t room, count;
    uint8_t lent[64];
    uint32_t number;
    if (sscanf(line, "W %" SCNu32 " %" SCNu32 " %" SCNu32 " %" SCNu32 " %" SCNu64 " %" SCNd32 " %" SCNu32 " %" SCNu32 " %" SCNu32 " %zu",
               &kind, &year, &month, &day, &micros, &offset, &binary, &version, &digits, &room) != 10 || room > sizeof lent)
        return false;
    memset(lent, 0x5A, sizeof lent);
    number = plain_write(kind, year, month, day, micros, offset, binary != 0, version, digits, lent, room, &count);
    printf("%" PRIu32 " %zu ", number, count);
    print_hex(lent, room);
    putchar('\n');
    return true;
}

/* The numbers that a call gives, all LENT before it. */
enum { MOST_GIVEN = 8 };
#define LENT INT64_C(0x5A5A5A5A5A5A5A5A)

typedef struct {
    int64_t numbers[MOST_GIVEN];
} given;

static given lent_numbers(void)
{
    given lent;
    int i;
    for (i = 0; i < MOST_GIVEN; i++)
        lent.numbers[i] = LENT;
    return lent;
}

static bool print_given(uint32_t number, const given *after, int count)
{
    const given lent = lent_numbers();
    int i;
    if (number != 0 && memcmp(after, &lent, sizeof lent) != 0)
        return false;
    printf("%" PRIu32, number);
    for (i = 0; number == 0 && i < count; i++)
        printf(" %" PRId64, after->numbers[i]);
    putchar('\n');
    return true;
}

static bool answer_read(const char *line)
{
    uint32_t kind;
    int hex;
    size_t length;
    given lent = lent_numbers();
    if (sscanf(line, "R %" SCNu32 " %n", &kind, &hex) != 1 || !take_octets(line + hex, &length))
        return false;
    return print_given(plain_read(kind, octets, length, lent.numbers), &lent, 8);
}

static bool answer_instant(const char *line)
{
    uint32_t year, month, day;
    uint64_t micros;
    int32_t offset;
    given lent = lent_numbers();
    if (sscanf(line, "I %" SCNu32 " %" SCNu32 " %" SCNu32 " %" SCNu64 " %" SCNd32, &year, &month, &day, &micros, &offset) != 5)
        return false;
    return print_given(plain_instant(year, month, day, micros, offset, lent.numbers), &lent, 1);
}

static bool answer_add(const char *line)
{
    int64_t instant, micros;
    given lent = lent_numbers();
    if (sscanf(line, "A %" SCNd64 " %" SCNd64, &instant, &micros) != 2)
        return false;
    return print_given(plain_add(instant, micros, lent.numbers), &lent, 1);
}

static bool answer_difference(const char *line)
{
    int64_t a, b;
    given lent = lent_numbers();
    if (sscanf(line, "D %" SCNd64 " %" SCNd64, &a, &b) != 2)
        return false;
    return print_given(plain_difference(a, b, lent.numbers), &lent, 1);
}

static bool answer_at(const char *line)
{
    int64_t instant;
    int32_t offset;
    given lent = lent_numbers();
    if (sscanf(line, "T %" SCNd64 " %" SCNd32, &instant, &offset) != 2)
        return false;
    return print_given(plain_at(instant, offset, lent.numbers), &lent, 5);
}

static bool answer_restate(const char *line)
{
    uint32_t year, month, day;
    uint64_t micros;
    int32_t offset, to;
    given lent = lent_numbers();
    if (sscanf(line, "S %" SCNu32 " %" SCNu32 " %" SCNu32 " %" SCNu64 " %" SCNd32 " %" SCNd32, &year, &month, &day, &micros, &offset, &to) != 6)
        return false;
    return print_given(plain_restate(year, month, day, micros, offset, to, lent.numbers), &lent, 5);
}

static bool answer_schedule(const char *line)
{
    size_t length;
    uint32_t number, records, fault;
    if (strncmp(line, "F ", 2) != 0 || !take_octets(line + 2, &length))
        return false;
    number = plain_schedule_read(octets, length, &records, &fault);
    if (number == 0 ? fault != 0 : records != 0)
        return false;
    printf("%" PRIu32 " %" PRIu32 "\n", number, number == 0 ? records : fault);
    return true;
}

static bool answer_record(const char *line)
{
    uint32_t place;
    int hex;
    size_t length;
    given lent = lent_numbers();
    if (sscanf(line, "P %" SCNu32 " %n", &place, &hex) != 1 || !take_octets(line + hex, &length))
        return false;
    return print_given(plain_schedule_record(octets, length, place, lent.numbers), &lent, 5);
}

/* The number of records read stands before what holds, or before `none`: then all that is given is 0. */
static bool answer_holds(const char *line)
{
    static const int64_t nothing[5];
    int64_t instant;
    uint32_t channel, read, number;
    int hex;
    size_t length;
    given lent = lent_numbers();
    if (sscanf(line, "Q %" SCNd64 " %" SCNu32 " %n", &instant, &channel, &hex) != 2
        || !take_octets(line + hex, &length))
        return false;
    number = plain_schedule_holds(octets, length, instant, channel, &read, lent.numbers);
    if (number != 0)
        return read == 0 && print_given(number, &lent, 0);
    if (memcmp(lent.numbers, nothing, sizeof nothing) == 0) {
        printf("0 %" PRIu32 " none\n", read);
        return true;
    }
    if (lent.numbers[0] == 0)
        return false;
    printf("0 %" PRIu32 " %" PRId64 " %" PRId64 " %" PRId64 " %" PRId64 " %" PRId64 "\n", read, lent.numbers[0],
           lent.numbers[1], lent.numbers[2], lent.numbers[3], lent.numbers[4]);
    return true;
}

/* The part that comes back, and the octets that it is. */
static bool answer_over(const char *line)
{
    int64_t instant;
    uint32_t channel, which;
    int start;
    const char *hex;
    size_t plan_length, manual_length, part[2];
    if (sscanf(line, "O %" SCNd64 " %" SCNu32 " %n", &instant, &channel, &start) != 2)
        return false;
    hex = line + start;
    if (!take_file(&hex, octets, &plan_length) || *hex++ != ' ' || !take_file(&hex, manual, &manual_length)
        || *hex == ' ')
        return false;
    which = plain_schedule_over(octets, plan_length, manual, manual_length, instant, channel, part);
    if (which > PLAIN_OF_MANUAL || part[0] + part[1] > (which == PLAIN_OF_PLAN ? plan_length : manual_length))
        return false;
    printf("%" PRIu32 " %zu %zu ", which, part[0], part[1]);
    print_hex((which == PLAIN_OF_PLAN ? octets : manual) + part[0], part[1]);
    putchar('\n');
    return true;
}

static bool answer(const char *line)
{
    switch (line[0]) {
    case 'W': return answer_write(line);
    case 'R': return answer_read(line);
    case 'I': return answer_instant(line);
    case 'A': return answer_add(line);
    case 'D': return answer_difference(line);
    case 'T': return answer_at(line);
    case 'S': return answer_restate(line);
    case 'F': return answer_schedule(line);
    case 'P': return answer_record(line);
    case 'Q': return answer_holds(line);
    case 'O': return answer_over(line);
    default: return false;
    }
}

int main(void)
{
    static char line[2 * 2 * MOST_OCTETS + 64];
    while (fgets(line, sizeof line, stdin) != NULL)
        if (!answer(line))
            puts("?");
    return 0;
}
