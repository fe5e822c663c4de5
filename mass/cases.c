#include "cases.h"

#include <inttypes.h>
#include <stdio.h>
#include <string.h>

#include "../second/fast.h"
#include "stamp.h"

#define LONGEST_CASE 128               /* octets of the longest room and of the longest input but a file */
#define LONGEST_FILE_CASE 65536        /* octets of the longest file */
#define LENT 0x5A                      /* each lent octet before the call */
#define LONGEST_LINE (2 * 2 * LONGEST_FILE_CASE + 200) /* two files in hex, and what stands before them */
#define PARTS 5                        /* that a call on instants or on a record fills at most */

static int differences;

static void print_hex(const uint8_t *octets, size_t length)
{
    for (size_t i = 0; i < length; i++)
        printf("%02X", (unsigned)octets[i]);
    if (length == 0)
        printf("-");
}

static bool write_case(const char *line)
{
    uint32_t kind, year, month, day, version, digits;
    uint64_t micros;
    int32_t offset;
    int binary;
    size_t room, count, library_count;
    uint8_t lent[LONGEST_CASE], library_lent[LONGEST_CASE];
    if (sscanf(line, "W %" SCNu32 " %" SCNu32 " %" SCNu32 " %" SCNu32 " %" SCNu64 " %" SCNd32 " %d %" SCNu32 " %" SCNu32
               " %zu", &kind, &year, &month, &day, &micros, &offset, &binary, &version, &digits, &room) != 10
        || room > LONGEST_CASE)
        return false;
    memset(lent, LENT, sizeof lent);
    memset(library_lent, LENT, sizeof library_lent);
    uint32_t refusal = fast_write(kind, year, month, day, micros, offset, binary, version, digits, lent, room, &count);
    uint32_t library = stamp_write(kind, year, month, day, micros, offset, binary, version, digits, library_lent, room,
                                   &library_count);
    differences += library != refusal || library_count != count || memcmp(library_lent, lent, sizeof lent) != 0;
    printf("%" PRIu32 " %zu ", refusal, count);
    print_hex(lent, room);
    printf("\n");
    return true;
}

/* The value of a digit, or -1. */
static int hex_digit(char letter)
{
    static const char digits[] = "0123456789ABCDEF";
    const char *found = letter == '\0' ? NULL : strchr(digits, letter);
    return found == NULL ? -1 : (int)(found - digits);
}

/* As many octets as there are two digits for, and room. */
static size_t take_hex(const char *hex, uint8_t *octets, size_t room)
{
    size_t length = 0;
    for (; length < room && hex_digit(hex[0]) >= 0 && hex_digit(hex[1]) >= 0; hex += 2)
        octets[length++] = (uint8_t)(16 * hex_digit(hex[0]) + hex_digit(hex[1]));
    return length;
}

static bool read_case(const char *line)
{
    uint32_t kind;
    char hex[2 * LONGEST_CASE + 1];
    uint8_t octets[LONGEST_CASE];
    int64_t parts[8] = {0}, library_parts[8] = {0};
    if (sscanf(line, "R %" SCNu32 " %256s", &kind, hex) != 2)
        return false;
    size_t length = take_hex(hex, octets, LONGEST_CASE);
    uint32_t refusal = fast_read(kind, octets, length, parts);
    uint32_t library = stamp_read(kind, octets, length, library_parts);
    differences += library != refusal || memcmp(library_parts, parts, sizeof parts) != 0;
    printf("%" PRIu32, refusal);
    for (int i = 0; i < 8 && refusal == 0; i++)
        printf(" %" PRId64, parts[i]);
    printf("\n");
    return true;
}

/* ---- Parts ---- */

/* What is lent to the call of the second program and to that of the library: a guard, the parts, a guard. */
typedef struct lent_parts {
    int64_t second[1 + PARTS + 1], library[1 + PARTS + 1];
} lent_parts;

static lent_parts lend_parts(void)
{
    lent_parts made;
    memset(&made, LENT, sizeof made);
    return made;
}

/* Whether the answers to a call that fills so many parts differ; after a refusal it fills none, whatever both say. */
static bool differ(uint32_t refusal, uint32_t library, const lent_parts *lent, int filled)
{
    lent_parts kept = lend_parts();
    if (refusal == 0)
        memcpy(kept.library + 1, lent->second + 1, (size_t)filled * sizeof kept.library[0]);
    return library != refusal || memcmp(lent->library, kept.library, sizeof kept.library) != 0;
}

static bool print_parts(uint32_t refusal, uint32_t library, const lent_parts *lent, int filled)
{
    differences += differ(refusal, library, lent, filled);
    printf("%" PRIu32, refusal);
    for (int i = 1; i <= filled && refusal == 0; i++)
        printf(" %" PRId64, lent->second[i]);
    printf("\n");
    return true;
}

/* ---- Instants ---- */

static bool instant_case(const char *line)
{
    uint32_t year, month, day;
    uint64_t micros;
    int32_t offset;
    lent_parts lent = lend_parts();
    if (sscanf(line, "I %" SCNu32 " %" SCNu32 " %" SCNu32 " %" SCNu64 " %" SCNd32, &year, &month, &day, &micros,
               &offset) != 5)
        return false;
    uint32_t refusal = fast_instant(year, month, day, micros, offset, lent.second + 1);
    return print_parts(refusal, stamp_instant(year, month, day, micros, offset, lent.library + 1), &lent, 1);
}

static bool add_case(const char *line)
{
    int64_t instant, micros;
    lent_parts lent = lend_parts();
    if (sscanf(line, "A %" SCNd64 " %" SCNd64, &instant, &micros) != 2)
        return false;
    uint32_t refusal = fast_add(instant, micros, lent.second + 1);
    return print_parts(refusal, stamp_add(instant, micros, lent.library + 1), &lent, 1);
}

static bool difference_case(const char *line)
{
    int64_t a, b;
    lent_parts lent = lend_parts();
    if (sscanf(line, "D %" SCNd64 " %" SCNd64, &a, &b) != 2)
        return false;
    uint32_t refusal = fast_difference(a, b, lent.second + 1);
    return print_parts(refusal, stamp_difference(a, b, lent.library + 1), &lent, 1);
}

static bool at_case(const char *line)
{
    int64_t instant;
    int32_t offset;
    lent_parts lent = lend_parts();
    if (sscanf(line, "T %" SCNd64 " %" SCNd32, &instant, &offset) != 2)
        return false;
    uint32_t refusal = fast_at(instant, offset, lent.second + 1);
    return print_parts(refusal, stamp_at(instant, offset, lent.library + 1), &lent, 5);
}

static bool restate_case(const char *line)
{
    uint32_t year, month, day;
    uint64_t micros;
    int32_t offset, to;
    lent_parts lent = lend_parts();
    if (sscanf(line, "S %" SCNu32 " %" SCNu32 " %" SCNu32 " %" SCNu64 " %" SCNd32 " %" SCNd32, &year, &month, &day,
               &micros, &offset, &to) != 6)
        return false;
    uint32_t refusal = fast_restate(year, month, day, micros, offset, to, lent.second + 1);
    return print_parts(refusal, stamp_restate(year, month, day, micros, offset, to, lent.library + 1), &lent, 5);
}

/* ---- Schedules ---- */

static bool schedule_read_case(const char *line)
{
    static uint8_t file[LONGEST_FILE_CASE];
    uint32_t records, fault, library_records, library_fault;
    size_t length = take_hex(line + strlen("F "), file, sizeof file);
    uint32_t refusal = fast_schedule_read(file, length, &records, &fault);
    uint32_t library = stamp_schedule_read(file, length, &library_records, &library_fault);
    differences += library != refusal || library_records != records || library_fault != fault;
    printf("%" PRIu32 " %" PRIu32 "\n", refusal, refusal == 0 ? records : fault);
    return true;
}

static bool schedule_record_case(const char *line)
{
    static uint8_t file[LONGEST_FILE_CASE];
    uint32_t place;
    int before;
    lent_parts lent = lend_parts();
    if (sscanf(line, "P %" SCNu32 " %n", &place, &before) != 1)
        return false;
    size_t length = take_hex(line + before, file, sizeof file);
    uint32_t refusal = fast_schedule_record(file, length, place, lent.second + 1);
    return print_parts(refusal, stamp_schedule_record(file, length, place, lent.library + 1), &lent, 5);
}

/* The number of records read, then the parts; where the place is that of none, a word in place of them. */
static void print_held(uint32_t refusal, uint32_t read, const int64_t parts[5])
{
    printf("%" PRIu32, refusal);
    if (refusal == 0)
        printf(" %" PRIu32 "%s", read, parts[0] == STAMP_NONE_YET ? " none" : "");
    for (int i = 0; i < 5 && refusal == 0 && parts[0] != STAMP_NONE_YET; i++)
        printf(" %" PRId64, parts[i]);
    printf("\n");
}

static bool schedule_holds_case(const char *line)
{
    static uint8_t file[LONGEST_FILE_CASE];
    int64_t instant;
    uint32_t channel, read = LENT, library_read = LENT;
    int before;
    lent_parts lent = lend_parts();
    if (sscanf(line, "Q %" SCNd64 " %" SCNu32 " %n", &instant, &channel, &before) != 2)
        return false;
    size_t length = take_hex(line + before, file, sizeof file);
    uint32_t refusal = fast_schedule_holds(file, length, instant, channel, &read, lent.second + 1);
    uint32_t library = stamp_schedule_holds(file, length, instant, channel, &library_read, lent.library + 1);
    differences += differ(refusal, library, &lent, 5) || library_read != read;
    print_held(refusal, read, lent.second + 1);
    return true;
}

/* Whether the library names another file or another part, or writes beside it. */
static bool over_differs(uint32_t of, const size_t part[2], uint32_t library, const size_t lent[4])
{
    size_t kept[4];
    memset(kept, LENT, sizeof kept);
    kept[1] = part[0];
    kept[2] = part[1];
    return library != of || memcmp(lent, kept, sizeof kept) != 0;
}

static bool schedule_over_case(const char *line)
{
    static uint8_t plan[LONGEST_FILE_CASE], manual[LONGEST_FILE_CASE];
    int64_t instant;
    uint32_t channel;
    int before;
    size_t part[2], lent[4];           /* the library's between guards */
    if (sscanf(line, "O %" SCNd64 " %" SCNu32 " %n", &instant, &channel, &before) != 2)
        return false;
    const char *behind = strchr(line + before, ' ');
    if (behind == NULL)
        return false;
    const size_t plan_length = take_hex(line + before, plan, sizeof plan);
    const size_t manual_length = take_hex(behind + 1, manual, sizeof manual);
    memset(lent, LENT, sizeof lent);
    const uint32_t of = fast_schedule_over(plan, plan_length, manual, manual_length, instant, channel, part);
    const uint32_t library = stamp_schedule_over(plan, plan_length, manual, manual_length, instant, channel, lent + 1);
    differences += over_differs(of, part, library, lent);
    printf("%" PRIu32 " %zu %zu ", of, part[0], part[1]);
    print_hex((of == STAMP_OF_MANUAL ? manual : plan) + part[0], part[1]);
    printf("\n");
    return true;
}

/* False for a line that is no case. */
static bool answer_case(const char *line)
{
    switch (line[0]) {
    case 'W': return write_case(line);
    case 'R': return read_case(line);
    case 'I': return instant_case(line);
    case 'A': return add_case(line);
    case 'D': return difference_case(line);
    case 'T': return at_case(line);
    case 'S': return restate_case(line);
    case 'F': return schedule_read_case(line);
    case 'P': return schedule_record_case(line);
    case 'Q': return schedule_holds_case(line);
    case 'O': return schedule_over_case(line);
    default: return false;
    }
}

int answer_cases(void)
{
    static char line[LONGEST_LINE];
    uint64_t cases = 0;
    while (fgets(line, sizeof line, stdin) != NULL) {
        if (!answer_case(line)) {
            fprintf(stderr, "mass: no case: %s", line);
            return 2;
        }
        cases++;
    }
    fprintf(stderr, "%" PRIu64 " cases, the library differs in %d\n", cases, differences);
    return differences == 0 ? 0 : 1;
}
