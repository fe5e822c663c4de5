#include "records.h"

#include <errno.h>
#include <stdio.h>

#include "input.h"
#include "say.h"

char standard_input[] = "-";

#define NO_DIGIT (-1)

source source_of(char **arguments, size_t count, notation as)
{
    source made = {arguments, count, as, 0, 0, 0};
    return made;
}

static void append(record *into, uint8_t octet)
{
    if (into->length < RECORD_ROOM)
        into->octets[into->length++] = octet;
}

static void append_given(record *into, int octet)
{
    if (into->given_length < sizeof into->given)
        into->given[into->given_length++] = (char)octet;
}

static int hex_digit(int octet)
{
    if (octet >= '0' && octet <= '9')
        return octet - '0';
    if (octet >= 'A' && octet <= 'F')
        return octet - 'A' + 10;
    if (octet >= 'a' && octet <= 'f')
        return octet - 'a' + 10;
    return NO_DIGIT;
}

static bool is_blank(int octet)
{
    return octet == ' ' || octet == '\t';
}

/* `high` is the first digit of an octet whose second is still to come, or NO_DIGIT. False where it is not hex. */
static bool take_hex(record *into, int *high, int octet)
{
    int digit = hex_digit(octet);
    if (digit == NO_DIGIT)
        return *high == NO_DIGIT && is_blank(octet);
    if (*high == NO_DIGIT) {
        *high = digit;
    } else {
        append(into, (uint8_t)(*high * 16 + digit));
        *high = NO_DIGIT;
    }
    return true;
}

static int next_of_argument(const char **word)
{
    return **word == '\0' ? LINE_END : (unsigned char)*(*word)++;
}

/* What passed for hex so far is text, from its start: the octets are those given, of which more is kept than there is
 * room for octets. */
static void turn_to_text(record *into)
{
    size_t at;
    into->as = NOTATION_TEXT;
    into->fault = 0;
    into->length = 0;
    for (at = 0; at < into->given_length; at++)
        append(into, (uint8_t)into->given[at]);
}

/* Takes the argument, or the line where that is null, to its end, also behind a fault, so that the next record starts where it should.
 * False where standard input failed. */
static bool take(notation as, const char *word, record *into)
{
    uint64_t column = 1;
    int high = NO_DIGIT, octet;
    into->as = as == NOTATION_EITHER ? NOTATION_HEX : as;
    while ((octet = word != NULL ? next_of_argument(&word) : next_of_line()) >= 0) {
        append_given(into, octet);
        if (into->as == NOTATION_TEXT)
            append(into, (uint8_t)octet);
        else if (as == NOTATION_EITHER && hex_digit(octet) == NO_DIGIT && !is_blank(octet))
            turn_to_text(into);
        else if (into->fault == 0 && !take_hex(into, &high, octet))
            into->fault = column;
        column++;
    }
    if (into->as == NOTATION_HEX && into->fault == 0 && high != NO_DIGIT)
        into->fault = column;
    return octet != INPUT_FAILED;
}

/* Takes all of standard input, but for what is beyond the room. */
static bool take_raw(record *into)
{
    int octet = 0;
    into->as = NOTATION_RAW;
    while (into->length < RECORD_ROOM && (octet = next_octet(stdin)) >= 0)
        append(into, (uint8_t)octet);
    return octet != INPUT_FAILED;
}

/* In the line, or 0 for raw octets. */
static outcome failed(uint64_t line)
{
    say_failure("standard input cannot be read", line, errno);
    return RECORD_FAILED;
}

static void start(uint64_t number, record *into)
{
    into->length = 0;
    into->given_length = 0;
    into->fault = 0;
    into->argument = 0;
    into->line = 0;
    into->number = number;
}

static outcome next_argument(source *from, record *into)
{
    const char *word = from->arguments[from->done++];
    start(++from->taken, into);
    into->argument = from->done;
    take(from->as, word, into);
    return RECORD_TAKEN;
}

/* The next line, or RECORD_NONE at the end of the input. */
static outcome next_line(source *from, record *into)
{
    int octet = next_octet(stdin);
    if (octet == INPUT_END)
        return RECORD_NONE;
    from->lines++;
    if (octet == INPUT_FAILED)
        return failed(from->lines);
    ungetc(octet, stdin);
    start(++from->taken, into);
    into->line = from->lines;
    return take(from->as, NULL, into) ? RECORD_TAKEN : failed(from->lines);
}

static outcome whole_input(source *from, record *into)
{
    from->done++;
    start(++from->taken, into);
    return take_raw(into) ? RECORD_TAKEN : failed(0);
}

outcome next_record(source *from, record *into)
{
    outcome found;
    for (; from->done < from->count; from->done++) {
        if (from->arguments[from->done] != standard_input)
            return next_argument(from, into);
        if (from->as == NOTATION_RAW)
            return whole_input(from, into);
        found = next_line(from, into);
        if (found != RECORD_NONE)
            return found;
    }
    return RECORD_NONE;
}

void take_word(const record *line, const char *word, record *into)
{
    start(line->number, into);
    into->line = line->line;
    take(NOTATION_EITHER, word, into);
}

/* What is shorter than any text of the kind could pass for a binary stamp; all that is accepted from that length on is
 * text. */
uint32_t read_record(uint32_t kind, const record *of, stamp_decoded *found)
{
    if (of->as == NOTATION_TEXT && of->length < stamp_text_length(kind, 0))
        return STAMP_REFUSED_LENGTH;
    return stamp_decode(kind, of->octets, of->length, found);
}
