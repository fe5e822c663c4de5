#include "print.h"

#include "say.h"

void print_hex(FILE *to, const uint8_t *octets, size_t length)
{
    size_t at;
    for (at = 0; at < length; at++)
        fprintf(to, "%02X", (unsigned)octets[at]);
}

bool is_shortened(const record *of, bool as_given)
{
    return as_given ? of->given_length > LONGEST_SHOWN : of->length > STAMP_LONGEST_IMAGE;
}

void print_octets_of(FILE *to, const record *of)
{
    print_hex(to, of->octets, is_shortened(of, false) ? STAMP_LONGEST_IMAGE : of->length);
}

/* What is not printable ASCII, and what an escape or a string's end is made of, is printed by its number, so that no
 * terminal acts upon it, every line is JSON, and the octets can be told. */
void print_escaped(FILE *to, const char *text, size_t length, bool json)
{
    size_t at;
    for (at = 0; at < length; at++) {
        unsigned char octet = (unsigned char)text[at];
        if (octet < ' ' || octet > '~' || octet == '\\' || (json && octet == '"'))
            fprintf(to, json ? "\\u00%02X" : "\\x%02X", (unsigned)octet);
        else
            fputc(octet, to);
    }
}

void print_given_of(FILE *to, const record *of, bool json)
{
    print_escaped(to, of->given, is_shortened(of, true) ? LONGEST_SHOWN : of->given_length, json);
}

void print_text(FILE *to, const stamp_value *value, uint32_t digits)
{
    uint8_t text[STAMP_LONGEST_IMAGE];
    size_t length;
    if (stamp_encode(value, stamp_make_settings(false, 0, digits), text, sizeof text, &length) != STAMP_ACCEPTED)
        end_in_doubt("the library refuses to write a value that it gave");
    fwrite(text, 1, length, to);
}

uint32_t digits_kept(const stamp_decoded *found)
{
    static const uint32_t kept[STAMP_FORMS] = {0, 3, 6};
    return found->form == STAMP_TEXT ? found->digits : kept[found->form];
}

void print_value(FILE *to, const stamp_decoded *found)
{
    print_text(to, &found->value, digits_kept(found));
}

void print_micros(FILE *to, int64_t micros)
{
    fprintf(to, "%lld", (long long)micros);
}

/* Of an instant that a stamp has, the library refuses what is outside the years, and nothing else. */
void print_utc(FILE *to, int64_t instant)
{
    stamp_value utc;
    if (stamp_value_at(instant, 0, &utc) == STAMP_ACCEPTED) {
        utc.kind = STAMP_DATETIME;
        print_text(to, &utc, STAMP_MAX_DIGITS);
    } else {
        fputs(instant < 0 ? "before year 1" : "after year 9999", to);
    }
}

/* ---- JSON ---- */

void print_json_start(FILE *to, const record *of)
{
    fprintf(to, "{\"record\":%llu", (unsigned long long)of->number);
    if (of->line != 0)
        fprintf(to, ",\"line\":%llu", (unsigned long long)of->line);
}

static void print_json_parts(FILE *to, const stamp_value *value)
{
    uint32_t kind = value->kind;
    if (kind != STAMP_TIME && kind != STAMP_TIMETZ)
        fprintf(to, ",\"year\":%u,\"month\":%u,\"day\":%u",
                (unsigned)value->year, (unsigned)value->month, (unsigned)value->day);
    if (kind != STAMP_DATE && kind != STAMP_DATETZ)
        fprintf(to, ",\"micros\":%llu", (unsigned long long)value->micros);
    if (kind == STAMP_DATETZ || kind == STAMP_TIMETZ || kind == STAMP_DATETIMETZ)
        fprintf(to, ",\"offset\":%d", (int)value->offset);
}

void print_json_value(FILE *to, const stamp_value *value, uint32_t digits)
{
    fputs("\"value\":\"", to);
    print_text(to, value, digits);
    fputc('"', to);
    print_json_parts(to, value);
}

void print_json_found(FILE *to, const stamp_decoded *found)
{
    fprintf(to, "\"kind\":\"%s\",\"form\":\"%s\",", stamp_kind_name(found->value.kind), stamp_form_name(found->form));
    if (found->form == STAMP_TEXT)
        fprintf(to, "\"digits\":%u,", (unsigned)found->digits);
    else
        fputs("\"digits\":null,", to);
    print_json_value(to, &found->value, digits_kept(found));
}

/* A string: many readers of JSON keep but 53 bits of a number, and would show another instant. */
void print_json_micros(FILE *to, const char *name, int64_t micros)
{
    fprintf(to, "\"%s\":\"", name);
    print_micros(to, micros);
    fputc('"', to);
}

void print_json_instant(FILE *to, int64_t instant)
{
    print_json_micros(to, "instant", instant);
    fputs(",\"utc\":\"", to);
    print_utc(to, instant);
    fputc('"', to);
}

void print_json_octets(FILE *to, const uint8_t *octets, size_t length)
{
    fputs("\"octets\":\"", to);
    print_hex(to, octets, length);
    fputc('"', to);
}
