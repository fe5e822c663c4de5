#include "report.h"

#include "print.h"
#include "say.h"

/* Records are numbered from one, so those of a pair are odd and even. */
static bool is_first(const record *of)
{
    return of->number % 2 != 0;
}

/* A text is shown as it was given, also where it is refused; of all else the octets are. */
static bool is_text(const record *of)
{
    return of->as == NOTATION_TEXT;
}

/* ---- JSON ---- */

static void print_json_reader(FILE *to, const char *reader)
{
    if (reader != NULL)
        fprintf(to, ",\"reader\":\"%s\"", reader);
}

/* Of an object that refuses. */
static void print_json_refused(const report *how, const record *of)
{
    print_json_start(how->to, of);
    if (how->pairs)
        fputs(is_first(of) ? ",\"stamp\":\"a\"" : ",\"stamp\":\"b\"", how->to);
}

/* What the record was, at the end of the object. */
static void end_json_record(FILE *to, const record *of, bool as_given)
{
    fputs(as_given ? ",\"given\":\"" : ",\"octets\":\"", to);
    if (as_given)
        print_given_of(to, of, true);
    else
        print_octets_of(to, of);
    fputs(is_shortened(of, as_given) ? "\",\"shortened\":true}\n" : "\"}\n", to);
}

static void print_json_stamp(FILE *to, const record *of, const stamp_decoded *found,
                             const uint8_t *octets, size_t length, about more)
{
    print_json_start(to, of);
    print_json_reader(to, more.reader);
    fputs(",\"refusal\":0,", to);
    print_json_found(to, found);
    if (more.written) {
        fputs(",\"given\":\"", to);
        print_given_of(to, of, true);
        fprintf(to, "\",\"exact\":%s", more.exact ? "true" : "false");
    }
    fputc(',', to);
    print_json_octets(to, octets, length);
    fputs("}\n", to);
}

/* ---- Plain ---- */

static void print_place(const report *how, const record *of)
{
    if (how->to == stderr)
        fputs("stamp: ", stderr);
    if (of->line != 0)
        fprintf(how->to, "line %llu", (unsigned long long)of->line);
    else if (of->argument != 0 && how->several)
        fprintf(how->to, "argument %llu", (unsigned long long)of->argument);
    else
        return;
    if (how->pairs)
        fputs(is_first(of) ? " (A)" : " (B)", how->to);
    fputs(": ", how->to);
}

/* What the record was, as the end of a line. */
static void end_with_octets(FILE *to, const record *of)
{
    fputs(of->length == 0 ? "no octets" : "", to);
    print_octets_of(to, of);
    fputs(is_shortened(of, false) ? "..\n" : "\n", to);
}

void end_with_given(FILE *to, const record *of)
{
    fputs(of->given_length == 0 ? "  (nothing given" : "  (given ", to);
    print_given_of(to, of, false);
    fputs(is_shortened(of, true) ? "..)\n" : ")\n", to);
}

/* The reader's name in a column, in front of its answer. */
static void print_reader(FILE *to, const char *reader)
{
    if (reader != NULL)
        fprintf(to, "  %-22s  ", reader);
}

static void print_plain_stamp(FILE *to, const record *of, const stamp_decoded *found,
                              const uint8_t *octets, size_t length, about more)
{
    print_reader(to, more.reader);
    fprintf(to, "%-10s  %-8s  digits ", stamp_kind_name(found->value.kind), stamp_form_name(found->form));
    if (found->form == STAMP_TEXT)
        fprintf(to, "%u  ", (unsigned)found->digits);
    else
        fputs("-  ", to);
    print_value(to, found);
    if (more.reader == NULL) {
        fputs("  ", to);
        print_hex(to, octets, length);
    }
    if (more.written && !more.exact)
        end_with_given(to, of);
    else
        fputc('\n', to);
}

static void print_plain_refusal(const report *how, const record *of, uint32_t refusal, const char *reader)
{
    if (reader == NULL)
        print_place(how, of);
    print_reader(how->to, reader);
    fprintf(how->to, "refusal %u: %s", (unsigned)refusal, stamp_refusal_sentence(refusal));
    if (reader != NULL) {
        fputc('\n', how->to);       /* the heading has the octets */
    } else if (is_text(of)) {
        end_with_given(how->to, of);
    } else {
        fputs("  ", how->to);
        end_with_octets(how->to, of);
    }
}

/* ---- Lines ---- */

void report_heading(const report *how, const record *of)
{
    if (how->json)
        return;
    print_place(how, of);
    end_with_octets(how->to, of);
}

void report_stamp(const report *how, const record *of, const stamp_decoded *found,
                  const uint8_t *octets, size_t length, about more)
{
    if (how->json)
        print_json_stamp(how->to, of, found, octets, length, more);
    else
        print_plain_stamp(how->to, of, found, octets, length, more);
}

int report_refusal(const report *how, const record *of, uint32_t refusal, const char *reader)
{
    if (how->json) {
        print_json_refused(how, of);
        print_json_reader(how->to, reader);
        fprintf(how->to, ",\"refusal\":%u,\"sentence\":\"%s\"", (unsigned)refusal, stamp_refusal_sentence(refusal));
        end_json_record(how->to, of, is_text(of));
    } else {
        print_plain_refusal(how, of, refusal, reader);
    }
    return EXIT_REFUSED;
}

int report_fault(const report *how, const record *of)
{
    unsigned long long column = of->fault;
    if (how->json) {
        print_json_refused(how, of);
        fprintf(how->to, ",\"error\":\"not hex\",\"column\":%llu", column);
        end_json_record(how->to, of, true);
    } else {
        print_place(how, of);
        fprintf(how->to, "not hex: column %llu (an octet is two hex digits)", column);
        end_with_given(how->to, of);
    }
    return EXIT_TROUBLE;
}

int report_wrong(const report *how, const record *of, const char *what)
{
    print_place(how, of);
    fputs(what, how->to);
    end_with_given(how->to, of);
    return EXIT_TROUBLE;
}
