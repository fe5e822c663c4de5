/* mass - holds the library to the second program over many millions of inputs.
 *
 *     mass [SEED [ROUNDS [WORKERS [PART]]]]    the comparison, or one part of it
 *     mass cases                               answers the stored cases (standard input to standard output)
 *
 * ROUNDS is for each of the parts that go by chance, and is taken up to the next 10,000.
 * A run with the same SEED and ROUNDS prints the same on standard output, whatever the number of workers; progress
 * goes to standard error. The last line is 'N passed, M failed': a check is one compared call. The exit status is 1
 * where anything failed. */
#define _DEFAULT_SOURCE                /* sysconf */
#include <inttypes.h>
#include <stdio.h>
#include <stdlib.h>
#include <string.h>
#include <unistd.h>

#include "cases.h"
#include "parts.h"
#include "work.h"

#define DEFAULT_SEED 20200101
#define DEFAULT_ROUNDS 20000000
#define PARTS 22
#define EVERY_OUTCOME " over"          /* behind the answers that a part must have: all outcomes of manual over plan */

static void list_parts(part parts[PARTS], uint64_t rounds)
{
    uint64_t units = (rounds + CHANCE_ROUNDS - 1) / CHANCE_ROUNDS;
    const part list[PARTS] = {
        {"short", "every input of 0 to 3 octets; kind numbers that are no kind", try_short, SHORT_UNITS, "0 1 2 5 7 8"},
        {"dates", "every date of the years 1 to 9999, and the wrong ones beside them", try_dates, DATE_UNITS,
         "0 2 3 5 8"},
        {"day numbers", "every day number of three octets", try_day_numbers, DAY_NUMBER_UNITS, "0 7 8"},
        {"offsets", "every offset from -1500 to 1500 written and read", try_offsets, OFFSET_UNITS, "0 1 2 3"},
        {"offset fields", "every sixteen bits in front of a compact or extended form", try_offset_fields,
         OFFSET_FIELD_UNITS, "0 5 6 7 8"},
        {"text fields", "every two digits for hour, minute, second and offset", try_text_fields, TEXT_FIELD_UNITS,
         "0 6 7 8"},
        {"milliseconds", "every millisecond of the day", try_milliseconds, MILLISECOND_UNITS, "0 2"},
        {"fractions", "every microsecond of a second, digits 0 to 8", try_fractions, FRACTION_UNITS, "0 1"},
        {"numbers", "the neighbours of every limit, read", try_numbers_at_edges, number_edge_units(), "0 5 6 7 8"},
        {"moments", "the neighbours of every limit, written", try_moments_at_edges, moment_edge_units(), "0 2 3 4"},
        {"mutated", "stamps with up to three changes, to all nine readers", try_mutated, units, "0 2 5 6 7 8"},
        {"octets", "octets by chance, to all nine readers", try_random_octets, units, "0 5 6 7 8"},
        {"values", "values right and wrong, under any settings, into any room", try_random_values, units, "0 1 2 3 4"},
        {"choices", "texts with every octet at every place, behind the first bits of each form", try_choices, CHOICE_UNITS,
         "0 5 6 7 8"},
        {"zones", "every offset from -1500 to 1500 at the years' ends and midnights, restated at every other",
         try_zones, OFFSET_UNITS, "0 2 9"},
        {"midnights", "every day's midnight and its neighbours, at some offsets, and back", try_midnights,
         MIDNIGHT_UNITS, "0 2 9"},
        {"sums", "the neighbours of every limit of instants, added, subtracted and at every offset", try_sums,
         instant_edge_units(), "0 2 9"},
        {"instants", "stamps, instants, offsets and numbers, right and wrong, to all five calls", try_random_instants,
         units, "0 2 9"},
        {"headers", "schedule files with every number of the header wrong in many ways", try_headers, HEADER_UNITS,
         "0 2 13 14"},
        {"cards", "every octet of small schedule files as every octet", try_cards, CARD_UNITS,
         "0 2 5 6 7 8 13 14 15" EVERY_OUTCOME},
        {"thousands", "schedule files of about a thousand records, whole and changed; long stamps", try_thousands,
         THOUSAND_UNITS, "0 2 5 6 7 8 13 14 15" EVERY_OUTCOME},
        {"schedule", "schedule files of few records, whole and changed, their records, what holds, also of two files",
         try_schedule, units, "0 2 5 6 7 8 13 14 15" EVERY_OUTCOME},
    };
    memcpy(parts, list, sizeof list);
}

static void print_differences(const tally *counted, size_t *printed)
{
    for (size_t i = 0; i < counted->differences && *printed < DIFFERENCES_KEPT; i++, ++*printed)
        printf("%s", counted->kept[i].text);
}

/* How manual over plan came to its answers: which of the answers counted, and in words. */
static const struct outcome {
    int answer;
    const char *name;
} outcomes[] = {
    {OVER_REFUSED, "refused"}, {OVER_NEITHER, "neither"}, {OVER_PLAN_ALONE, "plan alone"},
    {OVER_MANUAL_ALONE, "manual alone"}, {OVER_PLAN_LATER, "plan later"}, {OVER_MANUAL_LATER, "manual later"},
    {OVER_EQUAL, "equal"}
};
#define OUTCOMES (sizeof outcomes / sizeof outcomes[0])

static void count_as_failed(tally *counted)
{
    counted->checks++;
    counted->failed++;
}

/* An answer that has to come up and did not: the part has not tried what it should have. */
static void demand_answers(const part *done, tally *counted)
{
    char *rest = (char *)done->must;
    while (*rest != '\0' && strcmp(rest, EVERY_OUTCOME) != 0) {
        const unsigned long answer = strtoul(rest, &rest, 10);
        if (counted->answers[answer] == 0) {
            printf("%s: nothing was answered with %lu\n", done->name, answer);
            count_as_failed(counted);
        }
    }
    for (size_t i = 0; i < OUTCOMES && *rest != '\0'; i++) {
        if (counted->answers[outcomes[i].answer] == 0) {
            printf("%s: manual over plan never came to this: %s\n", done->name, outcomes[i].name);
            count_as_failed(counted);
        }
    }
}

static void print_outcome_heading(void)
{
    printf("\nmanual over plan, among these checks: a question is refused, neither holds, one alone, the later of "
           "both, both at one instant\n%-14s%11s", "part", "checks");
    for (size_t i = 0; i < OUTCOMES; i++)
        printf("%13s", outcomes[i].name);
    printf("\n");
}

/* Of each part in which two files were asked. */
static void print_outcomes(const part parts[PARTS], const tally counted[PARTS])
{
    bool headed = false;
    for (int place = 0; place < PARTS; place++) {
        uint64_t checks = 0;
        for (size_t i = 0; i < OUTCOMES; i++)
            checks += counted[place].answers[outcomes[i].answer];
        if (checks == 0)
            continue;
        if (!headed)
            print_outcome_heading();
        headed = true;
        printf("%-14s%11" PRIu64, parts[place].name, checks);
        for (size_t i = 0; i < OUTCOMES; i++)
            printf("%13" PRIu64, counted[place].answers[outcomes[i].answer]);
        printf("\n");
    }
}

static void print_heading(void)
{
    printf("%-14s%11s%11s%11s", "part", "checks", "again", "accepted");
    for (int refusal = 1; refusal <= STAMP_LAST_REFUSAL; refusal++)
        printf("%*s %d", refusal < 10 ? 9 : 8, "refusal", refusal);
    printf("%10s\n", "failed");
}

static void print_counts(const char *name, const tally *counted)
{
    printf("%-14s%11" PRIu64 "%11" PRIu64 "%11" PRIu64, name, counted->checks, counted->again, counted->answers[0]);
    for (int refusal = 1; refusal <= STAMP_LAST_REFUSAL; refusal++)
        printf("%11" PRIu64, counted->answers[refusal]);
    printf("%10" PRIu64 "\n", counted->failed);
}

/* `only` is the name of the one part to do, or null for all of them. */
static int compare(uint64_t seed, uint64_t rounds, int workers, const char *only)
{
    static tally counted[PARTS];
    part parts[PARTS];
    size_t printed = 0;
    uint64_t checks = 0, failed = 0;
    list_parts(parts, rounds);
    for (uint64_t i = 0; i < PARTS; i++) {
        if (only != NULL && strcmp(only, parts[i].name) != 0)
            continue;
        fprintf(stderr, "%s: %s\n", parts[i].name, parts[i].what);
        do_part(&parts[i], i, seed, workers, &counted[i]);
        print_differences(&counted[i], &printed);
        demand_answers(&parts[i], &counted[i]);
        checks += counted[i].checks;
        failed += counted[i].failed;
    }
    if (checks == 0)
        fprintf(stderr, "mass: no part has that name\n");
    printf("\nseed %" PRIu64 ", %" PRIu64 " rounds; \"again\" are the checks that wrote again what was read, asked a "
           "result for its instant, or asked a file with other octets where it was not read\n", seed, rounds);
    print_heading();
    for (int i = 0; i < PARTS; i++)
        if (counted[i].checks > 0)
            print_counts(parts[i].name, &counted[i]);
    print_outcomes(parts, counted);
    printf("%" PRIu64 " passed, %" PRIu64 " failed\n", checks - failed, failed);
    return failed == 0 && checks > 0 ? 0 : 1;
}

static uint64_t number_given(int count, char **words, int place, uint64_t otherwise)
{
    char *end;
    if (count <= place)
        return otherwise;
    uint64_t number = strtoull(words[place], &end, 10);
    if (*end != '\0' || end == words[place]) {
        fprintf(stderr, "usage: mass [SEED [ROUNDS [WORKERS [PART]]]] | mass cases\n");
        exit(2);
    }
    return number;
}

int main(int count, char **words)
{
    if (count == 2 && strcmp(words[1], "cases") == 0)
        return answer_cases();
    long cores = sysconf(_SC_NPROCESSORS_ONLN);
    uint64_t seed = number_given(count, words, 1, DEFAULT_SEED);
    uint64_t rounds = number_given(count, words, 2, DEFAULT_ROUNDS);
    uint64_t workers = number_given(count, words, 3, cores < 1 ? 1 : cores > 4 ? 4 : (uint64_t)cores);
    if (workers < 1 || workers > MOST_WORKERS || rounds < 1 || count > 5) {
        fprintf(stderr, "mass: at least 1 round, 1 to %d workers\n", MOST_WORKERS);
        return 2;
    }
    return compare(seed, rounds, (int)workers, count == 5 ? words[4] : NULL);
}
