#define _DEFAULT_SOURCE                /* MAP_ANONYMOUS */
#include "counting.h"

#include <stdio.h>
#include <stdlib.h>
#include <string.h>
#include <sys/mman.h>
#include <unistd.h>

#define PARTS_LENT 10

tally *now;
uint32_t checks_of_unit;

void check_into(tally *to, uint64_t unit)
{
    now = to;
    now->unit = unit;
    checks_of_unit = 0;
}

void count_outcome(int outcome)
{
    now->checks++;
    checks_of_unit++;
    now->answers[outcome]++;
}

void count_answer(uint32_t refusal)
{
    count_outcome(refusal < OTHER_ANSWER ? (int)refusal : OTHER_ANSWER);
}

bool start_difference(words *to, const char *why)
{
    now->failed++;
    if (now->differences == DIFFERENCES_KEPT)
        return false;
    difference *kept = &now->kept[now->differences++];
    kept->unit = now->unit;
    to->text = kept->text;
    to->length = (size_t)snprintf(kept->text, DIFFERENCE_ROOM, "difference: %s\n  ", why);
    say_call(to, &now->last);
    return true;
}

void lend_parts(parts_answer *to)
{
    for (int i = 0; i < PARTS_LENT; i++)
        to->parts[i] = LENT_PART - i;
}

static bool parts_are_as_lent(const parts_answer *answer, int first, int last)
{
    for (int i = first; i <= last; i++)
        if (!part_is_as_lent(answer, i))
            return false;
    return true;
}

const char *wrong_in_parts(const parts_answer *library, const parts_answer *second, int filled)
{
    if (library->refusal != second->refusal)
        return "the refusal numbers differ";
    if (!parts_are_as_lent(library, 0, 0) || !parts_are_as_lent(library, 1 + filled, PARTS_LENT - 1))
        return "a number beside the parts changed";
    if (memcmp(library->parts, second->parts, sizeof library->parts) != 0)
        return "the parts differ";
    if (library->refusal != STAMP_ACCEPTED && !parts_are_as_lent(library, 1, filled))
        return "a part changed though the call was refused";
    return NULL;
}

/* New memory, and the fence at its end. */
static uint8_t *build_fence(void)
{
    size_t page = (size_t)sysconf(_SC_PAGESIZE);
    size_t room = (LONGEST_FILE + page - 1) / page * page;
    uint8_t *pages = mmap(NULL, room + page, PROT_READ | PROT_WRITE, MAP_PRIVATE | MAP_ANONYMOUS, -1, 0);
    if (pages == MAP_FAILED || mprotect(pages + room, page, PROT_NONE) != 0) {
        perror("mass: no memory with a fence");
        exit(2);
    }
    return pages + room;
}

uint8_t *fence(void)
{
    static uint8_t *found;
    if (found == NULL)
        found = build_fence();
    return found;
}

/* Where a second file ends. */
static uint8_t *fence_of_manual(void)
{
    static uint8_t *found;
    if (found == NULL)
        found = build_fence();
    return found;
}

/* The file noted, and laid out before its fence. */
static const uint8_t *lay_out(const card *file, card *noted, uint8_t *end)
{
    uint8_t *lent = end - file->length;
    memcpy(lent, file->octets, file->length);
    noted->length = file->length;
    memcpy(noted->octets, file->octets, file->length);
    return lent;
}

static bool is_as_noted(const uint8_t *lent, const card *noted)
{
    return lent == NULL || memcmp(lent, noted->octets, noted->length) == 0;
}

const uint8_t *note_file(asked which, const card *file)
{
    now->last.which = which;
    return lay_out(file, &now->last.file, fence());
}

const uint8_t *note_manual(const card *file)
{
    return lay_out(file, &now->last.manual, fence_of_manual());
}

bool file_is_as_lent(const uint8_t *lent)
{
    return is_as_noted(lent, &now->last.file);
}

bool manual_is_as_lent(const uint8_t *lent)
{
    return is_as_noted(lent, &now->last.manual);
}
