/* The plain C version: the records of a schedule file in the usual way. See plain_usual.h for the instant of a stamp.
 *
 * This way asks nothing but whether a record is good. It has a loop for each form, and stays in it while the stamps are
 * of one length: so what the length decides is decided before the loop, and the constants of one form have room in the
 * registers. A record that is not plainly good is left where it is.
 *
 * A question is a reading that stops early. It has loops of its own where a full reading would pay for the stop. What
 * holds is sought behind the reading, so that no loop carries anything for it. */
#ifndef PLAIN_RUNS_H
#define PLAIN_RUNS_H

#include "plain_usual.h"

#define MOST_CHANNEL 16u
#define MOST_CORRECTION 1000000u                    /* to either side */
#define ALL_RECORDS INT64_MAX                       /* asked at an instant that none is later than */

enum { RECORD_OCTETS = 12 };

/* How far the reading is. */
struct walk {
    const uint8_t *record;                          /* the next one */
    const uint8_t *stamps;                          /* they follow the last record */
    uint64_t stamp_octets;
    uint64_t end;                                   /* of the stamp before, within the stamp octets */
    int64_t instant;                                /* of the stamp before */
    int64_t asked;                                  /* it goes on while the stamp before is not later */
};

INLINE bool is_correction(uint32_t correction)
{
    return correction + MOST_CORRECTION <= 2 * MOST_CORRECTION;
}

/* ---- a run ------------------------------------------------------------------------------------------------- */

/* Records with stamps of one length. */
struct run {
    const uint8_t *record, *end;                    /* the next one, and where the run ends at the latest */
    const uint8_t *stamp;                           /* of the next one, if it is in its place */
    size_t length;
    uint64_t but_channel;                           /* what the next one begins with, and 0 for its channel */
    struct month month;
};

/* It ends with the records, or where the octets left are fewer than a stamp's. */
INLINE struct run start_run(const struct walk *walk, size_t length)
{
    const uint64_t records = (uint64_t)(walk->stamps - walk->record) / RECORD_OCTETS;
    const uint64_t octets = walk->stamp_octets - walk->end;
    const uint64_t most = LIKELY(records * length <= octets) ? records : octets / length;
    const struct run run = { walk->record, walk->record + RECORD_OCTETS * most, walk->stamps + walk->end,
                             length, walk->end << 32 | length << 16, { 0, 0, 0 } };

    return run;
}

INLINE void go_on(struct run *run)
{
    run->record += RECORD_OCTETS;
    run->stamp += run->length;
    run->but_channel += (uint64_t)run->length << 32;
}

INLINE void end_run(const struct run *run, int64_t instant, struct walk *walk)
{
    walk->record = run->record;
    walk->end = (uint64_t)(run->stamp - walk->stamps);
    walk->instant = instant;
}

typedef bool usual_stamp(const uint8_t *octets, size_t length, struct month *month, int64_t *instant);

/* Whether the next record is there and good, but for the order. That the last one's stamp ends the file is for pass_all
 * to see. */
INLINE bool is_good(struct run *run, usual_stamp *usual, int64_t *instant)
{
    if (run->record == run->end)
        return false;
    return LIKELY(load64_big(run->record) - run->but_channel - 1 < MOST_CHANNEL)
        && LIKELY(is_correction(load32_big(run->record + 8)))
        && LIKELY(usual(run->stamp, run->length, &run->month, instant));
}

/* Up to the first record later than asked, which is passed too. */
INLINE void read_run(struct walk *walk, size_t length, usual_stamp *usual, int64_t asked)
{
    struct run run = start_run(walk, length);
    int64_t before = walk->instant, instant;

    while (is_good(&run, usual, &instant) && LIKELY(instant >= before)) {
        go_on(&run);
        before = instant;
        if (!LIKELY(instant <= asked))
            break;
    }
    end_run(&run, before, walk);
}

/* ---- a loop for each form ---------------------------------------------------------------------------------- */

/* Here the stop takes no time. */
OUTLINE void read_texts(struct walk *walk, size_t length) { read_run(walk, length, usual_text, walk->asked); }

OUTLINE void read_compacts(struct walk *walk, size_t length) { read_run(walk, length, usual_compact, ALL_RECORDS); }
OUTLINE void ask_compacts(struct walk *walk, size_t length) { read_run(walk, length, usual_compact, walk->asked); }

OUTLINE void read_extendeds(struct walk *walk)
{
    read_run(walk, extended_octets(true), usual_extended, ALL_RECORDS);
}

OUTLINE void ask_extendeds(struct walk *walk)
{
    read_run(walk, extended_octets(true), usual_extended, walk->asked);
}

#endif
