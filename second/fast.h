/* fast.h - the second program made fast: the rules of writing.py, reading.py, instants.py, schedule.py and common.py in
 * C, for comparing over many millions of inputs. Same parameters and same answers as stamp_write, stamp_read and the
 * calls on instants and schedules; include/stamp.h says what each part means. Nothing of the library is used here. */
#ifndef FAST_H
#define FAST_H

#include <stdbool.h>
#include <stddef.h>
#include <stdint.h>

uint32_t fast_write(uint32_t kind, uint32_t year, uint32_t month, uint32_t day, uint64_t micros, int32_t offset,
                    bool binary, uint32_t version, uint32_t digits, uint8_t *octets, size_t room, size_t *count);

uint32_t fast_read(uint32_t kind, const uint8_t *octets, size_t length, int64_t parts[8]);

uint32_t fast_instant(uint32_t year, uint32_t month, uint32_t day, uint64_t micros, int32_t offset, int64_t *instant);

uint32_t fast_add(int64_t instant, int64_t micros, int64_t *sum);

uint32_t fast_difference(int64_t a, int64_t b, int64_t *difference);

uint32_t fast_at(int64_t instant, int32_t offset, int64_t parts[5]);

uint32_t fast_restate(uint32_t year, uint32_t month, uint32_t day, uint64_t micros, int32_t offset, int32_t to,
                      int64_t parts[5]);

uint32_t fast_schedule_read(const uint8_t *file, size_t length, uint32_t *records, uint32_t *fault);

uint32_t fast_schedule_record(const uint8_t *file, size_t length, uint32_t place, int64_t parts[5]);

uint32_t fast_schedule_holds(const uint8_t *file, size_t length, int64_t instant, uint32_t channel, uint32_t *read,
                             int64_t parts[5]);

uint32_t fast_schedule_over(const uint8_t *plan, size_t plan_length, const uint8_t *manual, size_t manual_length,
                            int64_t instant, uint32_t channel, size_t part[2]);

#endif
