/* A small generator of numbers that look random, the same on every machine (SplitMix64: Steele, Lea, Flood, 2014), if no
 * two are drawn in one expression whose order C leaves to the compiler. */
#ifndef MASS_CHANCE_H
#define MASS_CHANCE_H

#include <stdbool.h>
#include <stddef.h>
#include <stdint.h>

typedef struct chance {
    uint64_t state;
} chance;

static inline uint64_t chance_bits(chance *by)
{
    uint64_t mixed = by->state += 0x9E3779B97F4A7C15;
    mixed = (mixed ^ (mixed >> 30)) * 0xBF58476D1CE4E5B9;
    mixed = (mixed ^ (mixed >> 27)) * 0x94D049BB133111EB;
    return mixed ^ (mixed >> 31);
}

/* 0 to limit - 1; even enough for trying things. */
static inline uint64_t chance_below(chance *by, uint64_t limit)
{
    return chance_bits(by) % limit;
}

/* True once in `times` times. */
static inline bool chance_once_in(chance *by, uint64_t times)
{
    return chance_below(by, times) == 0;
}

static inline uint8_t chance_octet(chance *by)
{
    return (uint8_t)(chance_bits(by) >> 56);
}

/* Each unit of work has a generator of its own, so that it does not matter which worker does it. */
static inline chance chance_for(uint64_t seed, uint64_t part, uint64_t unit)
{
    chance made = {seed};
    made.state = chance_bits(&made) + part;
    made.state = chance_bits(&made) + unit;
    return made;
}

#endif
