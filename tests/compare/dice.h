/* Random numbers from a seed (splitmix64): the same seed gives the same run everywhere. */
#ifndef DICE_H
#define DICE_H

#include <stdint.h>

typedef struct dice {
    uint64_t state;
} dice;

static inline uint64_t roll(dice *d)
{
    uint64_t z = d->state += 0x9e3779b97f4a7c15;
    z = (z ^ z >> 30) * 0xbf58476d1ce4e5b9;
    z = (z ^ z >> 27) * 0x94d049bb133111eb;
    return z ^ z >> 31;
}

/* From 0 to n - 1. */
static inline uint32_t below(dice *d, uint32_t n)
{
    return (uint32_t)((roll(d) >> 32) * n >> 32);
}

static inline int one_in(dice *d, uint32_t n)
{
    return below(d, n) == 0;
}

static inline int percent(dice *d, uint32_t chance)
{
    return below(d, 100) < chance;
}

static inline uint64_t one_bit(dice *d, uint32_t first, uint32_t last)
{
    return (uint64_t)1 << (first + below(d, last - first + 1));
}

/* The first, the last, or any of `count` entries. */
static inline uint32_t any_entry(dice *d, uint32_t count)
{
    switch (below(d, 4)) {
    case 0: return 0;
    case 1: return count - 1;
    default: return below(d, count);
    }
}

/* A number at which some range of document 01 begins or ends. */
static inline uint32_t edge(dice *d)
{
    static const uint32_t edges[] = {0,   1,   2,   3,   7,     8,     9,          10,         15,        16, 63, 64,
                                     127, 128, 255, 256, 65535, 65536, 0x7fffffff, 0x80000000, 0xffffffff};
    return edges[below(d, sizeof edges / sizeof *edges)];
}

#endif
