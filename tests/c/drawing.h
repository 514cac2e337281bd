/* Random numbers, the same in every run: the generator splitmix64. */
#ifndef DRAWING_H
#define DRAWING_H

#include <stddef.h>
#include <stdint.h>

static uint64_t seed;

static uint64_t word(void)
{
    uint64_t z = seed += 0x9e3779b97f4a7c15;
    z = (z ^ z >> 30) * 0xbf58476d1ce4e5b9;
    z = (z ^ z >> 27) * 0x94d049bb133111eb;
    return z ^ z >> 31;
}

static inline size_t below(size_t limit)
{
    return (size_t)(word() % limit);
}

#endif
