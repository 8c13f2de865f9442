/* What is lent to a call: filled with other values before it, and followed by elements that no call may touch. */
#ifndef LENT_H
#define LENT_H

#include <stddef.h>
#include <stdint.h>

/* So many elements are behind what is lent. */
enum { GUARD = 16 };

/* A number that is never 0; what is at a place before a call depends on a salt. */
static inline uint32_t other_number(uint64_t salt, size_t at)
{
    return ((uint32_t)salt + (uint32_t)at) * 2654435761u | 1;
}

static inline uint8_t other_byte(uint64_t salt, size_t at)
{
    return (uint8_t)(other_number(salt, at) >> 24);
}

/* Numbers that no call leaves behind as its answer. */
static inline void spoil(uint32_t *answer, size_t count)
{
    for (size_t i = 0; i < count; i++)
        answer[i] = 0xdeadbeef;
}

#endif
