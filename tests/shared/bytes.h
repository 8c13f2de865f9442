/* Bytes that stay where they are, and numbers stored in four bytes, lowest first. Plain plumbing, which the twins may share among
   each other; it shares nothing with the crates. */
#ifndef BYTES_H
#define BYTES_H

#include <stdbool.h>
#include <stddef.h>
#include <stdint.h>

enum { NUMBER_BYTES = 4 };

struct bytes {
    const uint8_t *start;
    size_t length;
};

/* What was asked of the heap; where there was none left, the program ends with status 2. */
void *need(void *given);

bool same_bytes(struct bytes one, struct bytes other);

/* The number at the first four of these. It stands here so that the compiler can put it into the loops that are timed. */
static inline uint32_t number_at(const uint8_t *bytes)
{
    return (uint32_t)bytes[0] | (uint32_t)bytes[1] << 8 | (uint32_t)bytes[2] << 16 | (uint32_t)bytes[3] << 24;
}

/* Writes a number, and says where it ended. */
uint8_t *write_number(uint8_t *to, size_t number);

/* The number at a place, which moves on behind it; false where its bytes are not all there. */
bool take_number(struct bytes bytes, size_t *at, uint32_t *number);

/* The same of a number and so many bytes behind it. */
bool take_counted(struct bytes bytes, size_t *at, struct bytes *taken);

#endif
