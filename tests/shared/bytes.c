#include "bytes.h"

#include <stdio.h>
#include <stdlib.h>
#include <string.h>

void *need(void *given)
{
    if (given == NULL) {
        fputs("no memory left\n", stderr);
        exit(2);
    }
    return given;
}

bool same_bytes(struct bytes one, struct bytes other)
{
    return one.length == other.length && memcmp(one.start, other.start, one.length) == 0;
}

uint8_t *write_number(uint8_t *to, size_t number)
{
    for (int i = 0; i < NUMBER_BYTES; i++)
        *to++ = (uint8_t)(number >> 8 * i);
    return to;
}

bool take_number(struct bytes bytes, size_t *at, uint32_t *number)
{
    if (bytes.length - *at < NUMBER_BYTES)
        return false;
    *number = number_at(bytes.start + *at);
    *at += NUMBER_BYTES;
    return true;
}

bool take_counted(struct bytes bytes, size_t *at, struct bytes *taken)
{
    uint32_t count;
    if (!take_number(bytes, at, &count) || bytes.length - *at < count)
        return false;
    *taken = (struct bytes){bytes.start + *at, count};
    *at += count;
    return true;
}
