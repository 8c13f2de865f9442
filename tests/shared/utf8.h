/* UTF-8 by RFC 3629, decoded: the one decoder of the tests. It shares nothing with the crates. It stands in a header so that the
   compiler can put it into the loops that are timed. */
#ifndef UTF8_H
#define UTF8_H

#include <stdbool.h>
#include <stddef.h>
#include <stdint.h>

/* What a byte has instead of a code point. */
enum { NO_CHARACTER = -1 };

/* The code point that starts here, and its bytes; NO_CHARACTER where none does. There is at least one byte. */
static inline long code_point(const uint8_t *bytes, size_t left, size_t *width)
{
    static const long least[] = {0, 0, 0x80, 0x800, 0x10000};
    uint8_t lead = bytes[0];
    *width = lead < 0x80 ? 1 : lead >> 5 == 6 ? 2 : lead >> 4 == 14 ? 3 : lead >> 3 == 30 ? 4 : 0;
    if (*width == 1)
        return lead;
    if (*width == 0 || *width > left)
        return NO_CHARACTER;
    long code = lead & (0x7f >> *width);
    for (size_t i = 1; i < *width; i++) {
        if ((bytes[i] & 0xc0) != 0x80)
            return NO_CHARACTER;
        code = code * 64 + (bytes[i] & 0x3f);
    }
    bool surrogate = code >= 0xd800 && code <= 0xdfff;
    return code < least[*width] || surrogate || code > 0x10ffff ? NO_CHARACTER : code;
}

#endif
