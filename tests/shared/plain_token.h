/* A token in plain C, for the engines that the benchmarks compare the library with. The twins have their own reading of the rules
   and do not use it. */
#ifndef PLAIN_TOKEN_H
#define PLAIN_TOKEN_H

#include "turnip.h"
#include "utf8.h"

/* What a `{` opens. */
struct plain_token {
    size_t length;  /* of the token, both braces among it; 0 where none is allowed */
    uint32_t fault; /* the number of its first fault then */
    size_t at;      /* and that fault's byte, the `{` being byte 0 */
};

static inline struct plain_token token_fault(uint32_t fault, size_t at)
{
    return (struct plain_token){0, fault, at};
}

/* The token that the first of these bytes, a `{`, opens. A good character that reaches over the last byte that a token may have
   makes it too long at that byte. */
static inline struct plain_token plain_token(const uint8_t *bytes, size_t left)
{
    enum { LAST = 63 };
    size_t at = 1, width;

    while (at < LAST && at < left && bytes[at] != '}') {
        long code = code_point(bytes + at, left - at, &width);
        if (code == NO_CHARACTER)
            return token_fault(TURNIP_BADUTF8, at);
        if (code == '{')
            return token_fault(TURNIP_INNERBRACE, at);
        if (code < 0x20 || (code >= 0x7f && code <= 0x9f) || code == 0xfffd)
            return token_fault(TURNIP_FORBIDDEN, at);
        at += width;
    }
    if (LAST < at || at == left || bytes[at] != '}')
        return token_fault(TURNIP_LONGTOKEN, at < LAST ? at : LAST);
    return at == 1 ? token_fault(TURNIP_EMPTYTOKEN, at) : (struct plain_token){at + 1, 0, 0};
}

#endif
