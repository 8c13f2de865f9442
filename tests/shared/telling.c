#include "telling.h"

#include <inttypes.h>
#include <stdio.h>

enum { HEX_AT_MOST = 4000 };

void tell_numbers(const char *whose, const uint32_t answer[5])
{
    printf("%s: %" PRIu32 " %" PRIu32 " %" PRIu32 " %" PRIu32 " %" PRIu32, whose, answer[0], answer[1], answer[2], answer[3],
           answer[4]);
}

void tell_answer(const char *whose, const uint32_t answer[5])
{
    tell_numbers(whose, answer);
    printf("\n");
}

void tell_hex(const char *what, const uint8_t *bytes, size_t length)
{
    printf("%s, %zu bytes: ", what, length);
    for (size_t i = 0; i < length && i < HEX_AT_MOST; i++)
        printf("%02x", bytes[i]);
    printf("%s\n", length > HEX_AT_MOST ? " ..." : "");
}

void tell_first_byte_apart(const char *what, const char *one_name, const uint8_t *one, const char *other_name,
                           const uint8_t *other, size_t length)
{
    for (size_t i = 0; i < length; i++) {
        if (one[i] != other[i]) {
            printf("byte %zu of the %s: %s %02x, %s %02x\n", i, what, one_name, one[i], other_name, other[i]);
            return;
        }
    }
}

void tell_first_number_apart(const char *what, const char *one_name, const uint32_t *one, const char *other_name,
                             const uint32_t *other, size_t length)
{
    for (size_t i = 0; i < length; i++) {
        if (one[i] != other[i]) {
            printf("number %zu of the %s: %s %" PRIu32 ", %s %" PRIu32 "\n", i, what, one_name, one[i], other_name, other[i]);
            return;
        }
    }
}
