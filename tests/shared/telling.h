/* What a test tells of a difference. */
#ifndef TELLING_H
#define TELLING_H

#include <stddef.h>
#include <stdint.h>

enum { TOLD_AT_MOST = 5 };

/* The five numbers of an answer, without a line's end. */
void tell_numbers(const char *whose, const uint32_t answer[5]);

/* The same in a line of their own. */
void tell_answer(const char *whose, const uint32_t answer[5]);

/* Bytes in hex; of many only the first. */
void tell_hex(const char *what, const uint8_t *bytes, size_t length);

/* The first place where two runs of bytes, or of numbers, are not the same, in a line; nothing where they are. */
void tell_first_byte_apart(const char *what, const char *one_name, const uint8_t *one, const char *other_name,
                           const uint8_t *other, size_t length);
void tell_first_number_apart(const char *what, const char *one_name, const uint32_t *one, const char *other_name,
                             const uint32_t *other, size_t length);

#endif
