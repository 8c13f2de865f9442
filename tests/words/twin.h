/* A second implementation of linking by stock words, to compare the proved one with. It takes the list apart into words, holds
   every plan as a plain tree on the heap, and answers last; it shares nothing with the crates. The parameters are those of the
   library's call: a slice is a pointer and then a length. */
#ifndef WORDS_TWIN_H
#define WORDS_TWIN_H

#include <stddef.h>
#include <stdint.h>

void twin_link(const uint8_t *list, size_t list_length, const uint8_t *text, size_t text_length, uint8_t *out,
               size_t out_length, uint32_t answer[5]);

#endif
