/* Pseudo-random word lists, whole and damaged, and texts to link by them, around the edges that a list has; and the shapes of
   list that grow fastest and deepest. The same seed and case number always give the same case. */
#ifndef WORDS_GENERATOR_H
#define WORDS_GENERATOR_H

#include <stddef.h>
#include <stdint.h>

#include "plan/generator.h"

enum { WORDS_AT_MOST = 256, NAME_AT_MOST = 61 };
enum { WORD_LIST_ROOM = 3 << 20, WORD_ROOM = WORDS_AT_MOST + 4, NAME_ROOM = 96, COUNTS_ROOM = 2 * WORD_ROOM + 1 };

struct name {
    uint8_t bytes[NAME_ROOM];
    size_t length;
};

struct word_list {
    uint8_t bytes[WORD_LIST_ROOM];
    size_t length;
    struct name names[WORD_ROOM]; /* in the order of their ranks, as drawn: what a damage did to them is not followed */
    size_t words;
    size_t counts[COUNTS_ROOM]; /* where four-byte counts were put */
    size_t counted;
};

void make_word_list(struct draws *draws, struct word_list *list);

/* A text to link by a list: most of its uses are of the list's words. */
void make_text_to_link(struct draws *draws, const struct word_list *list, struct text *text);

/* A list of so many words, w0, w1 and so on. The first has a text of its own; each other one is so many uses of the one before
   it, inside so many blocks, and then what stands behind. */
void growing_list(struct word_list *list, size_t words, size_t uses, size_t blocks, const char *first, const char *behind);

/* Writes the text that uses the last word of a list once, and says how many bytes it has. */
size_t use_last_word(const struct word_list *list, uint8_t *text);

#endif
