/* Linking may go from word to word as deep as there are words; a block must cost it no stack, and what a list would be if it
   were written out no time. So lists of 256 words are linked on a thread that has 256 KiB. What is lent is static, so that
   the stack holds only what the calls need. The expected answers are counted by hand. Each linked text is linked again,
   which must change nothing. */
#include "words/longest.h"

#include <stdio.h>
#include <string.h>

#include "shared/small_stack.h"
#include "turnip.h"
#include "words/generator.h"

enum { STACK_KIB = 256, WORDS = WORDS_AT_MOST, CELLS = CELLS_AT_MOST, ROOM = 3 * CELLS };

/* A list of so many words, each other one so many uses of the one before it inside so many blocks; a text that uses the last
   once, with so many blocks around; and the answer. */
struct longest {
    size_t words, uses, blocks;
    const char *first;
    size_t around;
    uint32_t number, cells, length, place;
};

static const struct longest cases[] = {
    {WORDS, 2, 0, "a", 0, TURNIP_OVERFULL, 0, 0, 0},
    {WORDS, 2, 0, "", 0, TURNIP_READ, 0, 0, 0},
    {WORDS, 2, 0, "", 3, TURNIP_READ, 3, 6, 0},
    {WORDS, 2, 0, "{&}", 3, TURNIP_READ, 3, 6, 0},
    {13, 2, 0, "a", 0, TURNIP_READ, CELLS, CELLS, 0},
    {13, 2, 0, "a", 1, TURNIP_OVERFULL, 0, 0, 0},
    {14, 2, 0, "a", 0, TURNIP_OVERFULL, 0, 0, 0},
    {WORDS, 1, 1, "a", 0, TURNIP_READ, WORDS, 2 * WORDS - 1, 0},
    {WORDS, 1, 0, "{x}", 0, TURNIP_READ, 1, 3, 0},
    {WORDS, 1, 16, "", 16, TURNIP_READ, CELLS, 2 * CELLS, 0},
    {WORDS, 1, 16, "a", 16, TURNIP_OVERFULL, 0, 0, 0},
    {2, 1, CELLS - 1, "", 1, TURNIP_READ, CELLS, 2 * CELLS, 0},
    {2, 1, CELLS, "", 0, TURNIP_BADWORDS, 0, 0, 1},
    {1, 0, 0, "", CELLS, TURNIP_READ, CELLS, 2 * CELLS, 0},
    {1, 0, 0, "", CELLS + 1, TURNIP_OVERFULL, 0, 0, 0},
};

static struct word_list list;
static uint8_t text[ROOM], out[ROOM], again[ROOM], expected[ROOM];

static size_t write_text(const struct longest *longest)
{
    size_t around = longest->around;
    memset(text, '[', around);
    size_t length = around + use_last_word(&list, text + around);
    memset(text + length, ']', around);
    return length + around;
}

/* The linked text where there is one: blocks in blocks, and in the innermost the first word, as often as the length says. */
static void write_expected(const struct longest *longest)
{
    size_t depth = longest->around + longest->blocks * (longest->words - 1), bytes = strlen(longest->first), at = depth;
    memset(expected, 0xa5, sizeof expected);
    if (longest->number != TURNIP_READ)
        return;
    memset(expected, '[', depth);
    for (; at + depth < longest->length; at += bytes)
        memcpy(expected + at, longest->first, bytes);
    memset(expected + at, ']', depth);
}

static bool links_as_expected(const struct longest *longest)
{
    uint32_t first[5], second[5];
    const uint32_t answer[5] = {longest->number, 0, longest->cells, longest->length, longest->place};
    growing_list(&list, longest->words, longest->uses, longest->blocks, longest->first, "");
    write_expected(longest);
    memset(out, 0xa5, sizeof out);
    memset(again, 0xa5, sizeof again);
    turnip_link(list.bytes, list.length, text, write_text(longest), out, sizeof out, first);
    if (memcmp(first, answer, sizeof answer) != 0 || memcmp(out, expected, sizeof out) != 0)
        return false;
    if (longest->number != TURNIP_READ)
        return true;
    turnip_link(list.bytes, list.length, out, longest->length, again, sizeof again, second);
    return memcmp(second, answer, sizeof answer) == 0 && memcmp(again, expected, sizeof again) == 0;
}

static bool all_link_as_expected(void)
{
    bool all = true;
    for (size_t i = 0; i < sizeof cases / sizeof *cases; i++) {
        if (!links_as_expected(&cases[i])) {
            printf("NOT as expected: list %zu of the longest\n", i);
            all = false;
        }
    }
    return all;
}

bool links_on_small_stack(void)
{
    return on_small_stack("lists of 256 words", STACK_KIB, all_link_as_expected);
}
