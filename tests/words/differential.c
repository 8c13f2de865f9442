/* Compares the proved linking with its twin over the C interface.

       differential SEED COUNT

   A case is one word list and one text. Library and twin link them into outputs that were filled alike, and are compared:
   the five numbers, every byte of the outputs, and a few behind. Three things more are asked of the library alone: what it
   linked is linked again, which must change nothing; the text is linked by the list of no words, which must give what READ
   gives, except OVERFULL's place; and the text as READ writes it is linked, which must give what the text gives. The first few
   differences are told in full. Then come the longest lists on a small stack (longest.h). Status 0: there were no
   differences, and of 10,000 cases or more each answer has come up, and annotations in texts and in words that were linked. */
#include <inttypes.h>
#include <stdbool.h>
#include <stdio.h>
#include <stdlib.h>
#include <string.h>

#include "shared/answers.h"
#include "shared/lent.h"
#include "shared/telling.h"
#include "turnip.h"
#include "words/generator.h"
#include "words/longest.h"
#include "words/twin.h"

enum { ALL_EXPECTED_FROM = 10000 };

static const uint8_t possible[] = {TURNIP_READ,      TURNIP_TOOLONG,   TURNIP_BADBYTE,    TURNIP_UNMATCHED,
                                    TURNIP_UNCLOSED,  TURNIP_OVERFULL,  TURNIP_OUTSHORT,   TURNIP_EMPTYTOKEN,
                                    TURNIP_LONGTOKEN, TURNIP_BADUTF8,   TURNIP_FORBIDDEN,  TURNIP_INNERBRACE,
                                    TURNIP_BADWORDS,   END_OF_NUMBERS};

static const uint8_t no_words[4] = {0, 0, 0, 0};

/* What one side is lent, and what it answers. */
struct side {
    uint8_t out[OUT_ROOM + GUARD];
    uint32_t answer[5 + GUARD];
};

/* What is asked of the library, and what it is compared with. */
struct asked {
    uint64_t seed;
    uint64_t number;
    const char *compared;
    const uint8_t *list, *text;
    size_t list_length, text_length, out_length;
};

static struct word_list list;
static struct text text;
static struct side library, other;
static struct answers answers = {.call = "link"};
static unsigned long seen_ranks[WORDS_AT_MOST + 1];
static unsigned long annotated_texts, annotated_lists; /* that were linked */
static uint64_t differences;

/* ---- Telling. ---- */

static void tell_difference(const struct asked *asked)
{
    printf("DIFFERENCE: SEED %" PRIu64 " case %" PRIu64 ", library and %s\n", asked->seed, asked->number, asked->compared);
    tell_hex("list", asked->list, asked->list_length);
    tell_hex("text", asked->text, asked->text_length);
    printf("output of %zu bytes\n", asked->out_length);
    tell_answer("library", library.answer);
    tell_answer(asked->compared, other.answer);
    tell_first_byte_apart("output", "library", library.out, asked->compared, other.out, asked->out_length + GUARD);
    printf("\n");
}

/* ---- Comparing. ---- */

/* Everything that is lent is written anew, the answer too, with numbers that no call leaves behind. */
static void lend(const struct asked *asked, struct side *side)
{
    for (size_t i = 0; i < asked->out_length + GUARD; i++)
        side->out[i] = other_byte(asked->number, i);
    spoil(side->answer, 5 + GUARD);
}

static void link_by_library(const struct asked *asked)
{
    lend(asked, &library);
    turnip_link(asked->list, asked->list_length, asked->text, asked->text_length, library.out, asked->out_length,
                library.answer);
}

static void compare(const struct asked *asked)
{
    if (memcmp(library.answer, other.answer, sizeof other.answer) == 0 &&
        memcmp(library.out, other.out, asked->out_length + GUARD) == 0)
        return;
    if (++differences <= TOLD_AT_MOST)
        tell_difference(asked);
}

static void count(const uint32_t answer[5])
{
    count_answer(&answers, answer[TURNIP_NUMBER]);
    if (answer[TURNIP_NUMBER] == TURNIP_BADWORDS && answer[TURNIP_PLACE] <= WORDS_AT_MOST)
        seen_ranks[answer[TURNIP_PLACE]]++;
}

static void compare_with_twin(struct asked asked)
{
    asked.compared = "twin";
    link_by_library(&asked);
    lend(&asked, &other);
    twin_link(asked.list, asked.list_length, asked.text, asked.text_length, other.out, asked.out_length, other.answer);
    compare(&asked);
    count(other.answer);
}

/* What the library has just linked, where it has, is both the text and what is expected of it. */
static void compare_with_linked(struct asked asked)
{
    static uint8_t linked[OUT_ROOM];
    size_t length = library.answer[TURNIP_LENGTH];
    if (library.answer[TURNIP_NUMBER] != TURNIP_READ || length > asked.out_length)
        return;
    asked.compared = "what it linked";
    memcpy(linked, library.out, length);
    lend(&asked, &other);
    memcpy(other.out, linked, length);
    memcpy(other.answer, library.answer, sizeof other.answer);
    asked.text = linked;
    asked.text_length = length;
    link_by_library(&asked);
    compare(&asked);
}

static void compare_with_read(struct asked asked)
{
    asked.compared = "READ";
    asked.list = no_words;
    asked.list_length = sizeof no_words;
    link_by_library(&asked);
    lend(&asked, &other);
    turnip_read(asked.text, asked.text_length, other.out, asked.out_length, other.answer);
    if (other.answer[TURNIP_NUMBER] == TURNIP_OVERFULL)
        other.answer[TURNIP_PLACE] = 0;
    compare(&asked);
}

/* "A word's text or a plan text with annotations links as without them." */
static void compare_with_tidied(struct asked asked)
{
    static uint8_t tidied[OUT_ROOM];
    uint32_t read[5];
    turnip_read(asked.text, asked.text_length, tidied, sizeof tidied, read);
    if (read[TURNIP_NUMBER] != TURNIP_READ || read[TURNIP_LENGTH] == asked.text_length)
        return;
    asked.compared = "the tidied text";
    link_by_library(&asked);
    lend(&asked, &other);
    turnip_link(asked.list, asked.list_length, tidied, read[TURNIP_LENGTH], other.out, asked.out_length, other.answer);
    compare(&asked);
}

/* Of list and text that are linked, `{&` opens an annotation in each text that it stands in; no name holds a {. */
static void count_annotated(const struct asked *asked)
{
    if (other.answer[TURNIP_NUMBER] != TURNIP_READ)
        return;
    annotated_texts += opens_annotation(asked->text, asked->text_length);
    annotated_lists += opens_annotation(asked->list, asked->list_length);
}

/* How long the linked text is, if there is one, so that the output can be about as long. */
static size_t linked_length(void)
{
    static uint8_t out[PRINTED_AT_MOST];
    uint32_t answer[5];
    twin_link(list.bytes, list.length, text.bytes, text.length, out, sizeof out, answer);
    return answer[TURNIP_LENGTH];
}

static void compare_case(uint64_t seed, uint64_t number)
{
    struct draws draws = draws_for(seed, number);
    make_word_list(&draws, &list);
    make_text_to_link(&draws, &list, &text);
    struct asked asked = {
        .seed = seed, .number = number,
        .list = list.bytes, .list_length = list.length,
        .text = text.bytes, .text_length = text.length,
        .out_length = make_out_length(&draws, linked_length()),
    };
    compare_with_twin(asked);
    count_annotated(&asked);
    compare_with_linked(asked);
    compare_with_read(asked);
    compare_with_tidied(asked);
}

/* ---- What came up. ---- */

static void tell_all_seen(void)
{
    size_t ranks = 0;
    for (size_t rank = 0; rank <= WORDS_AT_MOST; rank++)
        ranks += seen_ranks[rank] > 0;
    tell_seen(&answers);
    printf(", at %zu ranks\n", ranks);
    printf("linked, with annotations: %lu texts, %lu lists\n", annotated_texts, annotated_lists);
}

/* Whether every answer has come up, and annotations have; answers that did not are told. */
static bool all_came_up(void)
{
    bool all = annotated_texts > 0 && annotated_lists > 0;
    return all_seen(&answers, possible) && all;
}

int main(int count, char **words)
{
    struct asked_cases asked = asked_cases(count, words);
    for (uint64_t number = 0; number < asked.count; number++)
        compare_case(asked.seed, number);
    tell_all_seen();
    bool enough = all_came_up() || asked.count < ALL_EXPECTED_FROM;
    bool longest = links_on_small_stack();
    printf("%" PRIu64 " cases, %" PRIu64 " differences\n", asked.count, differences);
    return differences == 0 && enough && longest ? 0 : 1;
}
