/* How long the library takes to link, beside plain C that makes the same checks: by lists that double with each word, by a
   chain of words each in a block of the next, and by one word that is used 4,096 times. There are two plain linkers, which
   remember the cells and the length of each word. One writes a word by walking its text each time that it is used; the other
   copies what it wrote the first time. All, and the twin, first give their answers, of list and text whole, cut and spoilt,
   and they must be the same. At last comes the worst list that we know, which is linked once by each but the twin. Nothing
   here gates. */
#include <inttypes.h>
#include <stdbool.h>
#include <stdio.h>
#include <stdlib.h>
#include <string.h>

#include "shared/answers.h"
#include "shared/bytes.h"
#include "shared/clock.h"
#include "shared/plain_token.h"
#include "turnip.h"
#include "words/generator.h"
#include "words/twin.h"

enum { MOST_WORDS = 256, MOST_CELLS = 4096, MOST_BYTES = 1048576, TOKEN_BYTES = 64, NAME_BYTES = 61 };
enum { LINKERS = 4, TIMED = 3, SHAPES = 9, USES = 4096, PRINTED = TOKEN_BYTES * MOST_CELLS };

/* Rounds go from linker to linker in turn and the best of them counts, so that other work beside them meets all alike. */
enum { ROUNDS = 3 };

static const double LEAST_SECONDS = 0.1;

typedef void link_function(const uint8_t *, size_t, const uint8_t *, size_t, uint8_t *, size_t, uint32_t *);

/* ---- Plain C: texts. ---- */

/* What a text is: the number of its refusal, 0 where there is none of 11, 13, 15, 16 and 21 to 25, its place, and its cells. */
struct survey {
    uint32_t number;
    size_t place;
    size_t cells;
};

/* The bytes of the token at the start of these; 0 where there is none: its first fault is then told, and the place moved on. */
static size_t survey_token(struct survey *survey, const uint8_t *bytes, size_t left)
{
    struct plain_token token = plain_token(bytes, left);

    survey->number = token.fault;
    survey->place += token.at;
    return token.length;
}

/* Whether a blank or an allowed annotation starts here. */
static bool means_nothing(const uint8_t *bytes)
{
    return bytes[0] == ' ' || bytes[0] == '\n' || (bytes[0] == '{' && bytes[1] == '&');
}

/* The bytes of what starts here, 0 where it is refused. */
static size_t survey_item(struct survey *survey, const uint8_t *bytes, size_t left, size_t *depth)
{
    size_t width = 1;

    switch (bytes[0]) {
    case ' ': case '\n':
        return 1;
    case ']':
        survey->number = *depth == 0 ? TURNIP_UNMATCHED : 0;
        return (*depth)-- > 0;
    case '{':
        width = survey_token(survey, bytes, left);
        if (width == 0 || means_nothing(bytes))
            return width;
        break;
    case '[':
        ++*depth;
        break;
    case 'a': case 'b': case 'c': case 'd':
        break;
    default:
        survey->number = TURNIP_BADBYTE;
        return 0;
    }
    survey->cells++;
    return width;
}

static struct survey survey_text(const uint8_t *text, size_t length)
{
    struct survey survey = {0, 0, 0};
    size_t depth = 0;

    if (length > MOST_BYTES)
        return (struct survey){TURNIP_TOOLONG, 0, 0};
    for (size_t at = 0; at < length;) {
        survey.place = at;
        size_t width = survey_item(&survey, text + at, length - at, &depth);
        if (width == 0)
            return survey;
        at += width;
    }
    survey.place = length;
    survey.number = depth > 0 ? TURNIP_UNCLOSED : 0;
    return survey;
}

/* ---- Plain C: words. ---- */

struct word {
    struct bytes name, text;
    size_t cells, length; /* of the linked plan; a word of too many cells has no length */
    size_t at;            /* where it was written first; PRINTED as long as it was not */
};

struct linker {
    struct word words[MOST_WORDS];
    size_t count;
    uint8_t *out;
    size_t written;
    bool copying;
};

/* The rank of a name; the count where it is not listed. */
static size_t rank_of(const struct linker *linker, const uint8_t *name, size_t length)
{
    size_t rank = 0;

    while (rank < linker->count && !(linker->words[rank].name.length == length &&
                                     memcmp(linker->words[rank].name.start, name, length) == 0))
        rank++;
    return rank;
}

static bool is_name(const uint8_t *name, size_t length)
{
    uint8_t token[TOKEN_BYTES] = "{%";

    if (length == 0 || length > NAME_BYTES)
        return false;
    memcpy(token + 2, name, length);
    token[length + 2] = '}';
    return plain_token(token, length + 3).length == length + 3;
}

/* Whether the next word is there, and nothing is wrong with it alone and beside the names before it. */
static bool take_word(struct linker *linker, struct bytes list, size_t *at)
{
    struct word *word = &linker->words[linker->count];

    if (!take_counted(list, at, &word->name) || !take_counted(list, at, &word->text))
        return false;
    if (!is_name(word->name.start, word->name.length) ||
        rank_of(linker, word->name.start, word->name.length) < linker->count)
        return false;
    struct survey survey = survey_text(word->text.start, word->text.length);
    if (survey.number != 0 || survey.cells > MOST_CELLS)
        return false;
    word->at = PRINTED;
    linker->count++;
    return true;
}

/* The rank of the word that the token at these bytes uses, the count where it is none; and the token's bytes. */
static size_t used_rank(const struct linker *linker, const uint8_t *token, size_t left, size_t *width)
{
    *width = (size_t)((const uint8_t *)memchr(token, '}', left) - token) + 1;
    return token[1] == '%' ? rank_of(linker, token + 2, *width - 3) : linker->count;
}

/* Adds up what a surveyed text is linked to, where the words that it uses have been measured; false where it uses one of this
   rank or a larger one, the least of which is then told. */
static bool measure(const struct linker *linker, const uint8_t *text, size_t text_length, size_t rank, struct word *sum,
                  size_t *fault)
{
    size_t width, least = linker->count;

    sum->cells = sum->length = 0;
    for (size_t at = 0; at < text_length; at += width) {
        size_t used = linker->count;
        width = 1;
        if (text[at] == '{')
            used = used_rank(linker, text + at, text_length - at, &width);
        if (used < linker->count && used >= rank && used < least)
            least = used;
        if (sum->cells > MOST_CELLS || means_nothing(text + at))
            continue;
        sum->cells += used < rank ? linker->words[used].cells : text[at] != ']';
        sum->length += used < rank ? linker->words[used].length : width;
    }
    *fault = least;
    return least == linker->count;
}

/* Takes and measures all words; false where the list is refused, at the least rank at fault. */
static bool take_words(struct linker *linker, const uint8_t *list, size_t list_length, size_t *fault)
{
    size_t at = 4, count = list_length < 4 ? 0 : number_at(list), used;

    linker->count = 0;
    *fault = count < MOST_WORDS ? count : MOST_WORDS;
    if (list_length < 4 || count > MOST_WORDS)
        return false;
    while (linker->count < count && take_word(linker, (struct bytes){list, list_length}, &at))
        ;
    bool refused = linker->count < count || at < list_length;
    if (linker->count < count)
        *fault = linker->count;
    for (size_t rank = 0; rank < linker->count; rank++) {
        struct word *word = &linker->words[rank];
        if (!measure(linker, word->text.start, word->text.length, rank, word, &used)) {
            *fault = used < *fault ? used : *fault;
            refused = true;
        }
    }
    return !refused;
}

/* ---- Plain C: linking. ---- */

static void write_text(struct linker *linker, const uint8_t *text, size_t length);

/* A word that is linked to nothing is not entered, as else a list that doubles would never end. */
static void write_word(struct linker *linker, struct word *word)
{
    if (word->length == 0)
        return;
    if (linker->copying && word->at < PRINTED) {
        memcpy(linker->out + linker->written, linker->out + word->at, word->length);
        linker->written += word->length;
        return;
    }
    word->at = linker->written;
    write_text(linker, word->text.start, word->text.length);
}

static void write_text(struct linker *linker, const uint8_t *text, size_t length)
{
    size_t width;

    for (size_t at = 0; at < length; at += width) {
        size_t used = linker->count;
        width = 1;
        if (text[at] == '{')
            used = used_rank(linker, text + at, length - at, &width);
        if (used < linker->count) {
            write_word(linker, &linker->words[used]);
        } else if (!means_nothing(text + at)) {
            memcpy(linker->out + linker->written, text + at, width);
            linker->written += width;
        }
    }
}

static void link_plainly(struct linker *linker, const uint8_t *list, size_t list_length, const uint8_t *text,
                         size_t text_length, size_t out_length, uint32_t *answer)
{
    struct survey survey;
    struct word whole;
    size_t fault;

    if (!take_words(linker, list, list_length, &fault)) {
        put_answer(answer, TURNIP_BADWORDS, 0, 0, 0, fault);
        return;
    }
    survey = survey_text(text, text_length);
    if (survey.number != 0) {
        put_answer(answer, survey.number, 0, 0, 0, survey.place);
        return;
    }
    measure(linker, text, text_length, linker->count, &whole, &fault);
    if (whole.cells > MOST_CELLS) {
        put_answer(answer, TURNIP_OVERFULL, 0, 0, 0, 0);
    } else if (whole.length > out_length) {
        put_answer(answer, TURNIP_OUTSHORT, 0, 0, 0, whole.length);
    } else {
        write_text(linker, text, text_length);
        put_answer(answer, TURNIP_READ, 0, whole.cells, whole.length, 0);
    }
}

static void link_walking(const uint8_t *list, size_t list_length, const uint8_t *text, size_t text_length, uint8_t *out,
                         size_t out_length, uint32_t *answer)
{
    static struct linker linker;

    linker.out = out;
    linker.written = 0;
    linker.copying = false;
    link_plainly(&linker, list, list_length, text, text_length, out_length, answer);
}

static void link_copying(const uint8_t *list, size_t list_length, const uint8_t *text, size_t text_length, uint8_t *out,
                         size_t out_length, uint32_t *answer)
{
    static struct linker linker;

    linker.out = out;
    linker.written = 0;
    linker.copying = true;
    link_plainly(&linker, list, list_length, text, text_length, out_length, answer);
}

/* ---- The shapes. ---- */

struct input {
    uint8_t *list, *text;
    size_t list_length, length;
};

/* A list, as growing_list makes it; how often the text uses its last word; and what this must answer. After those that are
   asked for come four that tell what a use costs: to find its word, to go through other words to it, and to pass its blanks
   again, or an annotation. */
static const struct shape {
    const char *name;
    size_t words, uses, blocks, blanks; /* blanks: before the first word's text */
    const char *first, *behind;
    size_t times;
    uint32_t number, cells;
} shapes[SHAPES] = {
    {"256 words that double `a`", MOST_WORDS, 2, 0, 0, "a", "", 1, TURNIP_OVERFULL, 0},
    {"256 words that double nothing", MOST_WORDS, 2, 0, 0, "", "", 1, TURNIP_READ, 0},
    {"13 words that double `a`", 13, 2, 0, 0, "a", "", 1, TURNIP_READ, MOST_CELLS},
    {"256 words, each in a block of the next", MOST_WORDS, 1, 1, 0, "a", "", 1, TURNIP_READ, MOST_WORDS},
    {"4,096 uses of one word", 1, 0, 0, 0, "a", "", USES, TURNIP_READ, USES},
    {"4,096 uses of the last of 256 words", MOST_WORDS, 0, 0, 0, "a", "a", USES, TURNIP_READ, USES},
    {"4,096 uses of the last of 16 words, each the next", 16, 1, 0, 0, "a", "", USES, TURNIP_READ, USES},
    {"4,096 uses of one word with 4,096 blanks", 1, 0, 0, 4096, "a", "", USES, TURNIP_READ, USES},
    {"4,096 uses of one word with an annotation", 1, 0, 0, 0, "{&jit}a", "", USES, TURNIP_READ, USES},
};

static struct input shaped_input(const struct shape *shape)
{
    static char first[2 * USES];
    static struct word_list list;
    static uint8_t text[8 * USES];
    size_t length = 0;

    memset(first, ' ', shape->blanks);
    strcpy(first + shape->blanks, shape->first);
    growing_list(&list, shape->words, shape->uses, shape->blocks, first, shape->behind);
    for (size_t use = 0; use < shape->times; use++)
        length += use_last_word(&list, text + length);
    return (struct input){list.bytes, text, list.length, length};
}

/* The worst list that we know. A token is compared with each name until one is it, and names of one length byte by byte. So all
   names have 61 bytes and differ in the last three only, no token's name is listed, and each word has as many tokens as it may
   have cells, and so has the text. */
static const struct shape worst = {
    .name = "255 words of 4,096 tokens, all names alike up to their last three bytes",
    .words = 255, .number = TURNIP_READ, .cells = MOST_CELLS};

static uint8_t *put_name(uint8_t *to, size_t end)
{
    char digits[8];

    snprintf(digits, sizeof digits, "%03zu", end);
    memset(to, 'n', NAME_BYTES - 3);
    memcpy(to + NAME_BYTES - 3, digits, 3);
    return to + NAME_BYTES;
}

/* As many tokens as a plan may have cells, of a name that no word has. */
static uint8_t *put_tokens(uint8_t *to)
{
    for (size_t token = 0; token < MOST_CELLS; token++) {
        memcpy(to, "{%", 2);
        to = put_name(to + 2, 999);
        *to++ = '}';
    }
    return to;
}

static struct input worst_input(void)
{
    struct input input = {.list_length = NUMBER_BYTES + worst.words * (2 * NUMBER_BYTES + NAME_BYTES + PRINTED), .length = PRINTED};

    input.list = need(malloc(input.list_length));
    input.text = need(malloc(input.length));
    put_tokens(input.text);
    uint8_t *to = write_number(input.list, worst.words);
    for (size_t rank = 0; rank < worst.words; rank++) {
        to = put_name(write_number(to, NAME_BYTES), rank);
        to = put_tokens(write_number(to, PRINTED));
    }
    return input;
}

/* ---- All linkers must answer alike. ---- */

static const struct {
    const char *name;
    link_function *link;
} linkers[LINKERS] = {
    {"library", turnip_link}, {"plain C", link_walking}, {"plain C, copying", link_copying}, {"twin", twin_link},
};

/* What a call leaves. */
struct outcome {
    uint32_t answer[5];
    uint8_t out[PRINTED];
};

static struct outcome outcomes[LINKERS];

static void check_same(int linker)
{
    if (memcmp(&outcomes[linker], &outcomes[0], sizeof outcomes[0]) != 0) {
        fprintf(stderr, "benchmark: %s and %s answer differently\n", linkers[0].name, linkers[linker].name);
        exit(1);
    }
}

static void check_as_said(const struct shape *shape)
{
    if (outcomes[0].answer[TURNIP_NUMBER] != shape->number || outcomes[0].answer[TURNIP_CELLS] != shape->cells) {
        fprintf(stderr, "benchmark: not as expected: %s\n", shape->name);
        exit(1);
    }
}

static void agree(const struct input *input, size_t list_length, size_t text_length, size_t out_length)
{
    for (int l = 0; l < LINKERS; l++) {
        memset(&outcomes[l], 0xA5, sizeof outcomes[l]);
        linkers[l].link(input->list, list_length, input->text, text_length, outcomes[l].out, out_length, outcomes[l].answer);
        check_same(l);
    }
}

/* With too short an output, cut in the list and in the text, with the last word spoilt; and at last whole, which must be as the
   shape says. */
static void agree_around(struct input *input, const struct shape *shape)
{
    size_t length = input->list_length;
    uint8_t last = input->list[length - 1];

    agree(input, length, input->length, shape->cells == 0 ? 0 : shape->cells - 1);
    agree(input, length - 1, input->length, PRINTED);
    agree(input, length / 2, input->length, PRINTED);
    agree(input, length, input->length - 1, PRINTED);
    input->list[length - 1] = ']';
    agree(input, length, input->length, PRINTED);
    input->list[length - 1] = last;
    agree(input, length, input->length, PRINTED);
    check_as_said(shape);
}

/* ---- Timing. ---- */

/* What is timed; what a call leaves goes to the linker's outcome. */
struct timed {
    int linker;
    const struct input *input;
};

static void call_timed(const void *what)
{
    const struct timed *timed = what;
    const struct input *input = timed->input;
    struct outcome *outcome = &outcomes[timed->linker];

    linkers[timed->linker].link(input->list, input->list_length, input->text, input->length, outcome->out, PRINTED,
                                outcome->answer);
}

static void one_round(const struct input *input, double least, int round, double best[TIMED])
{
    for (int l = 0; l < TIMED; l++) {
        struct timed timed = {l, input};

        keep_best(&best[l], seconds_a_call(call_timed, &timed, least, round), round);
    }
}

static void print_row(const struct input *input, const struct shape *shape, const double best[TIMED])
{
    printf("| %s | %zu | %" PRIu32 " |", shape->name, input->list_length + input->length, shape->number);
    for (int l = 0; l < TIMED; l++)
        printf(" %.2f |", best[l] * 1e6);
    for (int l = 1; l < TIMED; l++)
        printf(" %.2f |", best[0] / best[l]);
    printf("\n");
}

/* One call by each linker, since it takes seconds; what they leave must be the same. */
static void measure_worst(void)
{
    struct input input = worst_input();
    double best[TIMED];

    memset(outcomes, 0xA5, sizeof outcomes);
    one_round(&input, 0, 0, best);
    for (int l = 0; l < TIMED; l++)
        check_same(l);
    check_as_said(&worst);
    print_row(&input, &worst, best);
    free(input.list), free(input.text);
}

int main(void)
{
    double best[TIMED];

    printf("Microseconds to link once:\n\n"
           "| List and text | Bytes of both | Answer | library | plain C | plain C, copying | library / plain "
           "| library / copying |\n"
           "|---|---|---|---|---|---|---|---|\n");
    for (int shape = 0; shape < SHAPES; shape++) {
        struct input input = shaped_input(&shapes[shape]);
        agree_around(&input, &shapes[shape]);
        for (int round = 0; round < ROUNDS; round++)
            one_round(&input, LEAST_SECONDS, round, best);
        print_row(&input, &shapes[shape], best);
        fflush(stdout);
    }
    measure_worst();
    return 0;
}
