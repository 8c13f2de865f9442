/* Runs LINK on each line of a list of cases, and compares all that it leaves with what the line expects.

       vectors LIST

   A line is `link LIST TEXT OUTLEN = NUMBER STEPS CELLS LENGTH PLACE OUT`, in the form of shared/cases.h. The five numbers are
   compared, OUT at the start of the output, and every other byte of it, which is to be as it was; so are a few behind. A line
   that differs is pointed out by its number. Status 0: there were cases, and no differences. */
#include <inttypes.h>
#include <stdbool.h>
#include <stdlib.h>
#include <string.h>

#include "shared/cases.h"
#include "shared/lent.h"
#include "shared/telling.h"
#include "turnip.h"

/* The words of a line. */
enum { KIND, LIST, TEXT, OUT_LENGTH, EQUALS, ANSWER, OUT = ANSWER + 5, WORDS };

/* An output that has room for no more than is said of it, and the answer. */
struct side {
    uint8_t *out;
    uint32_t answer[5 + GUARD];
};

static struct side lend(size_t out_length, uint64_t salt)
{
    struct side side = {.out = malloc(out_length + GUARD)};
    if (side.out == NULL) {
        fputs("vectors: no memory left\n", stderr);
        exit(2);
    }
    for (size_t i = 0; i < out_length + GUARD; i++)
        side.out[i] = other_byte(salt, i);
    spoil(side.answer, 5 + GUARD);
    return side;
}

/* What the line expects to be left. */
static struct side expected_by(const struct case_line *line, size_t out_length)
{
    struct side side = lend(out_length, line->number);
    struct case_bytes out = case_bytes(line, OUT, 0);
    case_numbers(line, ANSWER, side.answer, 5);
    if (out.length > out_length)
        wrong_case(line, "the output that is expected is longer than the one lent");
    memcpy(side.out, out.start, out.length);
    free(out.start);
    return side;
}

static bool same(const struct side *library, const struct side *expected, size_t out_length)
{
    return memcmp(library->answer, expected->answer, sizeof expected->answer) == 0 &&
           memcmp(library->out, expected->out, out_length + GUARD) == 0;
}

static void tell_difference(const struct case_line *line, const struct side *library, const struct side *expected,
                            size_t out_length)
{
    printf("%s, line %zu differs\n", line->file, line->number);
    tell_answer("library", library->answer);
    tell_answer("expected", expected->answer);
    tell_first_byte_apart("output", "library", library->out, "expected", expected->out, out_length + GUARD);
}

/* Whether the library does what the line expects. */
static bool run_case(const struct case_line *line, bool tell)
{
    want_words(line, WORDS);
    if (strcmp(line->words[KIND], "link") != 0 || strcmp(line->words[EQUALS], "=") != 0)
        wrong_case(line, "this is no case of link");
    size_t out_length = (size_t)case_number(line, OUT_LENGTH);
    struct case_bytes list = case_bytes(line, LIST, 0), text = case_bytes(line, TEXT, 0);
    struct side library = lend(out_length, line->number), expected = expected_by(line, out_length);
    turnip_link(list.start, list.length, text.start, text.length, library.out, out_length, library.answer);
    bool as_expected = same(&library, &expected, out_length);
    if (!as_expected && tell)
        tell_difference(line, &library, &expected, out_length);
    free(list.start), free(text.start), free(library.out), free(expected.out);
    return as_expected;
}

int main(int count, char **words)
{
    if (count != 2) {
        fputs("usage: vectors LIST\n", stderr);
        return 2;
    }
    uint64_t cases = 0, differences = 0;
    for (struct case_line line = open_cases(words[1]); next_case(&line); cases++)
        if (!run_case(&line, differences < TOLD_AT_MOST))
            differences++;
    printf("link %" PRIu64 " cases, %" PRIu64 " differences\n", cases, differences);
    return cases > 0 && differences == 0 ? 0 : 1;
}
