/* Runs the four calls over a roll on each line of a list of cases, and compares all that they leave with what the line expects.

       vectors LIST

   A line is one of these, in the form of shared/cases.h:

       roll_read ROLL LISTLEN = NUMBER ENTRIES FILED DONE PLACE PLACES
       roll_entry ROLL AT = NUMBER JOBPLACE JOBLENGTH TEXTPLACE TEXTLENGTH
       roll_file BUFFER USED FILED DONE JOB TEXT = NUMBER ENTRIES FILED DONE PLACE FILED' DONE' AT WRITTEN
       roll_done BUFFER USED FILED DONE JOB = NUMBER ENTRIES FILED DONE PLACE FILED' DONE' AT WRITTEN

   PLACES are the numbers at the front of the list, with commas, `-` for none; FILED and DONE before the `=` are the tally lent,
   FILED' and DONE' the tally afterwards; the buffer afterwards is BUFFER with the bytes WRITTEN at AT. The roll or buffer is
   lent at just its length. Compared are the five numbers, every byte of the roll or buffer, every number of the list and the
   tally, and a few of each behind. A line that differs is pointed out by its number. Status 0: there were cases of each kind,
   and no differences. */
#include <inttypes.h>
#include <stdbool.h>
#include <stdlib.h>
#include <string.h>

#include "shared/cases.h"
#include "shared/lent.h"
#include "shared/telling.h"
#include "turnip.h"

enum kind { READING, ONE_ENTRY, ADDING_FILED, ADDING_DONE, KINDS };

/* The words of a line. The roll or buffer is the first behind the kind in all of them. */
enum { KIND, ROLL };
enum { LIST_LENGTH = 2, PLACES = 9 };
enum { ENTRY_AT = 2 };
enum { USED = 2, TALLY = 3, JOB = 5, FILED_TEXT = 6 };

/* Of each kind: its name, its words, and which of them is the `=`, with the answer behind it. */
static const struct {
    const char *name;
    size_t words, equals;
} kinds[KINDS] = {
    [READING] = {"roll_read", 10, 3},
    [ONE_ENTRY] = {"roll_entry", 9, 3},
    [ADDING_FILED] = {"roll_file", 17, 7},
    [ADDING_DONE] = {"roll_done", 16, 6},
};

/* Behind the `=` of a line that adds. */
enum { TALLY_AFTER = 6, WRITTEN_AT = 8, WRITTEN = 9 };

/* What is lent, and what is answered. */
struct side {
    struct case_bytes roll; /* so long, and GUARD bytes behind */
    uint32_t *list;
    size_t list_length;
    uint32_t tally[2 + GUARD], answer[5 + GUARD];
};

static enum kind kind_of(const struct case_line *line)
{
    for (int kind = 0; kind < KINDS; kind++) {
        if (strcmp(line->words[KIND], kinds[kind].name) == 0) {
            want_words(line, kinds[kind].words);
            if (strcmp(line->words[kinds[kind].equals], "=") != 0)
                wrong_case(line, "the = is not where it must be");
            return (enum kind)kind;
        }
    }
    wrong_case(line, "this is no case of a roll");
}

static struct side lend(const struct case_line *line, enum kind kind)
{
    struct side side = {.roll = case_bytes(line, ROLL, GUARD)};
    side.list_length = kind == READING ? (size_t)case_number(line, LIST_LENGTH) : 0;
    side.list = malloc((side.list_length + GUARD) * sizeof *side.list);
    if (side.list == NULL) {
        fputs("vectors: no memory left\n", stderr);
        exit(2);
    }
    for (size_t i = 0; i < GUARD; i++)
        side.roll.start[side.roll.length + i] = other_byte(line->number, i);
    for (size_t i = 0; i < side.list_length + GUARD; i++)
        side.list[i] = other_number(line->number, i);
    for (size_t i = 0; i < 2 + GUARD; i++)
        side.tally[i] = other_number(line->number, i);
    if (kind >= ADDING_FILED)
        case_numbers(line, TALLY, side.tally, 2);
    spoil(side.answer, 5 + GUARD);
    return side;
}

/* ---- What the line expects. ---- */

static void expect_places(const struct case_line *line, struct side *side)
{
    const char *at = strcmp(line->words[PLACES], "-") == 0 ? "" : line->words[PLACES];
    for (size_t i = 0; *at != '\0'; i++) {
        char *end;
        if (i == side->list_length)
            wrong_case(line, "there are more places than the list that is lent holds");
        side->list[i] = (uint32_t)strtoul(at, &end, 10);
        if (end == at || (*end != ',' && *end != '\0'))
            wrong_case(line, "the places are no numbers with commas");
        at = *end == ',' ? end + 1 : end;
    }
}

static void expect_written(const struct case_line *line, size_t equals, struct side *side)
{
    struct case_bytes written = case_bytes(line, equals + WRITTEN, 0);
    size_t at = (size_t)case_number(line, equals + WRITTEN_AT);
    if (written.length > side->roll.length || at > side->roll.length - written.length)
        wrong_case(line, "more is written than the buffer holds");
    memcpy(side->roll.start + at, written.start, written.length);
    case_numbers(line, equals + TALLY_AFTER, side->tally, 2);
    free(written.start);
}

static struct side expected_by(const struct case_line *line, enum kind kind)
{
    struct side side = lend(line, kind);
    case_numbers(line, kinds[kind].equals + 1, side.answer, 5);
    if (kind == READING)
        expect_places(line, &side);
    if (kind >= ADDING_FILED)
        expect_written(line, kinds[kind].equals, &side);
    return side;
}

/* ---- What the library does. ---- */

static void add(const struct case_line *line, enum kind kind, struct side *side)
{
    size_t used = (size_t)case_number(line, USED);
    struct case_bytes job = case_bytes(line, JOB, 0);
    if (kind == ADDING_FILED) {
        struct case_bytes text = case_bytes(line, FILED_TEXT, 0);
        turnip_roll_file(side->roll.start, side->roll.length, used, job.start, job.length, text.start, text.length, side->tally,
                         side->answer);
        free(text.start);
    } else {
        turnip_roll_done(side->roll.start, side->roll.length, used, job.start, job.length, side->tally, side->answer);
    }
    free(job.start);
}

static struct side done_by_library(const struct case_line *line, enum kind kind)
{
    struct side side = lend(line, kind);
    if (kind == READING)
        turnip_roll_read(side.roll.start, side.roll.length, side.list, side.list_length, side.answer);
    else if (kind == ONE_ENTRY)
        turnip_roll_entry(side.roll.start, side.roll.length, (size_t)case_number(line, ENTRY_AT), side.answer);
    else
        add(line, kind, &side);
    return side;
}

/* ---- Comparing. ---- */

static bool same(const struct side *library, const struct side *expected)
{
    return memcmp(library->answer, expected->answer, sizeof expected->answer) == 0 &&
           memcmp(library->tally, expected->tally, sizeof expected->tally) == 0 &&
           memcmp(library->roll.start, expected->roll.start, expected->roll.length + GUARD) == 0 &&
           memcmp(library->list, expected->list, (expected->list_length + GUARD) * sizeof *expected->list) == 0;
}

static void tell_difference(const struct case_line *line, const struct side *library, const struct side *expected)
{
    printf("%s, line %zu differs\n", line->file, line->number);
    tell_answer("library", library->answer);
    tell_answer("expected", expected->answer);
    tell_first_number_apart("tally", "library", library->tally, "expected", expected->tally, 2 + GUARD);
    tell_first_number_apart("list", "library", library->list, "expected", expected->list, expected->list_length + GUARD);
    tell_first_byte_apart("roll", "library", library->roll.start, "expected", expected->roll.start,
                          expected->roll.length + GUARD);
}

/* Whether the library does what the line expects. */
static bool run_case(const struct case_line *line, enum kind kind, bool tell)
{
    struct side library = done_by_library(line, kind), expected = expected_by(line, kind);
    bool as_expected = same(&library, &expected);
    if (!as_expected && tell)
        tell_difference(line, &library, &expected);
    free(library.roll.start), free(library.list), free(expected.roll.start), free(expected.list);
    return as_expected;
}

int main(int count, char **words)
{
    if (count != 2) {
        fputs("usage: vectors LIST\n", stderr);
        return 2;
    }
    uint64_t cases[KINDS] = {0}, differences = 0;
    for (struct case_line line = open_cases(words[1]); next_case(&line);) {
        enum kind kind = kind_of(&line);
        cases[kind]++;
        if (!run_case(&line, kind, differences < TOLD_AT_MOST))
            differences++;
    }
    bool each = true;
    for (int kind = 0; kind < KINDS; kind++) {
        printf("%s %" PRIu64 " cases, ", kinds[kind].name, cases[kind]);
        each = each && cases[kind] > 0;
    }
    printf("%" PRIu64 " differences\n", differences);
    return each && differences == 0 ? 0 : 1;
}
