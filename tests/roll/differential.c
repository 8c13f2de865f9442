/* Compares the proved roll with its twin over the C interface.

       differential SEED COUNT

   A case is one roll. It is read, one entry of it is asked for, a FILED is added to it, and a DONE. Library and twin are called
   on copies of the same roll or buffer, list and tally, and compared: the five numbers, every byte, every number, and a few of
   each behind what was lent. The first few differences are told in full. Then come the longest rolls (longest.h). Status 0:
   there were no differences, and of 100,000 cases or more each call has given every answer that it can give, and texts and
   entries with an annotation were refused. */
#include <inttypes.h>
#include <stdbool.h>
#include <stdio.h>
#include <stdlib.h>
#include <string.h>

#include "plan/twin.h"
#include "roll/generator.h"
#include "roll/longest.h"
#include "roll/twin.h"
#include "shared/answers.h"
#include "shared/lent.h"
#include "shared/telling.h"
#include "turnip.h"

enum { ALL_EXPECTED_FROM = 100000 };

enum call { READING, ONE_ENTRY, ADDING_FILED, ADDING_DONE, CALLS };

/* The answers that each call can give, 11 left out: its roll is too long to draw, and stands in longest.c. */
static const uint8_t possible[CALLS][9] = {
    [READING] = {ROLL_READ, ROLL_BADROLL, ROLL_MOREENTRIES, END_OF_NUMBERS},
    [ONE_ENTRY] = {ROLL_READ, ROLL_NOENTRY, END_OF_NUMBERS},
    [ADDING_FILED] = {ROLL_READ, ROLL_BADROLL, ROLL_BADJOB, ROLL_BADTEXT, ROLL_ALREADYDONE, ROLL_NOROOM, END_OF_NUMBERS},
    [ADDING_DONE] = {ROLL_READ, ROLL_BADROLL, ROLL_BADJOB, ROLL_ALREADYDONE, ROLL_UNFILED, ROLL_UNFINISHED, ROLL_NOROOM,
                     END_OF_NUMBERS},
};

/* What one side is lent, and what it answers. */
struct side {
    uint8_t buffer[BUFFER_ROOM + GUARD];
    uint32_t list[LIST_ROOM + GUARD];
    uint32_t tally[2 + GUARD];
    uint32_t answer[5 + GUARD];
};

/* What is asked in a case, besides the roll; a call takes what it has a parameter for. */
struct asked {
    uint64_t seed;
    uint64_t number;
    enum call call;
    size_t length; /* of the roll read, or of the buffer lent */
    size_t list_length;
    size_t at;
    size_t used;
    struct job job;
    uint32_t tally[2];
};

static struct roll roll;
static struct text text;
static struct side library, twin;
static struct answers answers[CALLS] = {
    [READING] = {.call = "read"}, [ONE_ENTRY] = {.call = "entry"}, [ADDING_FILED] = {.call = "file"},
    [ADDING_DONE] = {.call = "done"}};
static unsigned long annotated_texts, annotated_entries; /* that were refused, though the text is acceptable */
static uint64_t differences;

/* ---- Telling. ---- */

static void tell_arguments(const struct asked *asked, const uint8_t *lent)
{
    tell_hex(asked->call < ADDING_FILED ? "roll" : "buffer", lent, asked->length);
    if (asked->call == READING)
        printf("list of %zu\n", asked->list_length);
    if (asked->call == ONE_ENTRY)
        printf("at %zu\n", asked->at);
    if (asked->call < ADDING_FILED)
        return;
    printf("used %zu, tally %" PRIu32 " %" PRIu32 "\n", asked->used, asked->tally[0], asked->tally[1]);
    tell_hex("job", asked->job.bytes, asked->job.length);
    if (asked->call == ADDING_FILED)
        tell_hex("text", text.bytes, text.length);
}

static void tell_side(const char *whose, const struct asked *asked, const struct side *side)
{
    tell_numbers(whose, side->answer);
    if (asked->call >= ADDING_FILED)
        printf(", tally %" PRIu32 " %" PRIu32, side->tally[0], side->tally[1]);
    printf("\n");
}

/* ---- Comparing. ---- */

/* The byte of a roll or buffer before a call: the roll, what a cut left behind it, and then other bytes. */
static uint8_t byte_before(const struct asked *asked, size_t at)
{
    return at < roll.extent ? roll.bytes[at] : other_byte(asked->number, at);
}

/* Everything that is lent is written anew, the answer too, with numbers that no call leaves behind. */
static void lend(const struct asked *asked, struct side *side)
{
    for (size_t i = 0; i < asked->length + GUARD; i++)
        side->buffer[i] = byte_before(asked, i);
    for (size_t i = 0; i < asked->list_length + GUARD; i++)
        side->list[i] = other_number(asked->number, i);
    for (size_t i = 0; i < 2 + GUARD; i++)
        side->tally[i] = i < 2 ? asked->tally[i] : other_number(asked->number, i);
    spoil(side->answer, 5 + GUARD);
}

static bool same(const struct asked *asked)
{
    return memcmp(library.answer, twin.answer, sizeof twin.answer) == 0 &&
           memcmp(library.buffer, twin.buffer, asked->length + GUARD) == 0 &&
           memcmp(library.list, twin.list, (asked->list_length + GUARD) * sizeof *twin.list) == 0 &&
           memcmp(library.tally, twin.tally, sizeof twin.tally) == 0;
}

static void compare(const struct asked *asked)
{
    static struct side before;
    count_answer(&answers[asked->call], twin.answer[0]);
    if (same(asked))
        return;
    if (++differences > TOLD_AT_MOST)
        return;
    lend(asked, &before);
    printf("DIFFERENCE: SEED %" PRIu64 " case %" PRIu64 ", %s\n", asked->seed, asked->number, answers[asked->call].call);
    tell_arguments(asked, before.buffer);
    tell_side("library", asked, &library);
    tell_side("twin", asked, &twin);
    tell_first_byte_apart("roll", "library", library.buffer, "twin", twin.buffer, asked->length + GUARD);
    tell_first_number_apart("list", "library", library.list, "twin", twin.list, asked->list_length + GUARD);
    printf("\n");
}

/* ---- The four calls. ---- */

static void compare_reading(struct draws *draws, struct asked *asked, size_t entries)
{
    asked->call = READING;
    asked->length = roll.length;
    asked->list_length = make_list_length(draws, entries);
    lend(asked, &library);
    lend(asked, &twin);
    turnip_roll_read(library.buffer, asked->length, library.list, asked->list_length, library.answer);
    twin_roll_read(twin.buffer, asked->length, twin.list, asked->list_length, twin.answer);
    compare(asked);
}

static void compare_entry(struct draws *draws, struct asked *asked)
{
    asked->call = ONE_ENTRY;
    asked->length = roll.length;
    asked->list_length = 0;
    asked->at = make_entry_place(draws, &roll);
    lend(asked, &library);
    lend(asked, &twin);
    turnip_roll_entry(library.buffer, asked->length, asked->at, library.answer);
    twin_roll_entry(twin.buffer, asked->length, asked->at, twin.answer);
    compare(asked);
}

static void compare_filed(const struct asked *asked)
{
    const struct job *job = &asked->job;
    lend(asked, &library);
    lend(asked, &twin);
    turnip_roll_file(library.buffer, asked->length, asked->used, job->bytes, job->length, text.bytes, text.length,
                     library.tally, library.answer);
    twin_roll_file(twin.buffer, asked->length, asked->used, job->bytes, job->length, text.bytes, text.length, twin.tally,
                   twin.answer);
    compare(asked);
}

static void compare_done(const struct asked *asked)
{
    const struct job *job = &asked->job;
    lend(asked, &library);
    lend(asked, &twin);
    turnip_roll_done(library.buffer, asked->length, asked->used, job->bytes, job->length, library.tally, library.answer);
    twin_roll_done(twin.buffer, asked->length, asked->used, job->bytes, job->length, twin.tally, twin.answer);
    compare(asked);
}

/* What the twin says of the first so many bytes of the roll: entries, jobs filed, jobs done, end. Where they do not read, these
   are zeros and, for want of an end, so many bytes. */
static void look(size_t length, uint32_t answer[5])
{
    static uint32_t places[LIST_ROOM];
    twin_roll_read(roll.bytes, length, places, LIST_ROOM, answer);
    if (answer[0] != ROLL_READ)
        answer[4] = (uint32_t)length;
}

/* A job, a text for a FILED, the bytes in use, and a buffer and a tally around the edges that these give. */
static void draw_adding(struct draws *draws, struct asked *asked, enum call call)
{
    uint32_t told[5];
    asked->call = call;
    asked->list_length = 0;
    make_job(draws, &roll, &asked->job);
    if (call == ADDING_FILED)
        make_filed_text(draws, &text);
    asked->used = make_used(draws, &roll);
    size_t known = asked->used < roll.extent ? asked->used : roll.extent;
    look(known, told);
    size_t new_end = (told[4] == 0 ? 1 : told[4]) + 8 + asked->job.length;
    if (call == ADDING_FILED)
        new_end += 4 + text.length;
    asked->length = make_room(draws, known, new_end);
    make_tally(draws, told + 2, asked->tally);
}

static bool accepted_with_annotation(const uint8_t *bytes, size_t length)
{
    struct twin_result read = twin_read(bytes, length);
    twin_free(&read);
    return read.number == TURNIP_READ && opens_annotation(bytes, length);
}

/* The roll has been read: where an entry of it is at fault that has a text, this is looked at. */
static void count_annotated_entry(void)
{
    uint32_t entry[5];
    if (twin.answer[0] != ROLL_BADROLL)
        return;
    twin_roll_entry(roll.bytes, roll.length, twin.answer[4], entry);
    annotated_entries += accepted_with_annotation(roll.bytes + entry[TURNIP_ENTRY_TEXT], entry[TURNIP_ENTRY_TEXT_BYTES]);
}

static void count_annotated_text(void)
{
    annotated_texts += twin.answer[0] == ROLL_BADTEXT && accepted_with_annotation(text.bytes, text.length);
}

static void compare_case(uint64_t seed, uint64_t number)
{
    struct draws draws = draws_for(seed, number);
    struct asked asked = {.seed = seed, .number = number};
    uint32_t told[5];
    make_roll(&draws, &roll);
    look(roll.length, told);
    compare_reading(&draws, &asked, told[1]);
    count_annotated_entry();
    compare_entry(&draws, &asked);
    draw_adding(&draws, &asked, ADDING_FILED);
    compare_filed(&asked);
    count_annotated_text();
    draw_adding(&draws, &asked, ADDING_DONE);
    compare_done(&asked);
}

/* ---- What came up. ---- */

static void tell_all_seen(void)
{
    for (int call = 0; call < CALLS; call++) {
        tell_seen(&answers[call]);
        printf("\n");
    }
    printf("refused, with an annotation: %lu texts, %lu entries\n", annotated_texts, annotated_entries);
}

/* Whether every call gave every answer that it can give, and annotations came up; answers that it did not give are told. */
static bool all_came_up(void)
{
    bool all = annotated_texts > 0 && annotated_entries > 0;
    for (int call = 0; call < CALLS; call++)
        all = all_seen(&answers[call], possible[call]) && all;
    return all;
}

int main(int count, char **words)
{
    struct asked_cases asked = asked_cases(count, words);
    for (uint64_t number = 0; number < asked.count; number++)
        compare_case(asked.seed, number);
    tell_all_seen();
    bool enough = all_came_up() || asked.count < ALL_EXPECTED_FROM;
    differences += longest_differences();
    printf("%" PRIu64 " cases, %" PRIu64 " differences\n", asked.count, differences);
    return differences == 0 && enough ? 0 : 1;
}
