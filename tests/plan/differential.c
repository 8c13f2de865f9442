/* Compares the proved library with its twin over the C interface.

       differential SEED COUNT

   A case is one text, for which READ is called with an output of no bytes and with one about as long as the printed text, and
   then RUN, and compared: the five numbers, every byte of the outputs and a few behind them, and every number of the work
   memory, which is to be 0. READ is called with room for every plan too, and what it answers there and with no bytes is held to
   what an acceptable text is. One thing more is asked of the library alone: what READ writes holds no annotation, and RUN
   answers to it as to the text. The first difference is told and ends the program with status 1; SEED and case give it again.
   At last a plan nested to the limit is run on a small stack. Status 0: there were no differences, and of 100,000 cases or more
   each call has given every answer that it can give, and texts with annotations were accepted and refused. */
#include <inttypes.h>
#include <stdbool.h>
#include <stdio.h>
#include <stdlib.h>
#include <string.h>

#include "plan/generator.h"
#include "plan/nested.h"
#include "plan/twin.h"
#include "shared/answers.h"
#include "shared/lent.h"
#include "shared/telling.h"
#include "turnip.h"

enum { ALL_EXPECTED_FROM = 100000 };

/* The services READ and RUN; what READ gives with an output of no bytes is counted apart. */
enum call { READ_NO_BYTES, READ, RUN, CALLS };

/* The answers that each call can give: with an output of no bytes 3 is for the empty plan. */
static const uint8_t possible[CALLS][20] = {
    [READ_NO_BYTES] = {TURNIP_READ, TURNIP_TOOLONG, TURNIP_BADBYTE, TURNIP_UNMATCHED, TURNIP_UNCLOSED, TURNIP_OVERFULL,
                       TURNIP_OUTSHORT, TURNIP_EMPTYTOKEN, TURNIP_LONGTOKEN, TURNIP_BADUTF8, TURNIP_FORBIDDEN,
                       TURNIP_INNERBRACE, END_OF_NUMBERS},
    [READ] = {TURNIP_READ, TURNIP_TOOLONG, TURNIP_BADBYTE, TURNIP_UNMATCHED, TURNIP_UNCLOSED, TURNIP_OVERFULL,
              TURNIP_OUTSHORT, TURNIP_EMPTYTOKEN, TURNIP_LONGTOKEN, TURNIP_BADUTF8, TURNIP_FORBIDDEN, TURNIP_INNERBRACE,
              END_OF_NUMBERS},
    [RUN] = {TURNIP_DONE, TURNIP_QUOTA, TURNIP_FULL, TURNIP_TOOLONG, TURNIP_BADARENA, TURNIP_BADBYTE, TURNIP_UNMATCHED,
             TURNIP_UNCLOSED, TURNIP_OVERFULL, TURNIP_OUTSHORT, TURNIP_EMPTYTOKEN, TURNIP_LONGTOKEN, TURNIP_BADUTF8,
             TURNIP_FORBIDDEN, TURNIP_INNERBRACE, END_OF_NUMBERS},
};

static struct answers answers[CALLS] = {
    [READ_NO_BYTES] = {.call = "READ with an output of no bytes"}, [READ] = {.call = "READ"}, [RUN] = {.call = "RUN"}};
static struct text text;
static uint32_t memory[MEMORY_ROOM + GUARD];
static uint8_t our_out[OUT_ROOM + GUARD], twin_out[OUT_ROOM + GUARD];
static unsigned long annotated[2]; /* texts that hold `{&`: those that are not acceptable, and those that are */
static uint64_t rewrites, most_rewrites;

/* READ of the text with room for every printed text. */
static struct {
    uint8_t out[OUT_ROOM];
    uint32_t answer[5];
} ample;

struct numbered_case {
    uint64_t seed;
    uint64_t number;
    uint32_t quota;
    size_t memory_length;
    size_t out_length;
    uint32_t salt; /* what memory and output hold before a call depends on this */
    bool tidied;   /* what READ writes is given, not the text itself */
};

static void tell_difference(const struct numbered_case *made, enum call call, const char *what, const uint32_t ours[5],
                            const uint32_t twins[5])
{
    printf("DIFFERENCE in the %s: SEED %" PRIu64 " case %" PRIu64 ", %s%s\n", what, made->seed, made->number,
           answers[call].call, made->tidied ? " of the tidied text" : "");
    printf("quota %" PRIu32 ", memory %zu numbers, output %zu bytes\n", made->quota, made->memory_length, made->out_length);
    tell_hex("text", text.bytes, text.length);
    tell_answer("library", ours);
    tell_answer("twin", twins);
    exit(1);
}

static void count(enum call call, const uint32_t answer[5])
{
    count_answer(&answers[call], answer[TURNIP_NUMBER]);
    rewrites += answer[TURNIP_STEPS];
    if (answer[TURNIP_STEPS] > most_rewrites)
        most_rewrites = answer[TURNIP_STEPS];
}

static void fill_output(const struct numbered_case *made, uint8_t *out)
{
    for (size_t i = 0; i < made->out_length + GUARD; i++)
        out[i] = other_byte(made->salt, i);
}

static void fill_memory(const struct numbered_case *made)
{
    for (size_t i = 0; i < made->memory_length + GUARD; i++)
        memory[i] = other_number(made->salt, i);
}

static bool memory_as_promised(const struct numbered_case *made)
{
    for (size_t i = 0; i < made->memory_length; i++)
        if (memory[i] != 0)
            return false;
    for (size_t i = made->memory_length; i < made->memory_length + GUARD; i++)
        if (memory[i] != other_number(made->salt, i))
            return false;
    return true;
}

static void compare(const struct numbered_case *made, enum call call, const uint32_t ours[5], const uint32_t twins[5])
{
    if (memcmp(ours, twins, 5 * sizeof *ours) != 0)
        tell_difference(made, call, "five numbers", ours, twins);
    if (memcmp(our_out, twin_out, made->out_length + GUARD) != 0)
        tell_difference(made, call, "output", ours, twins);
    if (call == RUN && !memory_as_promised(made))
        tell_difference(made, call, "work memory", ours, twins);
}

static void compare_read(const struct numbered_case *made, enum call call, const struct twin_result *result, uint32_t ours[5])
{
    uint32_t twins[5];
    fill_output(made, our_out);
    fill_output(made, twin_out);
    spoil(ours, 5);
    turnip_read(text.bytes, text.length, our_out, made->out_length, ours);
    twin_write(result, twin_out, made->out_length, twins);
    compare(made, call, ours, twins);
    count(call, ours);
}

/* "An output of no bytes gives OUTSHORT and the bytes needed, unless the plan is empty. A text is acceptable when nothing but
   OUTSHORT could refuse it": so an acceptable text is read where there is room for every plan, and one that is not is refused
   alike with that room and with none. Whether it is, the twin has said before an output was asked about, so that its own
   OUTSHORT has no part in this. */
static void compare_acceptable(struct numbered_case made, const struct twin_result *result, const uint32_t no_bytes[5])
{
    bool acceptable = result->number == TURNIP_READ;
    const uint32_t anyway[5] = {result->number, 0, result->cells, (uint32_t)result->length, result->place};
    const uint32_t needed[5] = {[TURNIP_NUMBER] = TURNIP_OUTSHORT, [TURNIP_PLACE] = (uint32_t)result->length};
    const uint32_t *expected = acceptable && result->cells > 0 ? needed : anyway;
    if (memcmp(no_bytes, expected, sizeof needed) != 0)
        tell_difference(&made, READ_NO_BYTES, "bytes needed, or the refusal", no_bytes, expected);

    made.out_length = sizeof ample.out;
    spoil(ample.answer, 5);
    turnip_read(text.bytes, text.length, ample.out, made.out_length, ample.answer);
    if (memcmp(ample.answer, anyway, sizeof anyway) != 0)
        tell_difference(&made, READ, "answer with room for every plan", ample.answer, anyway);
}

static void read_text(struct draws *draws, struct numbered_case *made, const struct twin_result *result)
{
    uint32_t ours[5];
    made->out_length = 0;
    compare_read(made, READ_NO_BYTES, result, ours);
    compare_acceptable(*made, result, ours);
    made->out_length = make_out_length(draws, result->length);
    compare_read(made, READ, result, ours);
}

/* The twin's run, and quota and memory of it: of a run that ends by itself, often one at the edge of its quota. */
static struct twin_result twin_run_drawn(struct draws *draws, struct numbered_case *made, size_t cells)
{
    made->quota = make_quota(draws, cells);
    size_t most = cells;
    if (below(draws, 3) == 0) {
        struct twin_result trial = twin_run(text.bytes, text.length, made->quota, 4 * CELLS_AT_MOST);
        most = trial.most;
        twin_free(&trial);
    }
    made->memory_length = make_memory_length(draws, cells, most);
    struct twin_result result = twin_run(text.bytes, text.length, made->quota, made->memory_length);
    bool by_itself = result.number == TURNIP_DONE || result.number == TURNIP_FULL;
    if (by_itself && below(draws, 3) == 0) {
        made->quota = edge_quota(draws, result.steps);
        twin_free(&result);
        result = twin_run(text.bytes, text.length, made->quota, made->memory_length);
    }
    return result;
}

static void library_run(const struct numbered_case *made, const uint8_t *bytes, size_t length, uint32_t ours[5])
{
    fill_output(made, our_out);
    fill_memory(made);
    spoil(ours, 5);
    turnip_run(bytes, length, made->quota, memory, made->memory_length, our_out, made->out_length, ours);
}

/* "A token whose text starts with `&` ... means nothing": what READ writes of an accepted text holds none, and RUN answers to
   it as it did to the text, except for OVERFULL's place, which is one in what is given. */
static void run_tidied(struct numbered_case made, const uint32_t of_text[5])
{
    uint32_t ours[5];
    size_t length = ample.answer[TURNIP_LENGTH];
    if (ample.answer[TURNIP_NUMBER] != TURNIP_READ)
        return;
    if (opens_annotation(ample.out, length))
        tell_difference(&made, READ, "annotations, of which READ wrote one", ample.answer, ample.answer);
    if (length == text.length)
        return;
    made.tidied = true;
    library_run(&made, ample.out, length, ours);
    if (ours[TURNIP_NUMBER] == TURNIP_OVERFULL)
        ours[TURNIP_PLACE] = of_text[TURNIP_PLACE];
    compare(&made, RUN, ours, of_text);
}

static void run(struct draws *draws, struct numbered_case *made, size_t cells)
{
    uint32_t ours[5], twins[5];
    struct twin_result result = twin_run_drawn(draws, made, cells);
    made->out_length = make_out_length(draws, result.length);
    fill_output(made, twin_out);
    twin_write(&result, twin_out, made->out_length, twins);
    twin_free(&result);
    library_run(made, text.bytes, text.length, ours);
    compare(made, RUN, ours, twins);
    count(RUN, ours);
    run_tidied(*made, ours);
}

static void compare_case(uint64_t seed, uint64_t number)
{
    struct draws draws = draws_for(seed, number);
    struct numbered_case made = {.seed = seed, .number = number, .salt = (uint32_t)number};
    make_text(&draws, &text);
    struct twin_result result = twin_read(text.bytes, text.length);
    if (opens_annotation(text.bytes, text.length))
        annotated[result.number == TURNIP_READ]++;
    read_text(&draws, &made, &result);
    run(&draws, &made, result.cells);
    twin_free(&result);
}

static void tell_all_seen(void)
{
    for (int call = 0; call < CALLS; call++) {
        tell_seen(&answers[call]);
        printf("\n");
    }
    printf("annotations in %lu texts that were accepted, and {& in %lu that were refused\n", annotated[1], annotated[0]);
    printf("rewrites %" PRIu64 ", at most %" PRIu64 " in one run\n", rewrites, most_rewrites);
}

/* Whether every answer has come up, and annotations have; answers that did not are told. */
static bool all_came_up(void)
{
    bool all = annotated[0] > 0 && annotated[1] > 0;
    for (int call = 0; call < CALLS; call++)
        all = all_seen(&answers[call], possible[call]) && all;
    return all;
}

int main(int count, char **words)
{
    struct asked_cases asked = asked_cases(count, words);
    for (uint64_t number = 0; number < asked.count; number++)
        compare_case(asked.seed, number);
    tell_all_seen();
    bool enough = all_came_up() || asked.count < ALL_EXPECTED_FROM;
    printf("SEED %" PRIu64 " COUNT %" PRIu64 " cases, 0 differences\n", asked.seed, asked.count);
    return nested_on_small_stack() && enough ? 0 : 1;
}
