/* How many rewrites a second RUN makes, beside the independent implementation (the twin) and beside a plain C engine of the
   same design (the arena): four shapes of plan at four sizes each, so that growth shows. Each engine first gives its answers
   on each input, and they must be the same. What is timed is a whole call, reading, printing and clearing among it; a call
   with quota 0, which makes no rewrite, is timed beside it so that a reader can subtract. Nothing here gates. */
#include <inttypes.h>
#include <stdio.h>
#include <stdlib.h>
#include <string.h>

#include "plan/arena.h"
#include "plan/twin.h"
#include "shared/clock.h"
#include "turnip.h"

enum { MOST_CELLS = 4096, TEXT_ROOM = 65536, OUT_ROOM = 64 * MOST_CELLS, ENGINES = 3, SHAPES = 4, SIZES = 4 };

/* Rounds go from engine to engine in turn and the best of them counts, so that other work on the machine meets all alike. */
enum { ROUNDS = 5 };

static const double FULL_SECONDS = 0.3, IDLE_SECONDS = 0.05;

typedef void run_function(const uint8_t *, size_t, uint32_t, uint32_t *, size_t, uint8_t *, size_t, uint32_t *);

/* The twin holds its plan on the heap, and takes only the length of the memory. */
static void run_twin(const uint8_t *text, size_t text_length, uint32_t quota, uint32_t *memory, size_t memory_length,
                     uint8_t *out, size_t out_length, uint32_t *answer)
{
    struct twin_result result = twin_run(text, text_length, quota, memory_length);

    (void)memory;
    twin_write(&result, out, out_length, answer);
    twin_free(&result);
}

static const struct engine {
    const char *name;
    run_function *run;
} engines[ENGINES] = {{"RUN", turnip_run}, {"twin", run_twin}, {"arena", arena_run}};

/* A plan to run: its text, and the cells that are lent for it. */
struct input {
    uint32_t cells;
    size_t length;
    uint8_t text[TEXT_ROOM];
};

/* What a call leaves. */
struct outcome {
    uint32_t answer[5];
    uint32_t memory[4 * MOST_CELLS];
    uint8_t out[OUT_ROOM];
};

static const uint32_t sizes[SIZES] = {64, 256, 1024, 4096};

/* ---- The four shapes. ---- */

static void put(struct input *input, const char *piece, uint32_t times)
{
    size_t length = strlen(piece);

    for (; 0 < times; times--) {
        if (TEXT_ROOM < input->length + length) {
            fprintf(stderr, "benchmark: a text is longer than its room\n");
            exit(2);
        }
        memcpy(input->text + input->length, piece, length);
        input->length += length;
    }
}

/* P8 of document 01, 8 cells and 4 rewrites of three kinds, so often that it fills the cells. */
static void small_rewrites(struct input *input)
{
    put(input, "[{x}][][]baad", input->cells / 8);
}

/* A block of 3 cells is doubled, as [[A]A], until it has three eighths of the cells; then it is copied whole 8 times, and
   each copy dropped. The most cells at any time are three quarters of those lent, and 15 more. */
static void large_copies(struct input *input)
{
    uint32_t doublings = 0;

    while (3u << (doublings + 1) <= 3 * input->cells / 8)
        doublings++;
    put(input, "[{x}{y}]", 1);
    put(input, "cb", doublings);
    put(input, "cd", 8);
}

/* Half of the cells are blocks, each inside the one before; the innermost holds the rewrites of the first shape. */
static void deep_nesting(struct input *input)
{
    put(input, "[", input->cells / 2);
    put(input, "[{x}][][]baad", input->cells / 16);
    put(input, "]", input->cells / 2);
}

/* The first shape with annotations before, between and behind its items and at depth: they are no cells, and its rewrites are the
   same. */
static void annotated_rewrites(struct input *input)
{
    put(input, "{&}[{x}{&log}][{&}][]{&jit}ba{&a}ad{&jit}", input->cells / 8);
}

static const struct shape {
    const char *name;
    void (*write)(struct input *);
} shapes[SHAPES] = {{"small rewrites", small_rewrites},
                    {"large copies", large_copies},
                    {"deep nesting", deep_nesting},
                    {"annotated rewrites", annotated_rewrites}};

/* ---- All engines must answer alike. ---- */

static void call(const struct engine *engine, const struct input *input, uint32_t quota, struct outcome *outcome)
{
    engine->run(input->text, input->length, quota, outcome->memory, 4 * input->cells, outcome->out, OUT_ROOM,
                outcome->answer);
}

/* The steps of a run to its end, once the engines have given the same numbers and the same output for this quota. */
static uint32_t agreed_steps(const struct input *input, uint32_t quota)
{
    static struct outcome outcomes[ENGINES];

    for (int e = 0; e < ENGINES; e++) {
        memset(&outcomes[e], 0xA5, sizeof outcomes[e]);
        call(&engines[e], input, quota, &outcomes[e]);
        if (memcmp(outcomes[e].answer, outcomes[0].answer, sizeof outcomes[e].answer) != 0 ||
            memcmp(outcomes[e].out, outcomes[0].out, OUT_ROOM) != 0) {
            fprintf(stderr, "benchmark: %s and %s answer differently\n", engines[0].name, engines[e].name);
            exit(1);
        }
    }
    return outcomes[0].answer[TURNIP_STEPS];
}

/* The steps to DONE, with the answers compared at quota 0, half-way and at the end. */
static uint32_t steps_to_done(const struct input *input)
{
    uint32_t steps = agreed_steps(input, UINT32_MAX);

    agreed_steps(input, 0);
    agreed_steps(input, steps / 2);
    return steps;
}

/* ---- Timing. ---- */

/* What is timed. */
struct timed {
    const struct engine *engine;
    const struct input *input;
    uint32_t quota;
};

static void call_timed(const void *what)
{
    static struct outcome outcome;
    const struct timed *timed = what;

    call(timed->engine, timed->input, timed->quota, &outcome);
}

/* The rewrites of a run, and for each engine the best time over all rounds: of a whole run, and of a call with quota 0. */
struct result {
    uint32_t steps;
    double full[ENGINES];
    double idle[ENGINES];
};

static void one_round(const struct input *input, int round, struct result *best)
{
    for (int e = 0; e < ENGINES; e++) {
        struct timed full = {&engines[e], input, UINT32_MAX}, idle = {&engines[e], input, 0};

        keep_best(&best->full[e], seconds_a_call(call_timed, &full, FULL_SECONDS, round), round);
        keep_best(&best->idle[e], seconds_a_call(call_timed, &idle, IDLE_SECONDS, round), round);
    }
}

static struct result measure(const struct input *input)
{
    struct result best = {.steps = steps_to_done(input)};

    for (int round = 0; round < ROUNDS; round++)
        one_round(input, round, &best);
    return best;
}

static void print_rates(const struct result *result)
{
    for (int e = 0; e < ENGINES; e++)
        printf(" %.0f |", result->steps / result->full[e] / 1e3);
    for (int e = 1; e < ENGINES; e++)
        printf(" %.2f |", result->full[e] / result->full[0]);
}

static void print_times(const struct result *result)
{
    for (int e = 0; e < ENGINES; e++)
        printf(" %.2f |", result->full[e] * 1e6);
    for (int e = 0; e < ENGINES; e++)
        printf(" %.2f |", result->idle[e] * 1e6);
}

/* What a rewrite costs with its hunt: a call with quota 0 reads, prints and clears as the run does, near enough. */
static void print_costs(const struct result *result)
{
    for (int e = 0; e < ENGINES; e++)
        printf(" %.0f |", (result->full[e] - result->idle[e]) / result->steps * 1e9);
}

static void print_table(const char *head, struct result results[SHAPES][SIZES], void (*print)(const struct result *))
{
    printf("%s\n", head);
    for (int shape = 0; shape < SHAPES; shape++) {
        for (int size = 0; size < SIZES; size++) {
            printf("| %s | %" PRIu32 " | %" PRIu32 " |", shapes[shape].name, sizes[size], results[shape][size].steps);
            print(&results[shape][size]);
            printf("\n");
        }
    }
}

int main(void)
{
    static struct input input;
    static struct result results[SHAPES][SIZES];

    for (int shape = 0; shape < SHAPES; shape++) {
        for (int size = 0; size < SIZES; size++) {
            input.cells = sizes[size];
            input.length = 0;
            shapes[shape].write(&input);
            results[shape][size] = measure(&input);
        }
    }
    print_table("Thousands of rewrites a second, of whole calls:\n\n"
                "| Shape | Cells lent | Rewrites | RUN | twin | arena | RUN / twin | RUN / arena |\n"
                "|---|---|---|---|---|---|---|---|",
                results, print_rates);
    print_table("\nMicroseconds a call, and those of a call with quota 0:\n\n"
                "| Shape | Cells lent | Rewrites | RUN | twin | arena | RUN, quota 0 | twin, quota 0 | arena, quota 0 |\n"
                "|---|---|---|---|---|---|---|---|---|",
                results, print_times);
    print_table("\nNanoseconds a rewrite, with the calls with quota 0 subtracted:\n\n"
                "| Shape | Cells lent | Rewrites | RUN | twin | arena |\n"
                "|---|---|---|---|---|---|",
                results, print_costs);
    return 0;
}
