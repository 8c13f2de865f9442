/* Depth must cost no stack: READ and RUN are called on plans nested as deep as there are cells, on a thread that has 64 KiB.
   What is lent is static, so that the stack holds only what the calls need. The expected answers are counted by hand. */
#include "plan/nested.h"

#include <string.h>

#include "shared/small_stack.h"
#include "turnip.h"

enum { STACK_KIB = 64, CELLS = 4096, DEEPEST = 2 * CELLS };

static uint8_t text[DEEPEST + 8], out[DEEPEST + 8];
static uint32_t memory[4 * CELLS];

/* So many blocks, one in another, with something inside the innermost and something behind; the cells of all that; its run, and
   what is left. */
struct nest {
    size_t depth;
    const char *inside, *behind;
    uint32_t read_cells;
    uint32_t number, steps, cells, length;
};

static const struct nest nests[] = {
    {CELLS, "", "", CELLS, TURNIP_DONE, 0, CELLS, DEEPEST},
    {CELLS - 1, "d", "", CELLS, TURNIP_DONE, 0, CELLS, DEEPEST - 1},
    {CELLS - 2, "[]d", "", CELLS, TURNIP_DONE, 1, CELLS - 2, DEEPEST - 4},
    {CELLS - 1, "", "d", CELLS, TURNIP_DONE, 1, 0, 0},
    {CELLS / 2, "", "c", CELLS / 2 + 1, TURNIP_DONE, 1, CELLS, DEEPEST},
    {CELLS / 2, "{x}", "c", CELLS / 2 + 2, TURNIP_FULL, 0, CELLS / 2 + 2, CELLS + 4},
};

static size_t write_nest(const struct nest *nest)
{
    size_t inside = strlen(nest->inside), behind = strlen(nest->behind), depth = nest->depth;
    memset(text, '[', depth);
    memcpy(text + depth, nest->inside, inside);
    memset(text + depth + inside, ']', depth);
    memcpy(text + depth + inside + depth, nest->behind, behind);
    return depth + inside + depth + behind;
}

static bool runs_as_expected(const struct nest *nest)
{
    uint32_t answer[5];
    size_t length = write_nest(nest);
    turnip_read(text, length, out, sizeof out, answer);
    const uint32_t expected_read[5] = {TURNIP_READ, 0, nest->read_cells, (uint32_t)length, 0};
    bool read = memcmp(answer, expected_read, sizeof expected_read) == 0 && memcmp(out, text, length) == 0;
    turnip_run(text, length, 100, memory, 4 * CELLS, out, sizeof out, answer);
    const uint32_t expected[5] = {nest->number, nest->steps, nest->cells, nest->length, 0};
    return read && memcmp(answer, expected, sizeof expected) == 0;
}

static bool all_run_as_expected(void)
{
    bool all = true;
    for (size_t i = 0; i < sizeof nests / sizeof *nests; i++)
        if (!runs_as_expected(&nests[i]))
            all = false;
    return all;
}

bool nested_on_small_stack(void)
{
    return on_small_stack("nested 4096", STACK_KIB, all_run_as_expected);
}
