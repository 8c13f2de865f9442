/* A plain C engine of the same design as the proved one, for the benchmark to compare with: what a proof costs or saves at
   run time shows only against code that does the same work. Four numbers a cell: port 2i is the start of cell i and 2i + 1
   its close; the datum of port p stands at 2p and its link at 2p + 1. All ports of a plan stand in one chain in the order of
   the printed text; the outermost sequence is the inside of cell N, which is not lent, so the link of its start is kept
   beside the memory. Each step hunts from the outermost start, and a rewrite moves links. */
#include "plan/arena.h"

#include <string.h>

#include "shared/plain_token.h"
#include "turnip.h"

enum { TEXT_LIMIT = 1048576, CELL_LIMIT = 4096 };

/* The first number of a cell. */
enum { KIND_A = 0, KIND_B = 1, KIND_C = 2, KIND_D = 3, TOKEN_KIND = 4, BLOCK_KIND = 5 };

/* A plan in the memory: the cell that is not lent, the first port of the outermost sequence, the first free cell. */
struct plan {
    uint32_t *memory;
    uint32_t outer;
    uint32_t first;
    uint32_t free;
};

/* Where a plan, or a copy, is being built: the last port so far and the innermost open block. */
struct build {
    uint32_t tail;
    uint32_t opened;
};

/* A ready operator: its kind, the port that links to the first of its blocks, its blocks and itself. */
struct spot {
    uint32_t kind;
    uint32_t before;
    uint32_t older;
    uint32_t newer;
    uint32_t operator;
};

/* What reading found: a refusal with its place, or number 0 and the cells. */
struct survey {
    uint32_t number;
    uint32_t place;
    uint32_t cells;
};

static inline uint32_t start_of(uint32_t cell)
{
    return 2 * cell;
}

static inline uint32_t close_of(uint32_t cell)
{
    return 2 * cell + 1;
}

static inline uint32_t link_of(const struct plan *plan, uint32_t port)
{
    return port == start_of(plan->outer) ? plan->first : plan->memory[2 * port + 1];
}

static inline void set_link(struct plan *plan, uint32_t port, uint32_t to)
{
    if (port == start_of(plan->outer))
        plan->first = to;
    else
        plan->memory[2 * port + 1] = to;
}

/* ---- Reading: the text is looked over first, and a plan is built only of an accepted one. ---- */

/* No item: the number of the fault is told, and its place is moved on to it. */
static uint32_t refuse(struct survey *fault, uint32_t number, uint32_t bytes)
{
    fault->number = number;
    fault->place += bytes;
    return 0;
}

/* The bytes of the token that a `{` opens; 0 where it opens no allowed one, and its first fault. */
static uint32_t token_length(const uint8_t *bytes, size_t left, struct survey *fault)
{
    struct plain_token token = plain_token(bytes, left);

    return token.length == 0 ? refuse(fault, token.fault, (uint32_t)token.at) : (uint32_t)token.length;
}

/* Whether the allowed token at the front of these bytes means nothing. */
static int is_annotation(const uint8_t *token)
{
    return token[1] == '&';
}

/* The bytes of the item, close, blank or annotation at the front of `left` bytes, and what its cell would hold; 0 for a fault. */
static uint32_t piece(const uint8_t *bytes, size_t left, uint32_t *kind, struct survey *fault)
{
    enum { NO_ITEM = 6 };
    uint32_t length;

    switch (bytes[0]) {
    case 'a': case 'b': case 'c': case 'd':
        *kind = bytes[0] - 'a';
        return 1;
    case '[':
        *kind = BLOCK_KIND;
        return 1;
    case '{':
        length = token_length(bytes, left, fault);
        *kind = length == 0 || is_annotation(bytes) ? NO_ITEM : TOKEN_KIND;
        return length;
    case ']': case ' ': case '\n':
        *kind = NO_ITEM;
        return 1;
    default:
        *kind = NO_ITEM;
        return refuse(fault, TURNIP_BADBYTE, 0);
    }
}

/* Counting goes on past the room for cells, since the faults of the text come before a plan that is too large. */
static struct survey look_over(const uint8_t *text, size_t len, uint32_t room)
{
    struct survey found = {0, 0, 0};
    uint32_t depth = 0, past = 0, kind, width;

    for (uint32_t at = 0; at < len; at += width) {
        struct survey fault = {0, at, 0};
        width = piece(text + at, len - at, &kind, &fault);
        if (width == 0)
            return fault;
        if (kind <= BLOCK_KIND) {
            if (found.cells == room)
                past = at;
            found.cells++;
            depth += kind == BLOCK_KIND;
        } else if (text[at] == ']') {
            if (depth == 0)
                return (struct survey){TURNIP_UNMATCHED, at, 0};
            depth--;
        }
    }
    if (0 < depth)
        return (struct survey){TURNIP_UNCLOSED, (uint32_t)len, 0};
    if (room < found.cells)
        return (struct survey){TURNIP_OVERFULL, past, 0};
    return found;
}

/* ---- Building: each item takes the first free cell and is linked behind the tail; a free cell's start links on. ---- */

static uint32_t append(struct plan *plan, struct build *build, uint32_t kind)
{
    uint32_t cell = plan->free;

    plan->free = plan->memory[4 * cell + 1];
    plan->memory[4 * cell] = kind;
    set_link(plan, build->tail, start_of(cell));
    build->tail = start_of(cell);
    return cell;
}

static void put_token(struct plan *plan, struct build *build, uint32_t place, uint32_t length)
{
    uint32_t cell = append(plan, build, TOKEN_KIND);

    plan->memory[4 * cell + 2] = place;
    plan->memory[4 * cell + 3] = length;
}

/* The close of an open block keeps the block around it, so depth costs no stack. */
static void open_block(struct plan *plan, struct build *build)
{
    uint32_t cell = append(plan, build, BLOCK_KIND);

    plan->memory[4 * cell + 3] = build->opened;
    build->opened = cell;
}

static void close_block(struct plan *plan, struct build *build)
{
    uint32_t closed = build->opened;

    build->opened = plan->memory[4 * closed + 3];
    set_link(plan, build->tail, close_of(closed));
    build->tail = close_of(closed);
}

static struct plan build_plan(const uint8_t *text, size_t len, uint32_t *memory, uint32_t outer)
{
    struct plan plan = {memory, outer, close_of(outer), 0};
    struct build build = {start_of(outer), outer};
    uint32_t width;

    for (uint32_t cell = 0; cell < outer; cell++)
        memory[4 * cell + 1] = cell + 1;
    for (uint32_t at = 0; at < len; at += width) {
        width = 1;
        if ('a' <= text[at] && text[at] <= 'd') {
            append(&plan, &build, text[at] - 'a');
        } else if (text[at] == '[') {
            open_block(&plan, &build);
        } else if (text[at] == ']') {
            close_block(&plan, &build);
        } else if (text[at] == '{') {
            while (text[at + width] != '}')
                width++;
            width++;
            if (!is_annotation(text + at))
                put_token(&plan, &build, at, width);
        }
    }
    set_link(&plan, build.tail, close_of(outer));
    return plan;
}

/* ---- The hunt for the next ready operator. ---- */

/* Whether the operator of this kind is ready: an odd port is a block's close, so the last two ports tell. */
static inline int ready(uint32_t kind, uint32_t last, uint32_t second)
{
    if (kind <= KIND_B)
        return last % 2 == 1 && second % 2 == 1;
    return kind <= KIND_D && last % 2 == 1;
}

/* The leftmost ready operator of the sequence inside a cell, past the insides of its blocks by their closes. */
static int scan(const struct plan *plan, uint32_t sequence, struct spot *spot)
{
    uint32_t third = start_of(sequence), second = third, last = third;

    for (uint32_t at; (at = link_of(plan, last)) != close_of(sequence);) {
        uint32_t kind = plan->memory[2 * at];

        if (ready(kind, last, second)) {
            spot->kind = kind;
            spot->before = kind <= KIND_B ? third : second;
            spot->older = second / 2;
            spot->newer = last / 2;
            spot->operator = at / 2;
            return 1;
        }
        third = second;
        second = last;
        last = kind == BLOCK_KIND ? at + 1 : at;
    }
    return 0;
}

static int opens(const struct plan *plan, uint32_t port)
{
    if (port % 2 == 1)
        return 0;
    return port == start_of(plan->outer) || plan->memory[2 * port] == BLOCK_KIND;
}

/* The order of document 01 looks into the sequences as their `[` come. */
static int hunt(const struct plan *plan, struct spot *spot)
{
    uint32_t end = close_of(plan->outer);

    for (uint32_t port = start_of(plan->outer); port != end; port = link_of(plan, port))
        if (opens(plan, port) && scan(plan, port / 2, spot))
            return 1;
    return 0;
}

/* ---- The four rewrites. ---- */

static uint32_t block_cells(const struct plan *plan, uint32_t block)
{
    uint32_t count = 0;

    for (uint32_t port = link_of(plan, start_of(block)); port != close_of(block); port = link_of(plan, port))
        count += port % 2 == 0;
    return count;
}

/* Lets a port link to what stands behind another one. */
static void cut(struct plan *plan, uint32_t after, uint32_t last)
{
    set_link(plan, after, link_of(plan, last));
}

static void put_in(struct plan *plan, uint32_t after, uint32_t head, uint32_t tail)
{
    set_link(plan, tail, link_of(plan, after));
    set_link(plan, after, head);
}

static void move_block(struct plan *plan, uint32_t before, uint32_t block, uint32_t after)
{
    cut(plan, before, close_of(block));
    put_in(plan, after, start_of(block), close_of(block));
}

static void release(struct plan *plan, uint32_t cell)
{
    plan->memory[4 * cell + 1] = plan->free;
    plan->free = cell;
}

/* The older block goes behind the contents of the newer one, which is opened. */
static void rule_a(struct plan *plan, const struct spot *spot)
{
    uint32_t last = start_of(spot->newer);

    for (uint32_t next; (next = link_of(plan, last)) != close_of(spot->newer);)
        last = next;
    move_block(plan, spot->before, spot->older, last);
    cut(plan, close_of(spot->older), close_of(spot->newer));
    cut(plan, spot->before, start_of(spot->newer));
    release(plan, spot->newer);
}

/* The older block goes before the contents of the newer one. */
static void rule_b(struct plan *plan, const struct spot *spot)
{
    move_block(plan, spot->before, spot->older, start_of(spot->newer));
}

/* A copy of the block goes behind it: for each port of its contents the like of it is put. */
static void rule_c(struct plan *plan, const struct spot *spot)
{
    uint32_t *memory = plan->memory;
    uint32_t copy = plan->free;
    struct build build = {start_of(copy), copy};

    plan->free = memory[4 * copy + 1];
    memory[4 * copy] = BLOCK_KIND;
    for (uint32_t port = link_of(plan, start_of(spot->newer)); port != close_of(spot->newer); port = link_of(plan, port)) {
        if (port % 2 == 1)
            close_block(plan, &build);
        else if (memory[2 * port] == BLOCK_KIND)
            open_block(plan, &build);
        else if (memory[2 * port] == TOKEN_KIND)
            put_token(plan, &build, memory[2 * port + 2], memory[2 * port + 3]);
        else
            append(plan, &build, memory[2 * port]);
    }
    set_link(plan, build.tail, close_of(copy));
    put_in(plan, close_of(spot->newer), start_of(copy), close_of(copy));
}

/* The block leaves the plan. A free cell's start links to the next free one, so the way on is read first. */
static void rule_d(struct plan *plan, const struct spot *spot)
{
    uint32_t next;

    cut(plan, spot->before, close_of(spot->newer));
    for (uint32_t at = start_of(spot->newer); at != close_of(spot->newer); at = next) {
        next = link_of(plan, at);
        if (at % 2 == 0)
            release(plan, at / 2);
    }
}

static void rewrite(struct plan *plan, const struct spot *spot)
{
    cut(plan, close_of(spot->newer), start_of(spot->operator));
    release(plan, spot->operator);
    switch (spot->kind) {
    case KIND_A: rule_a(plan, spot); break;
    case KIND_B: rule_b(plan, spot); break;
    case KIND_C: rule_c(plan, spot); break;
    default: rule_d(plan, spot); break;
    }
}

/* How many cells the plan has after the rewrite: known before anything changes, so that FULL leaves the plan as it is. */
static uint32_t size_after(const struct plan *plan, const struct spot *spot, uint32_t size)
{
    switch (spot->kind) {
    case KIND_A: return size - 2;
    case KIND_B: return size - 1;
    case KIND_C: return size + block_cells(plan, spot->newer);
    default: return size - block_cells(plan, spot->newer) - 2;
    }
}

/* Asked before each step in this order: DONE, FULL, QUOTA. */
static uint32_t run(struct plan *plan, uint32_t quota, uint32_t *steps, uint32_t *size)
{
    struct spot spot;

    for (*steps = 0; hunt(plan, &spot); ++*steps) {
        uint32_t after = size_after(plan, &spot, *size);

        if (plan->outer < after)
            return TURNIP_FULL;
        if (*steps == quota)
            return TURNIP_QUOTA;
        rewrite(plan, &spot);
        *size = after;
    }
    return TURNIP_DONE;
}

/* ---- Printing, and the service. ---- */

static uint32_t printed_length(const struct plan *plan)
{
    uint32_t length = 0;

    for (uint32_t port = plan->first; port != close_of(plan->outer); port = link_of(plan, port))
        length += port % 2 == 0 && plan->memory[2 * port] == TOKEN_KIND ? plan->memory[2 * port + 3] : 1;
    return length;
}

static void print_into(const struct plan *plan, const uint8_t *text, uint8_t *out)
{
    for (uint32_t port = plan->first; port != close_of(plan->outer); port = link_of(plan, port)) {
        const uint32_t *cell = plan->memory + 2 * port;

        if (port % 2 == 1) {
            *out++ = ']';
        } else if (cell[0] == TOKEN_KIND) {
            for (uint32_t done = 0; done < cell[3]; done++)
                *out++ = text[cell[2] + done];
        } else {
            *out++ = cell[0] == BLOCK_KIND ? '[' : (uint8_t)('a' + cell[0]);
        }
    }
}

static void give(uint32_t *answer, uint32_t number, uint32_t steps, uint32_t cells, uint32_t length, uint32_t place)
{
    answer[TURNIP_NUMBER] = number;
    answer[TURNIP_STEPS] = steps;
    answer[TURNIP_CELLS] = cells;
    answer[TURNIP_LENGTH] = length;
    answer[TURNIP_PLACE] = place;
}

void arena_run(const uint8_t *text, size_t text_length, uint32_t quota, uint32_t *memory, size_t memory_length, uint8_t *out,
               size_t out_length, uint32_t *answer)
{
    struct survey found = {TURNIP_TOOLONG, 0, 0};

    if (text_length <= TEXT_LIMIT) {
        found.number = TURNIP_BADARENA;
        if (memory_length / 4 <= CELL_LIMIT)
            found = look_over(text, text_length, (uint32_t)(memory_length / 4));
    }
    if (found.number != 0) {
        give(answer, found.number, 0, 0, 0, found.place);
    } else {
        struct plan plan = build_plan(text, text_length, memory, (uint32_t)(memory_length / 4));
        uint32_t steps;
        uint32_t number = run(&plan, quota, &steps, &found.cells);
        uint32_t length = printed_length(&plan);

        if (out_length < length) {
            give(answer, TURNIP_OUTSHORT, 0, 0, 0, length);
        } else {
            print_into(&plan, text, out);
            give(answer, number, steps, found.cells, length, 0);
        }
    }
    memset(memory, 0, memory_length * sizeof *memory);
}
