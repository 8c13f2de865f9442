/* The rules on plain trees: a sequence is an array of items, and a block is an item with a sequence inside. Reading builds a
   tree of whatever length and depth, so it keeps its own stack of open blocks; what it accepts has at most 4,096 cells, so
   everything after it is plain recursion. Each part has the words of the rules that it follows above it. */
#include "plan/twin.h"

#include <stdbool.h>
#include <stdlib.h>
#include <string.h>

#include "shared/bytes.h"
#include "shared/utf8.h"

enum { DONE = 0, QUOTA = 1, FULL = 2, READ = 3, TOOLONG = 11, BADARENA = 12, BADBYTE = 13 };
enum { UNMATCHED = 15, UNCLOSED = 16, OVERFULL = 17, OUTSHORT = 18 };
enum { EMPTYTOKEN = 21, LONGTOKEN = 22, BADUTF8 = 23, FORBIDDEN = 24, INNERBRACE = 25 };
enum { TOKEN_LIMIT = 64, CELL_LIMIT = 4096, TEXT_LIMIT = 1048576 };

struct item;

struct sequence {
    struct item **items;
    size_t count;
    size_t room;
};

struct item {
    char kind;       /* an operator's letter, '{' for a token, '[' for a block */
    uint32_t place;  /* its first byte in the text */
    uint8_t *token;  /* a token's bytes, braces too */
    size_t length;   /* and how many */
    struct sequence inside;
};

static void push(struct sequence *to, struct item *item)
{
    if (to->count == to->room) {
        to->room = to->room == 0 ? 4 : 2 * to->room;
        to->items = need(realloc(to->items, to->room * sizeof *to->items));
    }
    to->items[to->count++] = item;
}

static struct item *new_item(char kind, uint32_t place)
{
    struct item *item = need(calloc(1, sizeof *item));
    item->kind = kind;
    item->place = place;
    return item;
}

static struct item *new_token(const uint8_t *bytes, size_t length, uint32_t place)
{
    struct item *item = new_item('{', place);
    item->token = need(malloc(length));
    item->length = length;
    memcpy(item->token, bytes, length);
    return item;
}

/* The item alone, without what is inside it. */
static void free_one(struct item *item)
{
    free(item->token);
    free(item->inside.items);
    free(item);
}

static void free_item(struct item *item)
{
    for (size_t i = 0; i < item->inside.count; i++)
        free_item(item->inside.items[i]);
    free_one(item);
}

static struct item *copy_item(const struct item *item)
{
    if (item->kind == '{')
        return new_token(item->token, item->length, item->place);
    struct item *copy = new_item(item->kind, item->place);
    for (size_t i = 0; i < item->inside.count; i++)
        push(&copy->inside, copy_item(item->inside.items[i]));
    return copy;
}

/* "an operator is 1, a token is 1, a block is 1 plus the cells of its contents" */
static uint32_t cells(const struct sequence *plan)
{
    uint32_t sum = 0;
    for (size_t i = 0; i < plan->count; i++)
        sum += 1 + cells(&plan->items[i]->inside);
    return sum;
}

/* Of a byte that is not the first of a character. */
enum { NOT_FIRST = -2 };

/* What a { opens, a token or none. Its bytes are told by their numbers, that { being byte 0: so the 64th is byte 63. */
struct opened {
    const uint8_t *bytes;
    size_t left;             /* so many bytes, to the text's end */
    bool closed;             /* there is a } */
    size_t close;            /* "the first } after it"; the text's end where there is none */
    long codes[TOKEN_LIMIT]; /* the character that begins at a byte; NOT_FIRST inside one, and behind what is none */
};

static struct opened open_token(const uint8_t *bytes, size_t left)
{
    const uint8_t *close = memchr(bytes, '}', left);
    struct opened token = {.bytes = bytes, .left = left, .closed = close != NULL};
    token.close = token.closed ? (size_t)(close - bytes) : left;
    for (size_t at = 0; at < TOKEN_LIMIT; at++)
        token.codes[at] = NOT_FIRST;
    size_t width;
    for (size_t at = 1; at < token.close && at < TOKEN_LIMIT; at += width) {
        token.codes[at] = code_point(bytes + at, left - at, &width);
        if (token.codes[at] == NO_CHARACTER)
            break;
    }
    return token;
}

/* "nothing between the braces": "the closing brace" */
static bool empty_at(const struct opened *token, size_t at)
{
    return token->closed && token->close == 1 && at == token->close;
}

/* "the token's 64th byte (its { is the first) is there and is not }, and no } stands before it": "that byte" */
static bool too_long_at(const struct opened *token, size_t at)
{
    return at == TOKEN_LIMIT - 1 && at < token->left && token->bytes[at] != '}' && memchr(token->bytes, '}', at) == NULL;
}

/* "the text ends before that, with no }": "the text's end" */
static bool ends_at(const struct opened *token, size_t at)
{
    return token->left < TOKEN_LIMIT && !token->closed && at == token->left;
}

/* "no well-formed character begins here": "its first byte" */
static bool bad_utf8_at(const struct opened *token, size_t at)
{
    return at < token->close && token->codes[at] == NO_CHARACTER;
}

/* "a character that no token may hold", which is one of "U+0000 to U+001F (so no LF)", "U+007F to U+009F" and "U+FFFD": "its
   first byte" */
static bool forbidden_at(const struct opened *token, size_t at)
{
    long code = token->codes[at];
    return at < token->close && ((code >= 0 && code <= 0x1f) || (code >= 0x7f && code <= 0x9f) || code == 0xfffd);
}

/* "a { in the token": "that {" */
static bool inner_brace_at(const struct opened *token, size_t at)
{
    return at < token->close && token->bytes[at] == '{';
}

/* The table of a token's faults. "The first by place is given, and at one place 22 comes before every other", so it is above. */
static const struct {
    uint32_t number;
    bool (*stands_at)(const struct opened *, size_t);
} faults[] = {
    {LONGTOKEN, too_long_at}, {LONGTOKEN, ends_at},      {EMPTYTOKEN, empty_at},
    {BADUTF8, bad_utf8_at},   {FORBIDDEN, forbidden_at}, {INNERBRACE, inner_brace_at},
};

/* The number of a token's first fault, and the byte where it stands; 0 where there is none. "Every fault stands before the
   first } behind the { (an empty token's at it)", and 22 at the 64th byte at the latest, so none is asked for further on. */
static uint32_t first_fault(const struct opened *token, size_t *at)
{
    for (*at = 1; *at <= token->close && *at < TOKEN_LIMIT; ++*at)
        for (size_t row = 0; row < sizeof faults / sizeof *faults; row++)
            if (faults[row].stands_at(token, *at))
                return faults[row].number;
    return 0;
}

/* What reading keeps: every item in the order of their first bytes, the tree, and the blocks that are open. */
struct reader {
    struct sequence all;
    struct sequence outer;
    struct sequence open;
    uint32_t fault; /* 0: none so far */
    uint32_t place;
};

static void refuse(struct reader *reader, uint32_t fault, size_t place)
{
    reader->fault = fault;
    reader->place = (uint32_t)place;
}

static void add(struct reader *reader, struct item *item)
{
    struct sequence *open = &reader->open;
    push(open->count == 0 ? &reader->outer : &open->items[open->count - 1]->inside, item);
    push(&reader->all, item);
}

/* "A token whose text starts with `&` (also `{&}`) is still checked as a token, with every fault of one, and then means nothing,
   like SP: no item, no cell, no place in the plan, not printed, and it does not stand between a block and an operator." This is
   asked of an allowed token, which has a text. */
static bool is_annotation(const struct opened *token)
{
    return token->bytes[1] == '&';
}

/* "A token runs from { to the first } after it": how many bytes it has. Of one that is not allowed the fault is noted, and "the
   place reported is the fault's own". An annotation is passed over. */
static size_t read_token(struct reader *reader, const uint8_t *text, size_t at, size_t text_length)
{
    struct opened token = open_token(text + at, text_length - at);
    size_t length = token.close + 1, fault_at;
    uint32_t fault = first_fault(&token, &fault_at);
    if (fault != 0)
        refuse(reader, fault, at + fault_at);
    else if (!is_annotation(&token))
        add(reader, new_token(token.bytes, length, (uint32_t)at));
    return length;
}

/* Reads what starts at a byte, and says how many bytes it has. A fault is noted. */
static size_t read_one(struct reader *reader, const uint8_t *text, size_t at, size_t text_length)
{
    size_t length = 1;
    switch (text[at]) {
    case ' ': case '\n':
        break;
    case 'a': case 'b': case 'c': case 'd':
        add(reader, new_item((char)text[at], (uint32_t)at));
        break;
    case '[':
        add(reader, new_item('[', (uint32_t)at));
        push(&reader->open, reader->all.items[reader->all.count - 1]);
        break;
    case ']':
        if (reader->open.count == 0)
            refuse(reader, UNMATCHED, at);
        else
            reader->open.count--;
        break;
    case '{':
        length = read_token(reader, text, at, text_length);
        break;
    default:
        refuse(reader, BADBYTE, at);
    }
    return length;
}

/* "Then 13, 14 and 15: whichever stands first from the left ... Then 16, 17". What was 14 is now 21 to 25, and "whose fault comes
   first against 13 and 15 stays by the place of the opening brace". "OVERFULL's place is that of the first item past the limit;
   an annotation is no item". */
static void read_all(struct reader *reader, const uint8_t *text, size_t text_length, size_t most_cells)
{
    for (size_t at = 0; at < text_length && reader->fault == 0;)
        at += read_one(reader, text, at, text_length);
    if (reader->fault == 0 && reader->open.count > 0)
        refuse(reader, UNCLOSED, text_length);
    if (reader->fault == 0 && reader->all.count > most_cells)
        refuse(reader, OVERFULL, reader->all.items[most_cells]->place);
}

/* The plan of a text, or the refusal in the result's number and place. */
static struct sequence read_plan(const uint8_t *text, size_t text_length, size_t most_cells, struct twin_result *result)
{
    struct reader reader = {0};
    if (text_length > TEXT_LIMIT)
        refuse(&reader, TOOLONG, 0);
    else if (most_cells > CELL_LIMIT)
        refuse(&reader, BADARENA, 0);
    else
        read_all(&reader, text, text_length, most_cells);
    if (reader.fault != 0) {
        for (size_t i = 0; i < reader.all.count; i++)
            free_one(reader.all.items[i]);
        free(reader.outer.items);
        reader.outer = (struct sequence){0};
    }
    free(reader.all.items);
    free(reader.open.items);
    result->number = reader.fault;
    result->place = reader.place;
    return reader.outer;
}

static bool is_block(const struct item *item)
{
    return item->kind == '[';
}

/* How many blocks an operator takes; 0 for what is no operator. */
static size_t takes(const struct item *item)
{
    return item->kind == 'a' || item->kind == 'b' ? 2 : item->kind == 'c' || item->kind == 'd' ? 1 : 0;
}

/* "An operator is ready when the items just before it, in its own sequence, are blocks: two for a and b, one for c and d." */
static bool ready(const struct sequence *in, size_t at)
{
    size_t blocks = takes(in->items[at]);
    if (blocks == 0 || at < blocks)
        return false;
    return is_block(in->items[at - 1]) && is_block(in->items[at - blocks]);
}

struct spot {
    struct sequence *in;
    size_t at;
};

/* "If any operator of the outermost sequence is ready, the leftmost of those is rewritten. If none is, the blocks of that
   sequence are looked at from left to right, and the same rule is used inside the first block that has a ready operator at
   any depth." */
static bool find_ready(struct sequence *in, struct spot *spot)
{
    for (size_t at = 0; at < in->count; at++) {
        if (ready(in, at)) {
            *spot = (struct spot){in, at};
            return true;
        }
    }
    for (size_t at = 0; at < in->count; at++)
        if (find_ready(&in->items[at]->inside, spot))
            return true;
    return false;
}

static void push_all(struct sequence *to, const struct sequence *from)
{
    for (size_t i = 0; i < from->count; i++)
        push(to, from->items[i]);
}

/* [B][A]a: A, then [B]. [B][A]b: [[B]A]. [A]c: [A][A]. [A]d: nothing. Here a is the block [A], and b is [B]. */
static void push_result(struct sequence *to, char operator, struct item *b, struct item *a)
{
    struct sequence joined = {0};
    switch (operator) {
    case 'a':
        push_all(to, &a->inside);
        push(to, b);
        free_one(a);
        break;
    case 'b':
        push(&joined, b);
        push_all(&joined, &a->inside);
        free(a->inside.items);
        a->inside = joined;
        push(to, a);
        break;
    case 'c':
        push(to, a);
        push(to, copy_item(a));
        break;
    case 'd':
        free_item(a);
        break;
    }
}

static void rewrite(struct spot spot)
{
    struct sequence *in = spot.in, after = {0};
    struct item *operator = in->items[spot.at];
    size_t first = spot.at - takes(operator);
    for (size_t i = 0; i < first; i++)
        push(&after, in->items[i]);
    push_result(&after, operator->kind, in->items[first], in->items[spot.at - 1]);
    for (size_t i = spot.at + 1; i < in->count; i++)
        push(&after, in->items[i]);
    free_one(operator);
    free(in->items);
    *in = after;
}

/* The cells of the next result, by the table of the rewrites: two fewer, one fewer, more by the cells of A, fewer by the
   cells of A and two more. */
static uint32_t cells_after(const struct sequence *plan, struct spot spot)
{
    uint32_t of_a = cells(&spot.in->items[spot.at - 1]->inside);
    switch (spot.in->items[spot.at]->kind) {
    case 'a': return cells(plan) - 2;
    case 'b': return cells(plan) - 1;
    case 'c': return cells(plan) + of_a;
    default: return cells(plan) - of_a - 2;
    }
}

/* "Before each step it asks in this order: no ready operator, DONE; the next result has more than N cells, FULL; the steps
   made equal the quota, QUOTA." */
static void rewrite_all(struct sequence *plan, uint32_t quota, size_t n, struct twin_result *result)
{
    struct spot spot;
    result->most = cells(plan);
    for (result->steps = 0;; result->steps++) {
        if (!find_ready(plan, &spot)) {
            result->number = DONE;
            return;
        }
        uint32_t next = cells_after(plan, spot);
        if (next > n) {
            result->number = FULL;
            return;
        }
        if (result->steps == quota) {
            result->number = QUOTA;
            return;
        }
        rewrite(spot);
        if (next > result->most)
            result->most = next;
    }
}

static size_t printed_length(const struct sequence *plan)
{
    size_t sum = 0;
    for (size_t i = 0; i < plan->count; i++) {
        const struct item *item = plan->items[i];
        sum += item->kind == '{' ? item->length : is_block(item) ? 2 + printed_length(&item->inside) : 1;
    }
    return sum;
}

/* Prints from a byte on, and says where it ended. */
static uint8_t *print(const struct sequence *plan, uint8_t *to)
{
    for (size_t i = 0; i < plan->count; i++) {
        const struct item *item = plan->items[i];
        if (item->kind == '{') {
            memcpy(to, item->token, item->length);
            to += item->length;
        } else {
            *to++ = (uint8_t)item->kind;
        }
        if (is_block(item)) {
            to = print(&item->inside, to);
            *to++ = ']';
        }
    }
    return to;
}

/* What is left of the plan goes into the result. */
static void finish(struct sequence *plan, struct twin_result *result)
{
    result->cells = cells(plan);
    result->length = printed_length(plan);
    result->printed = need(malloc(result->length + 1));
    print(plan, result->printed);
    for (size_t i = 0; i < plan->count; i++)
        free_item(plan->items[i]);
    free(plan->items);
}

struct twin_result twin_read(const uint8_t *text, size_t text_length)
{
    struct twin_result result = {0};
    struct sequence plan = read_plan(text, text_length, CELL_LIMIT, &result);
    if (result.number == 0) {
        result.number = READ;
        finish(&plan, &result);
    }
    return result;
}

struct twin_result twin_run(const uint8_t *text, size_t text_length, uint32_t quota, size_t memory_length)
{
    struct twin_result result = {0};
    size_t n = memory_length / 4;
    struct sequence plan = read_plan(text, text_length, n, &result);
    if (result.number == 0) {
        rewrite_all(&plan, quota, n, &result);
        finish(&plan, &result);
    }
    return result;
}

void twin_write(const struct twin_result *result, uint8_t *out, size_t out_length, uint32_t answer[5])
{
    answer[0] = result->number;
    answer[1] = result->steps;
    answer[2] = result->cells;
    answer[3] = (uint32_t)result->length;
    answer[4] = result->place;
    if (result->printed == NULL)
        return;
    if (result->length > out_length) {
        memset(answer, 0, 5 * sizeof *answer);
        answer[0] = OUTSHORT;
        answer[4] = (uint32_t)result->length;
        return;
    }
    memcpy(out, result->printed, result->length);
}

void twin_free(struct twin_result *result)
{
    free(result->printed);
    result->printed = NULL;
}
