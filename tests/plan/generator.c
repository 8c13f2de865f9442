/* How the cases are made. A shape is drawn first: plans at random, pieces of known combinators, plans that double, deep
   nesting, tokens at their limits, what is wrong with a token at each of its edges, annotations alone and about the limit of
   cells, texts at their limits, damaged texts. What means nothing, blanks and annotations, may stand among the items of every
   shape. Sizes are small most often, since many short runs reach more corners than few long ones. Bytes past a text's room are
   dropped, so no shape has to count. */
#include "plan/generator.h"

#include <string.h>

/* A text in the making. Of what is put one time in so many, 0 is never. */
struct maker {
    struct draws *draws;
    struct text *text;
    const char *letters; /* the operators, some more often than others */
    size_t blanks;       /* a blank before an item, one time in so many */
    size_t annotations;  /* an annotation before an item, one time in so many */
    size_t fancy;        /* a token of many kinds of characters, one time in so many */
};

static bool at_times(struct maker *maker, size_t in_so_many)
{
    return in_so_many != 0 && one_in(maker->draws, in_so_many);
}

static void put(struct maker *maker, uint8_t byte)
{
    add_bytes(maker->text, &byte, 1);
}

static void put_string(struct maker *maker, const char *string)
{
    add_string(maker->text, string);
}

static void put_times(struct maker *maker, const char *string, size_t times)
{
    add_times(maker->text, string, times);
}

/* A code point as UTF-8 would have it, also one that UTF-8 does not allow. */
static void put_code(struct maker *maker, uint32_t code)
{
    if (code < 0x80) {
        put(maker, (uint8_t)code);
    } else if (code < 0x800) {
        put(maker, (uint8_t)(0xc0 | code >> 6));
        put(maker, (uint8_t)(0x80 | (code & 0x3f)));
    } else if (code < 0x10000) {
        put(maker, (uint8_t)(0xe0 | code >> 12));
        put(maker, (uint8_t)(0x80 | (code >> 6 & 0x3f)));
        put(maker, (uint8_t)(0x80 | (code & 0x3f)));
    } else {
        put(maker, (uint8_t)(0xf0 | code >> 18));
        put(maker, (uint8_t)(0x80 | (code >> 12 & 0x3f)));
        put(maker, (uint8_t)(0x80 | (code >> 6 & 0x3f)));
        put(maker, (uint8_t)(0x80 | (code & 0x3f)));
    }
}

/* An allowed character near an edge of what is allowed. */
static uint32_t good_code(struct draws *draws)
{
    static const uint32_t codes[] = {' ', '!', '%', '&', 'a', 'c', '[', ']', 'z', '|', '~', 0xa0, 0xe9, 0x7ff, 0x800, 0x20ac,
                                     0xd7ff, 0xe000, 0xfffc, 0xfffe, 0xffff, 0x10000, 0x1f600, 0xfffff, 0x100000, 0x10ffff};
    return codes[below(draws, sizeof codes / sizeof *codes)];
}

static size_t width_of(uint32_t code)
{
    return code < 0x80 ? 1 : code < 0x800 ? 2 : code < 0x10000 ? 3 : 4;
}

/* So many bytes, of allowed characters as long as they fit, and then of letters. */
static void put_characters(struct maker *maker, size_t bytes)
{
    while (bytes > 0) {
        uint32_t code = good_code(maker->draws);
        if (width_of(code) > bytes)
            code = 'x';
        put_code(maker, code);
        bytes -= width_of(code);
    }
}

/* The front of a token that is an annotation at times. */
static const char *token_front(struct draws *draws)
{
    return one_in(draws, 3) ? "{&" : "{";
}

/* A token of so many bytes that starts with a front. */
static void put_long_token(struct maker *maker, const char *front, size_t length)
{
    put_string(maker, front);
    put_characters(maker, length - strlen(front) - 1);
    put(maker, '}');
}

static size_t token_length(struct draws *draws)
{
    return one_in(draws, 4) ? 64 : 3 + below(draws, 62);
}

/* A token with a `&` behind its text's start, which makes it no annotation; the last two are stock words'. */
static void put_almost_annotation(struct maker *maker)
{
    static const char *const tokens[] = {"{x&}", "{x&y}", "{ &}", "{a&&}", "{]&d}", "{\xc3\xa9&jit}", "{%&x}", "{%&}"};
    put_string(maker, tokens[below(maker->draws, sizeof tokens / sizeof *tokens)]);
}

static void put_token(struct maker *maker)
{
    if (at_times(maker, maker->fancy)) {
        put_long_token(maker, "{", token_length(maker->draws));
        return;
    }
    if (maker->annotations != 0 && one_in(maker->draws, 2)) {
        put_almost_annotation(maker);
        return;
    }
    put(maker, '{');
    put(maker, (uint8_t)('p' + below(maker->draws, 10)));
    put(maker, '}');
}

/* An annotation: a known one, of a text that would mean something elsewhere, or one of any length. */
static void put_annotation(struct maker *maker)
{
    static const char *const known[] = {"{&}", "{&}", "{&jit}", "{&a}", "{& }", "{&&}", "{&%p}", "{&]}", "{&[]d}", "{&\xc3\xa9}"};
    if (one_in(maker->draws, 4))
        put_long_token(maker, "{&", token_length(maker->draws));
    else
        put_string(maker, known[below(maker->draws, sizeof known / sizeof *known)]);
}

void add_annotation(struct draws *draws, struct text *text)
{
    struct maker maker = {.draws = draws, .text = text};
    put_annotation(&maker);
}

/* What means nothing, blanks and annotations; or no byte. */
static void put_nothings(struct maker *maker)
{
    for (;;) {
        if (at_times(maker, maker->blanks))
            put(maker, one_in(maker->draws, 3) ? '\n' : ' ');
        else if (at_times(maker, maker->annotations))
            put_annotation(maker);
        else
            return;
    }
}

/* A piece of a plan so many times, with what means nothing before each item and each end of a block. */
static void put_pieces(struct maker *maker, const char *piece, size_t times)
{
    for (; times > 0; times--) {
        bool in_token = false;
        for (const char *byte = piece; *byte != 0; byte++) {
            if (!in_token)
                put_nothings(maker);
            put(maker, (uint8_t)*byte);
            in_token = *byte == '{' || (in_token && *byte != '}');
        }
    }
}

static void put_operator(struct maker *maker)
{
    put_nothings(maker);
    put(maker, (uint8_t)maker->letters[below(maker->draws, strlen(maker->letters))]);
}

static void put_items(struct maker *maker, size_t items);

/* A block, and inside it so many items, those of inner blocks counted too. */
static void put_block(struct maker *maker, size_t inside)
{
    put_nothings(maker);
    put(maker, '[');
    put_items(maker, inside);
    put_nothings(maker);
    put(maker, ']');
}

/* Items at random, about so many. A block is often followed by what takes it. */
static void put_items(struct maker *maker, size_t items)
{
    while (items > 0) {
        size_t inside = below(maker->draws, items < 40 ? items : 40);
        items--;
        switch (below(maker->draws, 10)) {
        case 0: case 1:
            put_block(maker, inside);
            items -= inside;
            break;
        case 2: case 3: case 4: case 5:
            put_block(maker, inside / 2);
            put_block(maker, inside - inside / 2);
            put_operator(maker);
            items -= inside;
            break;
        case 6:
            put_nothings(maker);
            put_token(maker);
            break;
        default:
            put_operator(maker);
        }
    }
    put_nothings(maker);
}

static void small_plan(struct maker *maker)
{
    put_items(maker, below(maker->draws, one_in(maker->draws, 3) ? 60 : 20));
}

static void medium_plan(struct maker *maker)
{
    put_items(maker, 60 + below(maker->draws, 400));
}

/* About as many cells as there may be. */
static void large_plan(struct maker *maker)
{
    put_items(maker, 2400 + below(maker->draws, 800));
}

/* Pieces of combinators, one after another, some in a block. */
static void pieces(struct maker *maker)
{
    static const char *const known[] = {"[]", "[{x}]", "[{y}]", "[[]d]", "[c]", "[a]", "[d]", "[b]", "[ca]", "[cb]", "[][]baad",
                                        "[]ba", "[[c]ab[]ba]a[][]baad", "a", "b", "c", "d", "cb", "[[a]b]", "[[]ba]a", "{t}"};
    for (size_t left = 1 + below(maker->draws, 12); left > 0; left--) {
        const char *piece = known[below(maker->draws, sizeof known / sizeof *known)];
        bool inside = one_in(maker->draws, 4);
        put_nothings(maker);
        if (inside)
            put(maker, '[');
        put_pieces(maker, piece, 1);
        if (inside)
            put(maker, ']');
    }
}

/* Plans that grow: one that makes itself again with every round, and blocks that double. */
static void doubling(struct maker *maker)
{
    size_t times = below(maker->draws, 14);
    switch (below(maker->draws, 4)) {
    case 0:
        put_pieces(maker, "[c[][]baad]c[][]baad", 1);
        break;
    case 1:
        put_items(maker, below(maker->draws, 4));
        put_pieces(maker, "[[c[][]baad]c[][]baad]", 1);
        put_items(maker, below(maker->draws, 4));
        break;
    case 2:
        put_block(maker, below(maker->draws, 6));
        put_pieces(maker, "cb", times);
        break;
    default:
        put_block(maker, 1 + below(maker->draws, 6));
        put_pieces(maker, "c", times);
        put_pieces(maker, "b", below(maker->draws, times + 1));
    }
}

/* Blocks in blocks, up to the limit and over it, with something to do at the bottom and behind. */
static void nested(struct maker *maker)
{
    size_t depth = one_in(maker->draws, 3) ? 4080 + below(maker->draws, 20) : 1 + below(maker->draws, 300);
    size_t closed = one_in(maker->draws, 12) ? depth - 1 + below(maker->draws, 3) : depth;
    put_pieces(maker, "[", depth);
    put_items(maker, below(maker->draws, 6));
    put_pieces(maker, "]", closed);
    put_items(maker, below(maker->draws, 4));
}

/* A character, or bytes that are none, that no token may hold. */
static void put_bad_character(struct maker *maker)
{
    static const char *const bad[] = {"\x80", "\xbf", "\xc0\x80", "\xc1\xbf", "\xc2", "\xe0\x80\x80", "\xe0\x9f\xbf", "\xe2\x82",
                                      "\xed\xa0\x80", "\xed\xbf\xbf", "\xf0\x80\x80\x80", "\xf0\x8f\xbf\xbf", "\xf0\x9f\x98",
                                      "\xf4\x90\x80\x80", "\xf5\x80\x80\x80", "\xf8\x88\x80\x80\x80", "\xfe", "\xff",
                                      "\xef\xbf\xbd", "{", "\x7f", "\n", "\xc2\x80", "\xc2\x9f", "\xed\xa0\xbd\xed\xb8\x80",
                                      "\xc0\xa0", "\xc1\x81", "\xe0\x81\x81", "\xf0\x80\x81\x81", "\xf0\x82\x82\xac"};
    if (one_in(maker->draws, 4))
        put(maker, (uint8_t)below(maker->draws, 32));
    else if (one_in(maker->draws, 4))
        put_code(maker, (uint32_t)(0x7f + below(maker->draws, 0x21)));
    else if (one_in(maker->draws, 6))
        put_code(maker, (uint32_t)(0xd800 + below(maker->draws, 0x800)));
    else
        put_string(maker, bad[below(maker->draws, sizeof bad / sizeof *bad)]);
}

/* A { that opens no allowed token, except the last kind, which is at random. */
static void put_bad_token(struct maker *maker)
{
    size_t before = below(maker->draws, 8), behind = below(maker->draws, 8);
    const char *front = token_front(maker->draws);
    switch (below(maker->draws, 6)) {
    case 0:
        put_string(maker, "{}");
        break;
    case 1:
        put_long_token(maker, front, 65 + below(maker->draws, 3));
        break;
    case 2:
        put_string(maker, front);
        put_times(maker, "x", behind);
        break;
    case 3: case 4:
        put_string(maker, front);
        put_times(maker, "x", before);
        put_bad_character(maker);
        put_times(maker, "y", behind);
        put(maker, '}');
        break;
    default:
        put_string(maker, front);
        for (size_t i = 0; i < 1 + before; i++)
            put(maker, (uint8_t)(0x80 + below(maker->draws, 128)));
        put(maker, '}');
    }
}

/* Tokens near their limits among a few items. */
static void tokens(struct maker *maker)
{
    maker->fancy = 1;
    for (size_t left = below(maker->draws, 5); left > 0; left--) {
        put_items(maker, below(maker->draws, 4));
        if (one_in(maker->draws, 3))
            put_long_token(maker, token_front(maker->draws), 62 + below(maker->draws, 4));
        else
            put_token(maker);
    }
    if (one_in(maker->draws, 2))
        put_bad_token(maker);
    put_items(maker, below(maker->draws, 4));
}

enum { FURTHEST_EDGE = 67 };

/* Which byte of a token to put something at, its { being the first: the second, one about the 64th, or any. */
static size_t token_edge(struct draws *draws)
{
    switch (below(draws, 4)) {
    case 0: return 2;
    case 1: return 2 + below(draws, FURTHEST_EDGE - 1);
    default: return 61 + below(draws, 6);
    }
}

/* What may stand at an edge of a token, or meet something else there: a good character of any width, which may reach over the
   edge or end at it; a bad one; the front of one, which the next byte or the text's end cuts; a forbidden one; a brace. */
static void put_at_edge(struct maker *maker)
{
    static const char *const fronts[] = {"\xc3", "\xe2", "\xe2\x82", "\xf0", "\xf0\x9f", "\xf0\x9f\x98", "\xc2", "\xef\xbf"};
    static const char *const forbidden[] = {"\x1f", "\n", "\x7f", "\xc2\x80", "\xc2\x9f", "\xef\xbf\xbd", "\xef\xbf\xbd"};
    switch (below(maker->draws, 12)) {
    case 0: case 1: case 2:
        put_code(maker, good_code(maker->draws));
        break;
    case 3: case 4: case 5:
        put_bad_character(maker);
        break;
    case 6: case 7:
        put_string(maker, fronts[below(maker->draws, sizeof fronts / sizeof *fronts)]);
        break;
    case 8: case 9:
        put_string(maker, forbidden[below(maker->draws, sizeof forbidden / sizeof *forbidden)]);
        break;
    default:
        put(maker, (uint8_t)"{}"[below(maker->draws, 2)]);
    }
}

/* A { with good characters up to an edge, and there one to three things or none; then a }, or more characters first, or no }
   at all, so that the text's end comes next or whatever is put behind. It may be a token, and an annotation. */
static void put_edge_token(struct maker *maker)
{
    const char *front = token_front(maker->draws);
    size_t edge = token_edge(maker->draws), begun = strlen(front);
    put_string(maker, front);
    put_characters(maker, edge > begun ? edge - begun - 1 : 0);
    for (size_t left = below(maker->draws, 4); left > 0; left--)
        put_at_edge(maker);
    if (one_in(maker->draws, 4))
        put_characters(maker, 1 + below(maker->draws, 6));
    if (!one_in(maker->draws, 3))
        put(maker, '}');
}

void add_edge_token(struct draws *draws, struct text *text)
{
    struct maker maker = {.draws = draws, .text = text};
    put_edge_token(&maker);
}

/* A { with good characters up to an edge, where the text ends: behind a character, or inside one. */
static void put_cut_token(struct maker *maker)
{
    struct text *text = maker->text;
    size_t end = text->length + token_edge(maker->draws) - 1;
    put_string(maker, token_front(maker->draws));
    put_characters(maker, FURTHEST_EDGE);
    text->length = end < text->length ? end : text->length;
}

/* A fault behind a fault, of tokens at their edges, bytes and brackets: the first must be told. An annotation may come first. */
static void edges(struct maker *maker)
{
    static const char *const others[] = {"]", "#", "}", "{}", "[", "\xc3\xa9", "&", "{&}"};
    put_items(maker, below(maker->draws, 3));
    for (size_t left = below(maker->draws, 3); left > 0; left--) {
        if (one_in(maker->draws, 4))
            put_string(maker, others[below(maker->draws, sizeof others / sizeof *others)]);
        else
            put_edge_token(maker);
    }
    if (one_in(maker->draws, 2)) {
        put_cut_token(maker);
    } else {
        put_edge_token(maker);
        put_items(maker, below(maker->draws, 4));
    }
}

/* The empty plan, in other words. */
static void annotations_alone(struct maker *maker)
{
    for (size_t left = 1 + below(maker->draws, 5); left > 0; left--) {
        put_annotation(maker);
        put_nothings(maker);
    }
}

/* About as many cells as there may be, with annotations before, among and behind them: one that was counted would be one too
   many. There is often one right before the first item past the limit, so that their places are told apart. */
static void about_limit(struct maker *maker)
{
    static const char *const kinds[] = {"a", "[", "{x}", "[]", "{x&}"};
    const char *cell = kinds[below(maker->draws, sizeof kinds / sizeof *kinds)];
    size_t cells = CELLS_AT_MOST - 2 + below(maker->draws, 5);
    bool opening = strcmp(cell, "[") == 0;
    maker->annotations = 2;
    for (size_t i = 0; i < cells; i++) {
        if (i == 0 || i == CELLS_AT_MOST || one_in(maker->draws, 300))
            put_nothings(maker);
        put_string(maker, cell);
    }
    put_nothings(maker);
    put_times(maker, "]", opening ? cells : 0);
    put_nothings(maker);
}

/* Bytes at random, most of them such as plans are made of. */
static void scribble(struct maker *maker)
{
    static const char usual[] = "abcd[[[]]]{}{}&x \n";
    for (size_t left = below(maker->draws, 24); left > 0; left--) {
        if (one_in(maker->draws, 40))
            put(maker, (uint8_t)below(maker->draws, 256));
        else
            put(maker, (uint8_t)usual[below(maker->draws, sizeof usual - 1)]);
    }
}

/* A text of the longest length, or one byte longer or shorter: a small plan and then blanks, blocks that open, operators, tokens
   or annotations. */
static void longest(struct maker *maker)
{
    static const char *const filling[] = {" ", "[", "a", "{x}", "[]", "\n", "{&}", "{&jit}"};
    const char *fill = filling[below(maker->draws, sizeof filling / sizeof *filling)];
    size_t length = TEXT_LIMIT_BYTES - 1 + below(maker->draws, 3);
    if (one_in(maker->draws, 2))
        fill = " ";
    small_plan(maker);
    while (maker->text->length < length)
        put_string(maker, fill);
    maker->text->length = length;
}

/* Puts what a maker puts at the end of the text somewhere else instead. */
static void put_inside(struct maker *maker, void (*what)(struct maker *))
{
    struct text *text = maker->text;
    uint8_t moved[256];
    size_t length = text->length, at = below(maker->draws, length + 1);
    what(maker);
    size_t added = text->length - length;
    if (added > sizeof moved)
        return;
    memcpy(moved, text->bytes + length, added);
    memmove(text->bytes + at + added, text->bytes + at, length - at);
    memcpy(text->bytes + at, moved, added);
}

static void put_any_byte(struct maker *maker)
{
    put(maker, (uint8_t)below(maker->draws, 256));
}

static void put_mark(struct maker *maker)
{
    put(maker, (uint8_t)"[]{}&"[below(maker->draws, 5)]);
}

static void damage(struct maker *maker)
{
    struct text *text = maker->text;
    size_t at = below(maker->draws, text->length);
    switch (below(maker->draws, 8)) {
    case 0:
        if (text->length > 0)
            text->bytes[at] = (uint8_t)below(maker->draws, 256);
        break;
    case 1:
        put_inside(maker, put_any_byte);
        break;
    case 2: case 3:
        put_inside(maker, put_mark);
        break;
    case 4:
        put_inside(maker, put_bad_token);
        break;
    case 5:
        put_inside(maker, put_annotation);
        break;
    case 6:
        text->length = at;
        break;
    default:
        if (text->length > 0) {
            memmove(text->bytes + at, text->bytes + at + 1, text->length - at - 1);
            text->length--;
        }
    }
}

static void damaged(struct maker *maker)
{
    small_plan(maker);
    for (size_t left = 1 + below(maker->draws, 3); left > 0; left--)
        damage(maker);
}

void make_text(struct draws *draws, struct text *text)
{
    static const char *const letters[] = {"abcd", "abd", "aabbcd", "abcccd", "bd", "ab"};
    struct maker maker = {.draws = draws, .text = text, .letters = letters[below(draws, sizeof letters / sizeof *letters)]};
    text->length = 0;
    if (one_in(draws, 3))
        maker.blanks = 2 + below(draws, 8);
    if (one_in(draws, 3))
        maker.annotations = 2 + below(draws, 8);
    if (one_in(draws, 8))
        maker.fancy = 3;
    size_t shape = below(draws, 2000);
    if (shape < 660)
        small_plan(&maker);
    else if (shape < 690)
        annotations_alone(&maker);
    else if (shape < 700)
        about_limit(&maker);
    else if (shape < 1000)
        pieces(&maker);
    else if (shape < 1160)
        doubling(&maker);
    else if (shape < 1240)
        medium_plan(&maker);
    else if (shape < 1300)
        nested(&maker);
    else if (shape < 1670)
        damaged(&maker);
    else if (shape < 1750)
        tokens(&maker);
    else if (shape < 1930)
        edges(&maker);
    else if (shape < 1994)
        scribble(&maker);
    else if (shape < 1998)
        large_plan(&maker);
    else
        longest(&maker);
}

static size_t make_n(struct draws *draws, size_t cells, size_t most)
{
    switch (below(draws, 16)) {
    case 0: return cells;
    case 1: return cells == 0 ? 0 : cells - 1;
    case 2: case 3: return cells + below(draws, 8);
    case 4: case 5: return most;
    case 6: return most > cells ? most - 1 : most;
    case 7: return most + 1;
    case 8: return below(draws, cells + 1);
    case 9: case 10: return cells + below(draws, 2 * cells + 4);
    case 11: return below(draws, CELLS_AT_MOST + 1);
    case 12: return CELLS_AT_MOST;
    default: return most + below(draws, 60);
    }
}

size_t make_memory_length(struct draws *draws, size_t cells, size_t most)
{
    size_t length = 4 * make_n(draws, cells, most) + below(draws, 4);
    if (one_in(draws, 25))
        length = 4 * (CELLS_AT_MOST + 1) - 1 + below(draws, 3);
    if (one_in(draws, 60) || length > MEMORY_ROOM)
        length = 4 * CELLS_AT_MOST + below(draws, MEMORY_ROOM - 4 * CELLS_AT_MOST);
    return length;
}

uint32_t make_quota(struct draws *draws, size_t cells)
{
    switch (below(draws, 8)) {
    case 0: return 0;
    case 1: return 1;
    case 2: return (uint32_t)below(draws, 5);
    case 3: case 4: return (uint32_t)below(draws, 30);
    case 5: return 100;
    case 6: return (uint32_t)below(draws, 200);
    default: return (uint32_t)below(draws, cells < 100 ? 1000 : 200);
    }
}

uint32_t edge_quota(struct draws *draws, uint32_t steps)
{
    switch (below(draws, 4)) {
    case 0: return steps;
    case 1: return steps == 0 ? 0 : steps - 1;
    case 2: return steps + 1;
    default: return UINT32_MAX;
    }
}

size_t make_out_length(struct draws *draws, size_t printed)
{
    switch (below(draws, 8)) {
    case 0: case 1: return printed;
    case 2: return printed == 0 ? 0 : printed - 1;
    case 3: return printed + 1;
    case 4: return one_in(draws, 4) ? 0 : printed + below(draws, 10);
    case 5: return one_in(draws, 2) ? below(draws, printed + 1) : printed;
    case 6: return one_in(draws, 50) ? PRINTED_AT_MOST : printed + 2;
    default: return printed + below(draws, 100);
    }
}
