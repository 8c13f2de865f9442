/* How the lists are made. The names are drawn first, so that a text can use a word that stands later; then the flaws, none
   or a few, each at a rank, so that the least of several ranks is asked for; then the words are put one behind the other,
   and the list may be cut, continued and damaged. Texts are made of the same items, with the words of smaller ranks among
   them, and blanks and annotations before, between and behind. Lists and texts are short most often, since many short ones
   reach more corners than few long ones. Bytes past a room are dropped, so nothing has to count. */
#include "words/generator.h"

#include <stdbool.h>
#include <stdio.h>
#include <string.h>

#include "shared/bytes.h"
#include "words/twin.h"

/* ---- Names. ---- */

static void append_name(struct name *name, const void *bytes, size_t length)
{
    size_t left = NAME_ROOM - name->length;
    size_t taken = length < left ? length : left;
    memcpy(name->bytes + name->length, bytes, taken);
    name->length += taken;
}

static struct name name_of(const char *string)
{
    struct name name = {.length = 0};
    append_name(&name, string, strlen(string));
    return name;
}

static bool same_name(const struct name *one, const struct name *other)
{
    return one->length == other->length && memcmp(one->bytes, other->bytes, one->length) == 0;
}

/* Some are the front of others, or differ in one byte, in a blank, in what looks alike, or in a `%` more. A `&` in a name makes
   no annotation of its token, whose text starts with `%`. */
static const char *const known_names[] = {
    "a", "b", "c", "d", "p", "q", "scan", "sca", "scan ", " scan", "scan1", "scan2", "Scan", "%", "%%", "%a", "%p%", " ", "  ",
    "[", "]", "[]d", "&", "&jit", "&x", "x&", "x&y", "x y", "none", "many", "\xc3\xa9", "e\xcc\x81", "\xe2\x82\xac",
    "\xf0\x9f\x98\x80",
};

static const char *const allowed_characters[] = {
    " ", "!", "%", "&", "a", "[", "]", "z", "|", "~", "\xc2\xa0", "\xc3\xa9", "\xdf\xbf", "\xe0\xa0\x80", "\xe2\x82\xac",
    "\xed\x9f\xbf", "\xee\x80\x80", "\xef\xbf\xbc", "\xef\xbf\xbe", "\xf0\x90\x80\x80", "\xf4\x8f\xbf\xbf",
};

/* Characters, and bytes that are none, that no token may hold; the last three end one token and may begin another, or an
   annotation. */
static const struct piece forbidden[] = {
    PIECE("\0"), PIECE("\n"), PIECE("\x1f"), PIECE("\x7f"), PIECE("\xc2\x80"), PIECE("\xc2\x9f"), PIECE("\xef\xbf\xbd"),
    PIECE("{"), PIECE("\x80"), PIECE("\xbf"), PIECE("\xc0\xaf"), PIECE("\xc1\xbf"), PIECE("\xc3"), PIECE("\xe2\x82"),
    PIECE("\xe0\x9f\xbf"), PIECE("\xed\xa0\x80"), PIECE("\xf0\x8f\xbf\xbf"), PIECE("\xf4\x90\x80\x80"),
    PIECE("\xf0\x9f\x98"), PIECE("\xfe"), PIECE("\xff"), PIECE("}"), PIECE("}{"), PIECE("}{&"),
};

/* A name of so many bytes, of allowed characters as long as they fit, and then of letters. */
static struct name long_name(struct draws *draws, size_t length)
{
    struct name name = {.length = 0};
    while (name.length < length) {
        const char *character = one_of(draws, allowed_characters, COUNT(allowed_characters));
        if (name.length + strlen(character) > length)
            character = "x";
        append_name(&name, character, strlen(character));
    }
    return name;
}

static struct name draw_name(struct draws *draws)
{
    switch (below(draws, 8)) {
    case 0: return long_name(draws, NAME_AT_MOST);
    case 1: return long_name(draws, 1 + below(draws, NAME_AT_MOST));
    default: return name_of(one_of(draws, known_names, COUNT(known_names)));
    }
}

/* Empty, too long, or with something in it that no token may hold. */
static struct name draw_bad_name(struct draws *draws)
{
    struct name name = {.length = 0}, drawn = draw_name(draws);
    const struct piece *piece = &forbidden[below(draws, COUNT(forbidden))];
    size_t before = below(draws, drawn.length + 1);
    switch (below(draws, 5)) {
    case 0:
        return name;
    case 1:
        return long_name(draws, NAME_AT_MOST + 1 + (one_in(draws, 2) ? 0 : below(draws, NAME_ROOM - NAME_AT_MOST)));
    default:
        append_name(&name, drawn.bytes, before);
        append_name(&name, piece->bytes, piece->length);
        append_name(&name, drawn.bytes + before, drawn.length - before);
        return name;
    }
}

static bool is_listed(const struct word_list *list, const struct name *name)
{
    for (size_t i = 0; i < list->words; i++)
        if (same_name(&list->names[i], name))
            return true;
    return false;
}

/* Names for so many words, each another one: where none is found soon, the rank is the name. */
static void draw_names(struct draws *draws, struct word_list *list, size_t words)
{
    enum { TRIES = 4 };
    for (list->words = 0; list->words < words;) {
        struct name name = draw_name(draws);
        for (int tried = 0; tried < TRIES && is_listed(list, &name); tried++)
            name = draw_name(draws);
        if (is_listed(list, &name)) {
            char rank[24];
            snprintf(rank, sizeof rank, "w%zu", list->words);
            name = name_of(rank);
        }
        list->names[list->words++] = name;
    }
}

/* ---- Texts. ---- */

/* A text in the making. Of what is put one time in so many, 0 is never. */
struct maker {
    struct draws *draws;
    struct text *text;
    const struct word_list *list;
    size_t usable;      /* words of smaller ranks than this are used */
    size_t blanks;      /* a blank before an item, one time in so many */
    size_t annotations; /* an annotation before an item, one time in so many */
};

static void put_use(struct text *text, const struct name *name)
{
    add_string(text, "{%");
    add_bytes(text, name->bytes, name->length);
    add_string(text, "}");
}

static bool at_times(struct maker *maker, size_t in_so_many)
{
    return in_so_many != 0 && one_in(maker->draws, in_so_many);
}

/* What means nothing, blanks and annotations; or no byte. */
static void put_nothings(struct maker *maker)
{
    for (;;) {
        if (at_times(maker, maker->blanks))
            add_string(maker->text, one_in(maker->draws, 3) ? "\n" : " ");
        else if (at_times(maker, maker->annotations))
            add_annotation(maker->draws, maker->text);
        else
            return;
    }
}

/* A token with one of the list's names in it that is no use of it: no `%`, one too many, another byte before it, a byte more or
   a byte less. It may be another word's by chance, or an annotation. Names that leave no room for this are replaced. */
static void put_almost_use(struct maker *maker)
{
    static const char *const before[] = {"{", "{%%", "{ %", "{&", "{&%", "{%x", "{% "};
    struct text *text = maker->text;
    struct name name = name_of("scan");
    if (maker->list->words > 0)
        name = maker->list->names[below(maker->draws, maker->list->words)];
    if (name.length < 2 || name.length > NAME_AT_MOST - 1)
        name = name_of("scan");
    switch (below(maker->draws, 4)) {
    case 0:
        add_string(text, "{%");
        add_bytes(text, name.bytes, name.length - 1);
        break;
    case 1:
        add_string(text, "{%");
        add_bytes(text, name.bytes, name.length);
        add_string(text, " ");
        break;
    default:
        add_string(text, one_of(maker->draws, before, COUNT(before)));
        add_bytes(text, name.bytes, name.length);
    }
    add_string(text, "}");
}

static void put_unlisted(struct maker *maker)
{
    static const char *const unlisted[] = {
        "{x}", "{%}", "{%unlisted}", "{%%%%}", "{ }", "{x%a}", "{[]d}", "{%\xc3\xa9t\xc3\xa9}", "{x&}", "{ &x}", "{%&unlisted}",
        "{%1234567890123456789012345678901234567890123456789012345678901}",
        "{01234567890123456789012345678901234567890123456789012345678901}",
    };
    if (one_in(maker->draws, 3))
        put_almost_use(maker);
    else
        add_string(maker->text, one_of(maker->draws, unlisted, COUNT(unlisted)));
}

static void put_usable(struct maker *maker)
{
    if (maker->usable == 0)
        put_unlisted(maker);
    else
        put_use(maker->text, &maker->list->names[below(maker->draws, maker->usable)]);
}

static void put_items(struct maker *maker, size_t items);

static void put_block(struct maker *maker, size_t inside)
{
    add_string(maker->text, "[");
    put_items(maker, inside);
    add_string(maker->text, "]");
}

/* Items at random, about so many, those inside blocks counted too. */
static void put_items(struct maker *maker, size_t items)
{
    static const char *const operators[] = {"a", "b", "c", "d"};
    while (items > 0) {
        size_t inside = below(maker->draws, items);
        items--;
        put_nothings(maker);
        switch (below(maker->draws, 10)) {
        case 0: case 1:
            put_block(maker, inside);
            items -= inside;
            break;
        case 2: case 3: case 4: case 5:
            put_usable(maker);
            break;
        case 6:
            put_unlisted(maker);
            break;
        default:
            add_string(maker->text, one_of(maker->draws, operators, COUNT(operators)));
        }
    }
    put_nothings(maker);
}

static struct maker maker_for(struct draws *draws, const struct word_list *list, size_t usable, struct text *text)
{
    text->length = 0;
    struct maker maker = {.draws = draws, .text = text, .list = list, .usable = usable};
    if (one_in(draws, 3))
        maker.blanks = 2 + below(draws, 6);
    if (one_in(draws, 3))
        maker.annotations = 2 + below(draws, 6);
    return maker;
}

/* So many cells: nested, in a row, tokens of 64 bytes, or uses of a word, which may be linked to any number of cells; what means
   nothing may stand before and behind. */
static void put_cells(struct maker *maker, size_t cells)
{
    static const char token[] = "{01234567890123456789012345678901234567890123456789012345678901}";
    struct text *text = maker->text;
    put_nothings(maker);
    switch (below(maker->draws, maker->usable > 0 ? 5 : 3)) {
    case 0:
        add_times(text, "[", cells);
        put_nothings(maker);
        add_times(text, "]", cells);
        break;
    case 1:
        add_times(text, token, cells);
        break;
    case 2:
        add_times(text, "d", cells);
        break;
    default:
        for (const struct name *used = &maker->list->names[below(maker->draws, maker->usable)]; cells > 0; cells--)
            put_use(text, used);
    }
    put_nothings(maker);
}

/* A text that is not acceptable: for its 4,097 cells, rarely for its length, or for a fault among a few items. A token at one
   of its edges may be right, and then so is the text. */
static void put_bad_text(struct maker *maker)
{
    static const char *const faulty[] = {
        "x", "#", "}", "A", "\x80", "\t", "{", "{}", "{x", "{\n}", "{%", "{%{}", "{\xff}", "{%\xc3}", "{%\xef\xbf\xbd}",
        "{a{b}", "{012345678901234567890123456789012345678901234567890123456789012}", "]", "[]]", "[{x}]]", "][", "[", "[[]",
        "[{]}", "&", "{&", "{&{}", "{&\n}", "{&\xff}", "{&%\xef\xbf\xbd}", "{&jit", "{&jit}}",
        "{&12345678901234567890123456789012345678901234567890123456789012}",
    };
    if (one_in(maker->draws, 40)) {
        put_cells(maker, CELLS_AT_MOST + 1);
        return;
    }
    if (one_in(maker->draws, 300)) {
        add_times(maker->text, one_in(maker->draws, 2) ? " " : one_in(maker->draws, 2) ? "a" : "{&}", TEXT_ROOM);
        return;
    }
    put_items(maker, below(maker->draws, 4));
    if (one_in(maker->draws, 3))
        add_edge_token(maker->draws, maker->text);
    else
        add_string(maker->text, one_of(maker->draws, faulty, COUNT(faulty)));
    put_items(maker, below(maker->draws, 4));
}

/* One byte of a text becomes another, or goes. */
static void damage_text(struct draws *draws, struct text *text)
{
    static const char usual[] = "abcd[]{}%& \nx";
    if (text->length == 0)
        return;
    size_t at = below(draws, text->length);
    if (one_in(draws, 2)) {
        text->bytes[at] = (uint8_t)(one_in(draws, 4) ? below(draws, 256) : (size_t)usual[below(draws, sizeof usual - 1)]);
        return;
    }
    memmove(text->bytes + at, text->bytes + at + 1, text->length - at - 1);
    text->length--;
}

/* ---- Words. ---- */

static void append(struct word_list *list, const void *bytes, size_t length)
{
    size_t left = WORD_LIST_ROOM - list->length;
    size_t taken = length < left ? length : left;
    memcpy(list->bytes + list->length, bytes, taken);
    list->length += taken;
}

static void append_count(struct word_list *list, size_t count)
{
    uint8_t bytes[NUMBER_BYTES];
    write_number(bytes, count);
    if (list->counted < COUNTS_ROOM)
        list->counts[list->counted++] = list->length;
    append(list, bytes, sizeof bytes);
}

static void begin_list(struct word_list *list, size_t words)
{
    list->length = list->counted = 0;
    append_count(list, words);
}

static void append_word(struct word_list *list, const struct name *name, const struct text *text)
{
    append_count(list, name->length);
    append(list, name->bytes, name->length);
    append_count(list, text->length);
    append(list, text->bytes, text->length);
}

/* What is wrong with the word of a rank. */
enum flaw { NONE, BAD_NAME, EQUAL_NAME, SELF_USE, LATER_USE, BAD_TEXT, FLAWS };

/* Uses of the word itself, or of one to three that stand later. */
static void put_wrong_uses(struct maker *maker, size_t rank, enum flaw flaw)
{
    size_t later = maker->list->words - rank - 1;
    size_t uses = 1 + below(maker->draws, 3);
    for (; uses > 0; uses--) {
        size_t used = rank + (flaw == SELF_USE || later == 0 ? 0 : 1 + below(maker->draws, later));
        bool inside = one_in(maker->draws, 2);
        add_string(maker->text, inside ? "[" : "");
        put_use(maker->text, &maker->list->names[used]);
        add_string(maker->text, inside ? "]" : "");
        put_items(maker, below(maker->draws, 2));
    }
}

static void put_annotations(struct maker *maker)
{
    for (size_t left = 1 + below(maker->draws, 3); left > 0; left--)
        add_annotation(maker->draws, maker->text);
}

/* Empty, blank, of annotations alone, of the generator of plans, of as many cells as there may be, or of a few items. */
static void put_good_text(struct maker *maker)
{
    size_t kind = below(maker->draws, 400);
    if (kind < 40)
        return;
    if (kind < 55)
        add_string(maker->text, one_in(maker->draws, 2) ? " " : "\n \n");
    else if (kind < 80)
        put_annotations(maker);
    else if (kind < 84)
        make_text(maker->draws, maker->text);
    else if (kind < 86)
        put_cells(maker, CELLS_AT_MOST - below(maker->draws, 2));
    else if (kind < 130)
        put_usable(maker);
    else
        put_items(maker, 1 + below(maker->draws, one_in(maker->draws, 6) ? 20 : 4));
}

static void append_drawn_word(struct draws *draws, struct word_list *list, size_t rank, enum flaw flaw)
{
    static struct text text;
    struct maker maker = maker_for(draws, list, rank, &text);
    if (flaw == SELF_USE || flaw == LATER_USE)
        put_wrong_uses(&maker, rank, flaw);
    else if (flaw == BAD_TEXT)
        put_bad_text(&maker);
    else
        put_good_text(&maker);
    append_word(list, &list->names[rank], &text);
}

/* At most a few flaws in half of the lists; some names are changed by theirs. */
static void draw_flaws(struct draws *draws, struct word_list *list, uint8_t flaws[WORD_ROOM])
{
    memset(flaws, NONE, WORD_ROOM);
    if (list->words == 0 || one_in(draws, 2))
        return;
    for (size_t left = 1 + below(draws, 3); left > 0; left--) {
        size_t rank = below(draws, list->words);
        flaws[rank] = (uint8_t)(1 + below(draws, FLAWS - 1));
        if (flaws[rank] == BAD_NAME)
            list->names[rank] = draw_bad_name(draws);
        if (flaws[rank] == EQUAL_NAME)
            list->names[rank] = list->names[below(draws, list->words)];
    }
}

static size_t draw_word_count(struct draws *draws)
{
    if (one_in(draws, 150))
        return WORDS_AT_MOST - 1 + below(draws, 3);
    return below(draws, one_in(draws, 6) ? 30 : 7);
}

static void ordinary_list(struct draws *draws, struct word_list *list)
{
    uint8_t flaws[WORD_ROOM];
    draw_names(draws, list, draw_word_count(draws));
    draw_flaws(draws, list, flaws);
    begin_list(list, list->words);
    for (size_t rank = 0; rank < list->words; rank++)
        append_drawn_word(draws, list, rank, flaws[rank]);
}

/* ---- Lists that grow. ---- */

static void name_by_ranks(struct word_list *list, size_t words)
{
    list->words = words;
    for (size_t rank = 0; rank < words; rank++) {
        char name[24];
        snprintf(name, sizeof name, "w%zu", rank);
        list->names[rank] = name_of(name);
    }
}

void growing_list(struct word_list *list, size_t words, size_t uses, size_t blocks, const char *first, const char *behind)
{
    static struct text text;
    name_by_ranks(list, words);
    begin_list(list, words);
    text.length = 0;
    add_string(&text, first);
    for (size_t rank = 0; rank < words; rank++) {
        append_word(list, &list->names[rank], &text);
        text.length = 0;
        add_times(&text, "[", blocks);
        for (size_t left = uses; left > 0; left--)
            put_use(&text, &list->names[rank]);
        add_times(&text, "]", blocks);
        add_string(&text, behind);
    }
}

size_t use_last_word(const struct word_list *list, uint8_t *text)
{
    const struct name *name = &list->names[list->words - 1];
    memcpy(text, "{%", 2);
    memcpy(text + 2, name->bytes, name->length);
    text[2 + name->length] = '}';
    return name->length + 3;
}

/* Lists that would grow past every bound if they were written out, about to the limit, or not at all. */
static void drawn_growing_list(struct draws *draws, struct word_list *list)
{
    static const char *const firsts[] = {"", "{&}", " \n", "a", "a", "ab", "[]", "{x}", "{%}", "{%unlisted}", "[[{y}]c]",
                                         "{&jit}a", "[{&}]{&}", "{x&}"};
    static const char *const behinds[] = {"", "d", "{&}"};
    const char *first = one_of(draws, firsts, COUNT(firsts));
    size_t words = one_in(draws, 4) ? WORDS_AT_MOST - below(draws, 2) : 1 + below(draws, 20);
    switch (below(draws, 4)) {
    case 0:
        growing_list(list, words, 2, 0, first, "");
        break;
    case 1:
        growing_list(list, words, 1, below(draws, 20), first, "");
        break;
    default:
        growing_list(list, words, below(draws, 4), below(draws, 3), first, one_of(draws, behinds, COUNT(behinds)));
    }
}

/* ---- Cut, continued, damaged. ---- */

/* A count for a count's place: small, one off, huge, or such that a sum of 32 bits comes back to the list. */
static uint32_t draw_count(struct draws *draws, const struct word_list *list, uint32_t old)
{
    static const uint32_t odd[] = {UINT32_MAX, 0x7fffffff, 0x80000000, 0x80000001, 0x40000000, 0x1000000, 0x10001, 0x10000,
                                   0x101, 0x100, 0xff, 62, 61};
    switch (below(draws, 5)) {
    case 0: case 1: return one_in(draws, 2) ? old + 1 : old - 1;
    case 2: return (uint32_t)below(draws, 5);
    case 3: return 0u - (uint32_t)below(draws, list->length + 8);
    default: return odd[below(draws, COUNT(odd))];
    }
}

/* The first count, which is that of the words, as often as all others together. */
static void damage_count(struct draws *draws, struct word_list *list)
{
    size_t at = list->counts[one_in(draws, 2) ? 0 : below(draws, list->counted)];
    uint8_t *bytes = list->bytes + at;
    if (at + 4 > list->length)
        return;
    uint32_t old = (uint32_t)bytes[0] | (uint32_t)bytes[1] << 8 | (uint32_t)bytes[2] << 16 | (uint32_t)bytes[3] << 24;
    write_number(bytes, draw_count(draws, list, old));
}

static void damage_byte(struct draws *draws, struct word_list *list)
{
    if (list->length == 0)
        return;
    size_t at = below(draws, list->length);
    switch (below(draws, 3)) {
    case 0:
        list->bytes[at] = (uint8_t)below(draws, 256);
        break;
    case 1:
        list->bytes[at] ^= (uint8_t)(1 << below(draws, 8));
        break;
    default:
        memmove(list->bytes + at, list->bytes + at + 1, list->length - at - 1);
        list->length--;
    }
}

/* Anywhere, or in the last few bytes, or just before or behind a count. */
static void cut(struct draws *draws, struct word_list *list)
{
    size_t at = list->counts[below(draws, list->counted)] + 4 * below(draws, 2);
    switch (below(draws, 4)) {
    case 0:
        list->length -= below(draws, list->length < 8 ? list->length + 1 : 8);
        break;
    case 1:
        list->length = at < list->length ? at : list->length;
        break;
    default:
        list->length = below(draws, list->length + 1);
    }
}

static void damage_list(struct draws *draws, struct word_list *list)
{
    switch (below(draws, 8)) {
    case 0: case 1:
        cut(draws, list);
        break;
    case 2:
        append(list, "\0\0\0\0\0\0\0\0{%", 1 + below(draws, 10));
        break;
    case 3:
        list->names[list->words] = draw_name(draws); /* of a word more than the count says */
        append_drawn_word(draws, list, list->words, NONE);
        break;
    case 4: case 5:
        damage_count(draws, list);
        break;
    default:
        damage_byte(draws, list);
    }
}

/* Bytes at random, most of them such as short words are made of. */
static void scribble(struct draws *draws, struct word_list *list)
{
    static const uint8_t usual[] = {0, 0, 0, 0, 0, 0, 0, 1, 1, 2, 3, 4, 'p', '{', '%', '&', '}'};
    list->words = list->length = list->counted = 0;
    for (size_t left = below(draws, 30); left > 0; left--) {
        uint8_t byte = one_in(draws, 30) ? (uint8_t)below(draws, 256) : usual[below(draws, COUNT(usual))];
        append(list, &byte, 1);
    }
}

void make_word_list(struct draws *draws, struct word_list *list)
{
    size_t shape = below(draws, 100);
    if (shape < 2) {
        scribble(draws, list);
        return;
    }
    if (shape < 14)
        drawn_growing_list(draws, list);
    else
        ordinary_list(draws, list);
    if (one_in(draws, 6))
        for (size_t left = 1 + below(draws, 2); left > 0; left--)
            damage_list(draws, list);
}

/* ---- Texts to link. ---- */

/* The cells that a word of the list is linked to; more than the limit where the word is too big, or the list is refused. */
static size_t cells_of(const struct word_list *list, const struct name *name)
{
    static uint8_t out[PRINTED_AT_MOST];
    static struct text use;
    uint32_t answer[5];
    use.length = 0;
    put_use(&use, name);
    twin_link(list->bytes, list->length, use.bytes, use.length, out, sizeof out, answer);
    return answer[0] == 3 ? answer[2] : CELLS_AT_MOST + 1;
}

/* Uses of one word, and then other items up to a number of cells about the limit. A word of no cells is used about as often as
   there may be cells, so that the text's own are too many and the linked plan's are not. An annotation that was counted would be
   one too many. */
static void put_edge(struct maker *maker)
{
    struct draws *draws = maker->draws;
    size_t limit = CELLS_AT_MOST - 1 + below(draws, 3), cells = 0, uses = 0;
    if (maker->usable > 0) {
        const struct name *used = &maker->list->names[below(draws, maker->usable)];
        cells = cells_of(maker->list, used);
        uses = cells == 0 ? CELLS_AT_MOST - 100 + below(draws, 300) : limit / cells;
        uses = one_in(draws, 3) ? below(draws, uses + 1) : uses;
        for (size_t left = uses; left > 0; left--)
            put_use(maker->text, used);
    }
    size_t rest = limit - uses * cells;
    if (cells == 0 && one_in(draws, 2))
        rest = below(draws, 10);
    maker->usable = 0;
    put_cells(maker, rest);
}

/* A text of the longest length, or one byte longer. */
static void put_longest(struct maker *maker)
{
    static const char *const filling[] = {"a", " ", " ", "{&}"};
    put_items(maker, below(maker->draws, 5));
    add_times(maker->text, one_of(maker->draws, filling, COUNT(filling)), TEXT_ROOM - maker->text->length);
    maker->text->length -= below(maker->draws, 2);
}

void make_text_to_link(struct draws *draws, const struct word_list *list, struct text *text)
{
    struct maker maker = maker_for(draws, list, list->words, text);
    size_t shape = below(draws, 1000);
    if (shape < 550)
        put_items(&maker, 1 + below(draws, one_in(draws, 4) ? 24 : 6));
    else if (shape < 680)
        put_usable(&maker);
    else if (shape < 720)
        put_edge(&maker);
    else if (shape < 800)
        make_text(draws, text);
    else if (shape < 900)
        put_bad_text(&maker);
    else if (shape < 960)
        put_good_text(&maker);
    else if (shape < 996)
        put_items(&maker, 2 + below(draws, 10));
    else
        put_longest(&maker);
    if (shape >= 960 && shape < 996)
        damage_text(draws, text);
}
