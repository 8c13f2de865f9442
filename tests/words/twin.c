/* Linking in five parts, as its rules have them: bytes to words; texts to plans; which rank is at fault; linking, on plain
   trees; and the answer, in the order of the refusals. Each part has the words of the rules that it follows above it.
   Whether a text is acceptable, and what is wrong with it, is asked of the twin of plans.

   Linking takes the words in the order of their ranks, so each finds those that it uses linked before it. A linked plan
   holds the items of the words in it, not copies of them, and is made only where its cells are within the limit: so a list
   that doubles with each word costs no more than any other. All items are freed at the end, at once. */
#include "words/twin.h"

#include <stdbool.h>
#include <stdlib.h>
#include <string.h>

#include "plan/twin.h"
#include "shared/answers.h"
#include "shared/bytes.h"

enum { READ = 3, OVERFULL = 17, OUTSHORT = 18, BADWORDS = 26 };
enum { WORDS_LIMIT = 256, TOKEN_LIMIT = 64, CELL_LIMIT = 4096, NO_FAULT = -1 };

struct item;

struct sequence {
    struct item **items;
    size_t count;
    size_t room;
};

struct item {
    char kind;          /* an operator's letter, '{' for a token, '[' for a block */
    struct bytes token; /* a token's bytes, braces too: they stay where they were read */
    struct sequence inside;
};

/* What a text reads as. */
struct plan {
    struct sequence outer;
    struct sequence all; /* every item at any depth, in the order of their first bytes */
};

struct word {
    struct bytes name;
    struct bytes text;
    bool acceptable;
    struct plan plan;       /* where the text is acceptable */
    size_t cells;           /* of the linked plan; more than the limit are not told apart */
    struct sequence linked; /* the linked plan, where its cells are within the limit */
};

struct list {
    bool counted; /* the count is not cut */
    uint32_t count;
    struct word words[WORDS_LIMIT];
    size_t whole;         /* so many words are there, and not cut */
    size_t behind;        /* where all are: the bytes after the last */
    struct sequence made; /* every item that was ever made */
};

static void push(struct sequence *to, struct item *item)
{
    if (to->count == to->room) {
        to->room = to->room == 0 ? 4 : 2 * to->room;
        to->items = need(realloc(to->items, to->room * sizeof *to->items));
    }
    to->items[to->count++] = item;
}

static void push_all(struct sequence *to, const struct sequence *from)
{
    for (size_t i = 0; i < from->count; i++)
        push(to, from->items[i]);
}

static struct item *new_item(struct list *list, char kind)
{
    struct item *item = need(calloc(1, sizeof *item));
    item->kind = kind;
    push(&list->made, item);
    return item;
}

/* ---- Bytes to words. ---- */

/* "A word list is a count, then for each word its name's byte count, its name, its text's byte count, its text", "all counts four
   bytes, lowest first" */
static void take_words(struct bytes bytes, struct list *list)
{
    size_t at = 0;
    list->counted = take_number(bytes, &at, &list->count);
    if (!list->counted || list->count > WORDS_LIMIT)
        return;
    while (list->whole < list->count) {
        struct word *word = &list->words[list->whole];
        if (!take_counted(bytes, &at, &word->name) || !take_counted(bytes, &at, &word->text))
            return;
        list->whole++;
    }
    list->behind = bytes.length - at;
}

/* ---- Texts to plans. ---- */

/* What stands at a byte of a text: a token whole, else that byte. */
static struct bytes piece_at(struct bytes text, size_t at)
{
    const uint8_t *first = text.start + at, *last = first;
    if (*first == '{')
        last = memchr(first, '}', text.length - at);
    return (struct bytes){first, (size_t)(last - first) + 1};
}

/* "A token whose text starts with `&` (also `{&}`) ... means nothing, like SP", so that "a word's text or a plan text with
   annotations links as without them". */
static bool means_nothing(struct bytes piece)
{
    return *piece.start == ' ' || *piece.start == '\n' || (*piece.start == '{' && piece.start[1] == '&');
}

/* The plan of a text that has none of 11, 13, 15, 16 and 21 to 25 about it, so each { opens a token, and each ] closes a block.
   Items may be any number at any depth, so it keeps its own stack of open blocks. */
static struct plan plan_of(struct list *list, struct bytes text)
{
    struct plan plan = {0};
    struct sequence open = {0};
    struct bytes piece;
    for (size_t at = 0; at < text.length; at += piece.length) {
        piece = piece_at(text, at);
        char first = (char)*piece.start;
        if (first == ']')
            open.count--;
        if (first == ']' || means_nothing(piece))
            continue;
        struct item *item = new_item(list, first);
        push(open.count == 0 ? &plan.outer : &open.items[open.count - 1]->inside, item);
        push(&plan.all, item);
        if (first == '[')
            push(&open, item);
        if (first == '{')
            item->token = piece;
    }
    free(open.items);
    return plan;
}

/* "A text is acceptable when nothing but OUTSHORT could refuse it": the twin of plans reads it, and no output is asked about. */
static void read_words(struct list *list)
{
    for (size_t rank = 0; rank < list->whole; rank++) {
        struct word *word = &list->words[rank];
        struct twin_result read = twin_read(word->text.start, word->text.length);
        word->acceptable = read.number == READ;
        if (word->acceptable)
            word->plan = plan_of(list, word->text);
        twin_free(&read);
    }
}

/* ---- Which rank is at fault. ---- */

/* "A name is not empty and makes an allowed token, `{%` name `}`". A name with a } in it makes two tokens, or none. The second
   may be an annotation, which is no cell, but not printed: so all bytes must be. */
static bool is_name(struct bytes name)
{
    uint8_t token[TOKEN_LIMIT] = "{%";
    size_t length = name.length + 3;
    if (name.length == 0 || length > TOKEN_LIMIT)
        return false;
    memcpy(token + 2, name.start, name.length);
    token[name.length + 2] = '}';
    struct twin_result read = twin_read(token, length);
    twin_free(&read);
    return read.number == READ && read.cells == 1 && read.length == length;
}

/* "a name is what follows the `%`": whether this item is a token with that name. */
static bool names(const struct item *item, struct bytes name)
{
    struct bytes token = item->token;
    if (item->kind != '{' || token.start[1] != '%')
        return false;
    return same_bytes((struct bytes){token.start + 2, token.length - 3}, name);
}

/* "A use inside a block is a use." */
static bool uses(const struct word *user, const struct word *used)
{
    for (size_t i = 0; i < user->plan.all.count; i++)
        if (names(user->plan.all.items[i], used->name))
            return true;
    return false;
}

/* "At fault is: a word that is missing or cut; whose name is empty, makes no allowed token, or stands already at a smaller
   rank; whose text is not acceptable; a word that is used by a word of the same or a smaller rank". A user whose own text is
   not acceptable has no plan and uses nothing here: it is at fault itself, at a rank no larger. */
static bool at_fault(const struct list *list, size_t rank)
{
    const struct word *word = &list->words[rank];
    if (rank >= list->whole || !is_name(word->name) || !word->acceptable)
        return true;
    for (size_t smaller = 0; smaller < rank; smaller++)
        if (same_bytes(list->words[smaller].name, word->name))
            return true;
    for (size_t user = 0; user <= rank; user++)
        if (uses(&list->words[user], word))
            return true;
    return false;
}

/* "the least rank at fault"; "A cut count gives 0; a count over 256 gives 256 at once, whatever follows; bytes after the last
   word give the count." */
static int fault_of(const struct list *list)
{
    if (!list->counted)
        return 0;
    if (list->count > WORDS_LIMIT)
        return WORDS_LIMIT;
    for (size_t rank = 0; rank < list->count; rank++)
        if (at_fault(list, rank))
            return (int)rank;
    return list->behind > 0 ? (int)list->count : NO_FAULT;
}

/* ---- Linking. ---- */

/* The word that an item is a use of; NULL where it is none: "unlisted ones stay". */
static const struct word *used_word(const struct list *list, const struct item *item)
{
    for (size_t rank = 0; rank < list->count; rank++)
        if (names(item, list->words[rank].name))
            return &list->words[rank];
    return NULL;
}

/* "the linked plan's cells are those of the text with each listed token's 1 replaced by those of its word's linked plan". The
   sum stops past the limit; a word has at most that many more than the largest before it, so nothing overflows. */
static size_t linked_cells(const struct list *list, const struct plan *plan)
{
    size_t cells = 0;
    for (size_t i = 0; i < plan->all.count && cells <= CELL_LIMIT; i++) {
        const struct word *used = used_word(list, plan->all.items[i]);
        cells += used == NULL ? 1 : used->cells;
    }
    return cells;
}

/* "`{%name}` of a listed word is replaced by the items of its linked plan, spliced into the sequence." Called only where the
   linked cells are within the limit, so every word used in it has its linked plan, and no block is deeper than so many. */
static struct sequence link_sequence(struct list *list, const struct sequence *from)
{
    struct sequence linked = {0};
    for (size_t i = 0; i < from->count; i++) {
        struct item *item = from->items[i];
        const struct word *used = used_word(list, item);
        if (used != NULL) {
            push_all(&linked, &used->linked);
        } else if (item->kind == '[') {
            struct item *block = new_item(list, '[');
            block->inside = link_sequence(list, &item->inside);
            push(&linked, block);
        } else {
            push(&linked, item);
        }
    }
    return linked;
}

/* "A word may use only words that stand before it in the list": these are linked by then. */
static void link_words(struct list *list)
{
    for (size_t rank = 0; rank < list->count; rank++) {
        struct word *word = &list->words[rank];
        word->cells = linked_cells(list, &word->plan);
        if (word->cells <= CELL_LIMIT)
            word->linked = link_sequence(list, &word->plan.outer);
    }
}

/* ---- The answer. ---- */

static void refuse(uint32_t answer[5], uint32_t number, size_t place)
{
    put_answer(answer, number, 0, 0, 0, place);
}

static size_t printed_length(const struct sequence *plan)
{
    size_t sum = 0;
    for (size_t i = 0; i < plan->count; i++) {
        const struct item *item = plan->items[i];
        sum += item->kind == '{' ? item->token.length : item->kind == '[' ? 2 + printed_length(&item->inside) : 1;
    }
    return sum;
}

/* Prints from a byte on, and says where it ended. */
static uint8_t *print(const struct sequence *plan, uint8_t *to)
{
    for (size_t i = 0; i < plan->count; i++) {
        const struct item *item = plan->items[i];
        if (item->kind == '{') {
            memcpy(to, item->token.start, item->token.length);
            to += item->token.length;
        } else {
            *to++ = (uint8_t)item->kind;
        }
        if (item->kind == '[') {
            to = print(&item->inside, to);
            *to++ = ']';
        }
    }
    return to;
}

/* "then OUTSHORT (18), place the bytes needed. Otherwise 3 READ, steps 0, the linked plan's cells and length, place 0, its
   printed text first in the output, the other bytes untouched." */
static void write_linked(const struct sequence *linked, size_t cells, uint8_t *out, size_t out_length, uint32_t answer[5])
{
    size_t length = printed_length(linked);
    if (length > out_length) {
        refuse(answer, OUTSHORT, length);
        return;
    }
    print(linked, out);
    put_answer(answer, READ, 0, cells, length, 0);
}

/* "Then 11 and 13 to 16 of the plan text, as they now stand; the text's own cells do not matter: then OVERFULL (17), place 0,
   exactly when the linked plan has more than 4,096 cells". What was 14 is now 21 to 25, passed on with its place. */
static void link_text(struct list *list, struct bytes text, uint8_t *out, size_t out_length, uint32_t answer[5])
{
    struct twin_result read = twin_read(text.start, text.length);
    twin_free(&read);
    if (read.number != READ && read.number != OVERFULL) {
        refuse(answer, read.number, read.place);
        return;
    }
    struct plan plan = plan_of(list, text);
    size_t cells = linked_cells(list, &plan);
    if (cells > CELL_LIMIT) {
        refuse(answer, OVERFULL, 0);
    } else {
        struct sequence linked = link_sequence(list, &plan.outer);
        write_linked(&linked, cells, out, out_length, answer);
        free(linked.items);
    }
    free(plan.outer.items);
    free(plan.all.items);
}

static void free_list(struct list *list)
{
    for (size_t rank = 0; rank < list->whole; rank++) {
        struct word *word = &list->words[rank];
        free(word->plan.outer.items);
        free(word->plan.all.items);
        free(word->linked.items);
    }
    for (size_t i = 0; i < list->made.count; i++) {
        free(list->made.items[i]->inside.items);
        free(list->made.items[i]);
    }
    free(list->made.items);
    free(list);
}

void twin_link(const uint8_t *list_bytes, size_t list_length, const uint8_t *text, size_t text_length, uint8_t *out,
               size_t out_length, uint32_t answer[5])
{
    struct list *list = need(calloc(1, sizeof *list));
    take_words((struct bytes){list_bytes, list_length}, list);
    read_words(list);
    int fault = fault_of(list);
    if (fault != NO_FAULT) {
        refuse(answer, BADWORDS, (size_t)fault);
    } else {
        link_words(list);
        link_text(list, (struct bytes){text, text_length}, out, out_length, answer);
    }
    free_list(list);
}
