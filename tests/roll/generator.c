/* How the rolls are made. Entries are put one behind the other for a small cast of jobs, whose state is followed so that most
   entries obey the rules; an entry that breaks one comes among them at times. Then the roll may be cut, continued behind the
   cut, and damaged. Rolls are short most often, since many short ones reach more corners than few long ones. Bytes past a
   roll's room are dropped, so nothing has to count. */
#include "roll/generator.h"

#include <string.h>

#include "plan/twin.h"
#include "shared/bytes.h"

/* ---- Texts. ---- */

/* What the rules make of a text. The first two are printed texts of accepted plans. The third would be one without its blanks,
   the fourth without its annotations. */
enum text_kind { FINISHED, UNFINISHED, BLANKED, ANNOTATED, FAULTY };

enum { READ = 3, RUN_DONE = 0, RANDOM_TEXT_AT_MOST = 600, TRIES = 6 };

/* No operator has its blocks just before it: too few of them, a token between, or letters in a token. A `&` in a token that does
   not start its text makes no annotation. */
static const struct piece finished_texts[] = {
    PIECE(""), PIECE("{x}"), PIECE("[]"), PIECE("d"), PIECE("abcd"), PIECE("[{x}]{y}d"), PIECE("[]a"), PIECE("[]b"),
    PIECE("[{x}][{y}]{z}a"), PIECE("[][]{x}[]b"), PIECE("[[{x}]{y}]"), PIECE("[[]a]"), PIECE("[d[c[b[a]]]]"), PIECE("a[]"),
    PIECE("{[]d}"), PIECE("[{]}]{[]}d"), PIECE("{ }"), PIECE("[{a b}]"), PIECE("[{x}]a[]a[{y}]"),
    PIECE("{\xc3\xa9}[{\xe2\x82\xac}]"), PIECE("[{p}]{q}c[[{r}]{s}d[]a]"), PIECE("{y}[{x}]"), PIECE("[[{p}]{q}][{p}]{r}"),
    PIECE("[{move arm}{to rest}][{scan left}{scan right}]{settle}[{log}]"),
    PIECE("{01234567890123456789012345678901234567890123456789012345678901}"),
    PIECE("{x&}"), PIECE("[{x}]{y&jit}d"), PIECE("{%&x}"), PIECE("[{ &}]"),
};

/* An operator is ready: at the end, in the middle, only inside a block, only inside two, only behind two blocks. */
static const struct piece unfinished_texts[] = {
    PIECE("[]d"), PIECE("[]c"), PIECE("[][]a"), PIECE("[][]b"), PIECE("[{x}][{y}]a"), PIECE("[{x}][{y}][]ba"),
    PIECE("[]d{x}"), PIECE("[]dabcd"), PIECE("d[]d"), PIECE("[]{x}d[]c"), PIECE("[[]d]"), PIECE("[[[]d]]"),
    PIECE("[[[[{x}]c]]{y}]"), PIECE("{x}[{y}[][]b]"), PIECE("[{x}][{y}][[]d]"), PIECE("[][]{z}[[[]c]]"), PIECE("[a[][]a]{x}"),
    PIECE("[[{x}]d][]"), PIECE("[[][]a]a"), PIECE("[{x}]{y}[{z}]{w}[[{v}]d]{u}"), PIECE("[{]}]d"),
    PIECE("[c[][]baad]c[][]baad"), PIECE("[{move arm}{to rest}][{scan left}{scan right}[{log}]c]{settle}"),
    PIECE("[[[]a][]b][]{x}"), PIECE("[[]a][]b"), PIECE("[{x&}]d"), PIECE("[{%&x}]{x&y}[[]c]"),
};

static const struct piece blanked_texts[] = {
    PIECE(" "), PIECE("\n"), PIECE(" {x}"), PIECE("{x} "), PIECE("[ ]"), PIECE("[] d"), PIECE("[{x}]\n[{y}]a"),
    PIECE("[[]d]\n"), PIECE("{a b} {c}"), PIECE("[{move arm} {to rest}] [{scan left} {scan right}] {settle} [{log}]"),
};

/* Annotations alone, first, last, in a block, between blocks and operator, beside a token and a blank, and as long as may be. */
static const struct piece annotated_texts[] = {
    PIECE("{&}"), PIECE("{&jit}"), PIECE("{& }{&}"), PIECE("{&}{x}"), PIECE("{x}{&}"), PIECE("[{&}]"), PIECE("[]{&jit}"),
    PIECE("{&}[]d"), PIECE("[]d{&}"), PIECE("[]{&}d"), PIECE("[{x}][{y}]{&jit}a"), PIECE("[{x}]{&jit}[{y}]a"),
    PIECE("[[]{&}d]"), PIECE("[[{&]}]{&[]d}d]"), PIECE("[{x}]{&}{y}d"), PIECE("{&\xc3\xa9}[{\xe2\x82\xac}]"), PIECE("{&%p}"),
    PIECE("{&} {x}"), PIECE("{x}{&1234567890123456789012345678901234567890123456789012345678901}"),
    PIECE("[{move arm}{to rest}][{scan left}{scan right}]{settle}{&log}"),
};

static const struct piece faulty_texts[] = {
    PIECE("x"), PIECE("]"), PIECE("["), PIECE("[]]"), PIECE("[[]"), PIECE("{}"), PIECE("{"), PIECE("}"), PIECE("{x"),
    PIECE("{x}}"), PIECE("{a{b}"), PIECE("{\xff}"), PIECE("{\xc3}"), PIECE("{\xef\xbf\xbd}"), PIECE("{\n}"), PIECE("{\x7f}"),
    PIECE("\0"), PIECE("[]d\0"), PIECE("[]d#"), PIECE("a\tb"), PIECE("[{x}]e"), PIECE("]["), PIECE("[]d]"), PIECE("\r"),
    PIECE("{012345678901234567890123456789012345678901234567890123456789012}"), PIECE("&"), PIECE("{&"), PIECE("{&{}"),
    PIECE("{&\xff}"), PIECE("{&\n}"), PIECE("{x}{&}&"),
    PIECE("{&12345678901234567890123456789012345678901234567890123456789012}"),
};

static const struct {
    const struct piece *pieces;
    size_t count;
} pools[] = {
    [FINISHED] = {finished_texts, COUNT(finished_texts)},
    [UNFINISHED] = {unfinished_texts, COUNT(unfinished_texts)},
    [BLANKED] = {blanked_texts, COUNT(blanked_texts)},
    [ANNOTATED] = {annotated_texts, COUNT(annotated_texts)},
    [FAULTY] = {faulty_texts, COUNT(faulty_texts)},
};

static void set_text(struct text *text, const void *bytes, size_t length)
{
    memcpy(text->bytes, bytes, length);
    text->length = length;
}

static void draw_known_text(struct draws *draws, enum text_kind kind, struct text *text)
{
    const struct piece *piece = &pools[kind].pieces[below(draws, pools[kind].count)];
    set_text(text, piece->bytes, piece->length);
}

/* As many cells as there may be, or one more: nested, or each a token of 64 bytes. Also a text over the limit of all texts. */
static void draw_large_text(struct draws *draws, enum text_kind kind, struct text *text)
{
    static const char token[] = "{01234567890123456789012345678901234567890123456789012345678901}";
    bool tokens = one_in(draws, 4);
    size_t cells = CELLS_AT_MOST;
    if (kind == FAULTY)
        cells++;
    if (kind == UNFINISHED)
        cells -= 2;
    text->length = 0;
    if (kind == FAULTY && one_in(draws, 8)) {
        add_times(text, "a", TEXT_ROOM);
        return;
    }
    add_times(text, tokens ? token : "[", cells);
    add_times(text, kind == UNFINISHED ? "[]d" : kind == BLANKED ? " " : kind == ANNOTATED ? "{&}" : "", 1);
    add_times(text, "]", tokens ? 0 : cells);
}

static enum text_kind kind_of(const struct text *text)
{
    struct twin_result read = twin_read(text->bytes, text->length);
    struct twin_result run = twin_run(text->bytes, text->length, 0, 4 * CELLS_AT_MOST);
    enum text_kind kind = run.number == RUN_DONE ? FINISHED : UNFINISHED;
    if (read.length != text->length)
        kind = opens_annotation(text->bytes, text->length) ? ANNOTATED : BLANKED;
    if (read.number != READ)
        kind = FAULTY;
    twin_free(&read);
    twin_free(&run);
    return kind;
}

/* A text becomes what its run of a few steps prints: a plan that a run has left finished has many operators that are almost
   ready. */
static void run_a_little(struct text *text, uint32_t quota)
{
    struct twin_result run = twin_run(text->bytes, text->length, quota, 4 * RANDOM_TEXT_AT_MOST);
    if (run.printed != NULL && run.length <= RANDOM_TEXT_AT_MOST)
        set_text(text, run.printed, run.length);
    twin_free(&run);
}

/* A text of random shape, drawn until it is of the kind; false where none of a few was. */
static bool draw_random_text(struct draws *draws, enum text_kind kind, struct text *text)
{
    for (int tried = 0; tried < TRIES; tried++) {
        make_text(draws, text);
        if (text->length > RANDOM_TEXT_AT_MOST)
            continue;
        if (kind == FINISHED)
            run_a_little(text, 60);
        if (kind == UNFINISHED)
            run_a_little(text, (uint32_t)below(draws, 3));
        if (kind_of(text) == kind)
            return true;
    }
    return false;
}

static void draw_text(struct draws *draws, enum text_kind kind, struct text *text)
{
    if (one_in(draws, 400))
        draw_large_text(draws, kind, text);
    else if (!one_in(draws, 3) || !draw_random_text(draws, kind, text))
        draw_known_text(draws, kind, text);
}

void make_filed_text(struct draws *draws, struct text *text)
{
    static const enum text_kind kinds[] = {FINISHED,   FINISHED,   FINISHED, FINISHED,  UNFINISHED, UNFINISHED,
                                           UNFINISHED, UNFINISHED, BLANKED,  ANNOTATED, ANNOTATED,  FAULTY};
    draw_text(draws, kinds[below(draws, COUNT(kinds))], text);
}

/* ---- Job numbers. ---- */

static const struct piece good_jobs[] = {
    PIECE("7"), PIECE("07"), PIECE("0"), PIECE("00"), PIECE("9"), PIECE("12"), PIECE("70"), PIECE("007"), PIECE("1234567890"),
    PIECE("0000000007"), PIECE("4294967295"), PIECE("4294967303"), PIECE("9999999999"), PIECE("123456789"),
};

static const struct piece bad_jobs[] = {
    PIECE(""), PIECE("12345678901"), PIECE("00000000007"), PIECE("a"), PIECE("7a"), PIECE("/"), PIECE(":"), PIECE("1/"),
    PIECE(":7"), PIECE("-1"), PIECE("+7"), PIECE(" 7"), PIECE("7 "), PIECE("7\0"), PIECE("\0"), PIECE("\xb7"), PIECE("7\n"),
    PIECE("12345678901234567890"), PIECE("123456789a"),
};

static void set_job(struct job *job, const struct piece *piece)
{
    memcpy(job->bytes, piece->bytes, piece->length);
    job->length = piece->length;
}

static void draw_digits(struct draws *draws, size_t length, struct job *job)
{
    job->length = length;
    for (size_t i = 0; i < length; i++)
        job->bytes[i] = (uint8_t)('0' + below(draws, 10));
}

static void draw_good_job(struct draws *draws, struct job *job)
{
    if (one_in(draws, 3))
        draw_digits(draws, one_in(draws, 3) ? 10 : 1 + below(draws, 10), job);
    else
        set_job(job, &good_jobs[below(draws, COUNT(good_jobs))]);
}

/* Too long, empty, or with a byte that is no digit; the last kind is at random. */
static void draw_bad_job(struct draws *draws, struct job *job)
{
    switch (below(draws, 4)) {
    case 0:
        draw_digits(draws, 11 + below(draws, 4), job);
        break;
    case 1:
        draw_digits(draws, 1 + below(draws, 10), job);
        job->bytes[below(draws, job->length)] = (uint8_t)below(draws, 256);
        break;
    default:
        set_job(job, &bad_jobs[below(draws, COUNT(bad_jobs))]);
    }
}

static bool in_cast(const struct roll *roll, const struct job *job)
{
    for (size_t i = 0; i < roll->jobs; i++) {
        const struct job *known = &roll->cast[i].job;
        if (known->length == job->length && memcmp(known->bytes, job->bytes, job->length) == 0)
            return true;
    }
    return false;
}

/* A job that is not in the cast. */
static void draw_fresh_job(struct draws *draws, const struct roll *roll, struct job *job)
{
    do
        draw_good_job(draws, job);
    while (in_cast(roll, job));
}

void make_job(struct draws *draws, const struct roll *roll, struct job *job)
{
    if (one_in(draws, 10)) {
        draw_bad_job(draws, job);
        return;
    }
    draw_good_job(draws, job);
    if (one_in(draws, 8))
        return;
    /* A job that is filed and not done is asked for most, since there most answers part. */
    for (int tried = 0; tried < TRIES; tried++) {
        const struct cast_job *cast = &roll->cast[below(draws, roll->jobs)];
        *job = cast->job;
        if ((cast->filed && !cast->done) || one_in(draws, 4))
            return;
    }
}

/* A cast of jobs, often with 7 and 07 in it. */
static void draw_cast(struct draws *draws, struct roll *roll)
{
    size_t jobs = 1 + below(draws, CAST_ROOM);
    roll->jobs = 0;
    if (one_in(draws, 2)) {
        roll->cast[0] = (struct cast_job){.job = {"7", 1}};
        roll->cast[1] = (struct cast_job){.job = {"07", 2}};
        roll->jobs = 2;
    }
    while (roll->jobs < jobs) {
        struct cast_job fresh = {0};
        draw_fresh_job(draws, roll, &fresh.job);
        roll->cast[roll->jobs++] = fresh;
    }
}

/* ---- Entries. ---- */

static void note(struct noted *noted, size_t at)
{
    if (noted->count < NOTED_ROOM)
        noted->at[noted->count++] = at;
}

static void put_bytes(struct roll *roll, const void *bytes, size_t length)
{
    size_t left = ROLL_ROOM - roll->length;
    size_t taken = length < left ? length : left;
    memcpy(roll->bytes + roll->length, bytes, taken);
    roll->length += taken;
    if (roll->extent < roll->length)
        roll->extent = roll->length;
}

static void put_number(struct roll *roll, uint32_t number)
{
    uint8_t bytes[NUMBER_BYTES];
    write_number(bytes, number);
    note(&roll->numbers, roll->length);
    put_bytes(roll, bytes, sizeof bytes);
}

static void put_section(struct roll *roll, const void *bytes, size_t length)
{
    put_number(roll, (uint32_t)length);
    put_bytes(roll, bytes, length);
}

static void begin_entry(struct roll *roll, uint32_t sections)
{
    note(&roll->places, roll->length);
    put_number(roll, sections);
}

static void put_filed(struct draws *draws, struct roll *roll, const struct job *job, enum text_kind kind)
{
    static struct text text;
    draw_text(draws, kind, &text);
    begin_entry(roll, 2);
    put_section(roll, job->bytes, job->length);
    put_section(roll, text.bytes, text.length);
}

static void put_done(struct roll *roll, const struct job *job)
{
    begin_entry(roll, 1);
    put_section(roll, job->bytes, job->length);
}

static void file_cast_job(struct draws *draws, struct roll *roll, struct cast_job *cast, enum text_kind kind)
{
    put_filed(draws, roll, &cast->job, kind);
    cast->filed = true;
    cast->finished = kind == FINISHED;
}

static void finish_cast_job(struct roll *roll, struct cast_job *cast)
{
    put_done(roll, &cast->job);
    cast->done = true;
}

/* A job of the cast that is not done; where none was found a new one takes a done one's part. */
static struct cast_job *open_job(struct draws *draws, struct roll *roll)
{
    struct cast_job *cast = NULL;
    for (int tried = 0; tried < TRIES; tried++) {
        cast = &roll->cast[below(draws, roll->jobs)];
        if (!cast->done)
            return cast;
    }
    struct cast_job fresh = {0};
    draw_fresh_job(draws, roll, &fresh.job);
    *cast = fresh;
    return cast;
}

static void put_good_entry(struct draws *draws, struct roll *roll)
{
    struct cast_job *cast = open_job(draws, roll);
    if (cast->filed && cast->finished && one_in(draws, 2))
        finish_cast_job(roll, cast);
    else
        file_cast_job(draws, roll, cast, one_in(draws, 3) ? UNFINISHED : FINISHED);
}

/* A number of sections other than 1 and 2: none, three, or several of few bytes. */
static void put_odd_sections(struct draws *draws, struct roll *roll)
{
    struct job *job = &roll->cast[0].job;
    uint32_t sections = one_in(draws, 2) ? 3 : 4 + (uint32_t)below(draws, 30);
    if (one_in(draws, 3)) {
        begin_entry(roll, 0);
        return;
    }
    begin_entry(roll, sections);
    put_section(roll, job->bytes, job->length);
    put_section(roll, "[]d", below(draws, 4));
    for (; sections > 2; sections--)
        put_section(roll, "7{x}", below(draws, 5));
}

/* A job that was done before, has no FILED, or has a ready operator in its last text and none in the one before. */
static void put_untimely(struct draws *draws, struct roll *roll)
{
    struct cast_job *cast = open_job(draws, roll);
    struct job fresh;
    switch (below(draws, 4)) {
    case 0:
        draw_fresh_job(draws, roll, &fresh);
        put_done(roll, &fresh);
        return;
    case 1:
        file_cast_job(draws, roll, cast, FINISHED);
        file_cast_job(draws, roll, cast, UNFINISHED);
        break;
    default:
        file_cast_job(draws, roll, cast, FINISHED);
        finish_cast_job(roll, cast);
        if (one_in(draws, 2))
            put_good_entry(draws, roll);
        if (one_in(draws, 2)) {
            file_cast_job(draws, roll, cast, FINISHED);
            return;
        }
    }
    finish_cast_job(roll, cast);
}

/* A whole entry that breaks a rule. */
static void put_bad_entry(struct draws *draws, struct roll *roll)
{
    struct job job;
    switch (below(draws, 10)) {
    case 0: case 1:
        put_odd_sections(draws, roll);
        break;
    case 2:
        draw_bad_job(draws, &job);
        put_filed(draws, roll, &job, FINISHED);
        break;
    case 3:
        draw_bad_job(draws, &job);
        put_done(roll, &job);
        break;
    case 4:
        file_cast_job(draws, roll, open_job(draws, roll), BLANKED);
        break;
    case 5:
        file_cast_job(draws, roll, open_job(draws, roll), FAULTY);
        break;
    case 6: case 7:
        file_cast_job(draws, roll, open_job(draws, roll), ANNOTATED);
        break;
    default:
        put_untimely(draws, roll);
    }
}

/* ---- Cut, continued, damaged. ---- */

/* Anywhere, in the last entry, or where an entry begins. */
static void cut(struct draws *draws, struct roll *roll)
{
    size_t begun = roll->places.count;
    size_t last = begun == 0 ? 0 : roll->places.at[begun - 1];
    switch (below(draws, 4)) {
    case 0: case 1:
        roll->length = below(draws, roll->length + 1);
        break;
    case 2:
        roll->length = last + below(draws, roll->length - last + 1);
        break;
    default:
        if (begun > 0)
            roll->length = roll->places.at[below(draws, begun)];
    }
}

/* Where the entry begins in which the roll was cut. */
static size_t torn_place(const struct roll *roll)
{
    size_t torn = roll->length < 1 ? 0 : 1;
    for (size_t i = 0; i < roll->places.count; i++)
        if (roll->places.at[i] <= roll->length && roll->places.at[i] > torn)
            torn = roll->places.at[i];
    return torn;
}

/* One more entry behind a cut, its torn bytes dropped as they should be, or kept. */
static void go_on(struct draws *draws, struct roll *roll)
{
    struct job fresh;
    if (!one_in(draws, 4))
        roll->length = torn_place(roll);
    if (roll->length == 0)
        put_bytes(roll, "\1", 1);
    if (one_in(draws, 3)) {
        put_good_entry(draws, roll);
        return;
    }
    draw_fresh_job(draws, roll, &fresh);
    put_filed(draws, roll, &fresh, one_in(draws, 2) ? FINISHED : UNFINISHED);
    if (one_in(draws, 3))
        put_done(roll, &fresh);
}

/* A number for a number's place: small, one off, huge, or such that a sum of 32 bits comes back to the roll. */
static uint32_t draw_number(struct draws *draws, const struct roll *roll, uint32_t old)
{
    static const uint32_t odd[] = {UINT32_MAX, 0x7fffffff, 0x80000000, 0x80000001, 0x40000000, 0x40000001, 0x3fffffff, 0x10000,
                                   0x1000000, 0x100};
    switch (below(draws, 5)) {
    case 0: case 1: return (uint32_t)below(draws, 4);
    case 2: return one_in(draws, 2) ? old + 1 : old - 1;
    case 3: return 0u - (uint32_t)below(draws, roll->length + 8);
    default: return odd[below(draws, COUNT(odd))];
    }
}

static void damage_number(struct draws *draws, struct roll *roll)
{
    if (roll->numbers.count == 0)
        return;
    size_t at = roll->numbers.at[below(draws, roll->numbers.count)];
    if (at + 4 > roll->length)
        return;
    uint8_t *bytes = roll->bytes + at;
    uint32_t old = (uint32_t)bytes[0] | (uint32_t)bytes[1] << 8 | (uint32_t)bytes[2] << 16 | (uint32_t)bytes[3] << 24;
    uint32_t number = draw_number(draws, roll, old);
    for (int i = 0; i < 4; i++)
        bytes[i] = (uint8_t)(number >> 8 * i);
}

static void damage(struct draws *draws, struct roll *roll)
{
    if (roll->length == 0)
        return;
    size_t at = below(draws, roll->length);
    switch (below(draws, 8)) {
    case 0:
        roll->bytes[0] = (uint8_t)below(draws, one_in(draws, 2) ? 256 : 4);
        break;
    case 1:
        roll->bytes[at] = (uint8_t)below(draws, 256);
        break;
    case 2:
        roll->bytes[at] ^= (uint8_t)(1 << below(draws, 8));
        break;
    case 3:
        memmove(roll->bytes + at, roll->bytes + at + 1, roll->length - at - 1);
        roll->length--;
        break;
    default:
        damage_number(draws, roll);
    }
}

/* ---- Rolls. ---- */

/* Bytes at random, most of them such as short entries are made of. */
static void scribble(struct draws *draws, struct roll *roll)
{
    static const uint8_t usual[] = {0, 0, 0, 0, 0, 0, 1, 1, 2, 3, 4, '7', '0', '[', ']', 'd'};
    if (!one_in(draws, 8))
        put_bytes(roll, "\1", 1);
    for (size_t left = below(draws, 40); left > 0; left--) {
        uint8_t byte = one_in(draws, 30) ? (uint8_t)below(draws, 256) : usual[below(draws, COUNT(usual))];
        put_bytes(roll, &byte, 1);
    }
    note(&roll->places, 1);
}

static void put_entries(struct draws *draws, struct roll *roll)
{
    size_t entries = one_in(draws, 8) ? below(draws, 50) : below(draws, 11);
    if (one_in(draws, 500))
        entries = 100 + below(draws, 100);
    size_t bad_at = one_in(draws, 4) ? below(draws, entries + 1) : SIZE_MAX;
    for (size_t i = 0; i <= entries; i++) {
        if (i == bad_at)
            put_bad_entry(draws, roll);
        if (i < entries)
            put_good_entry(draws, roll);
    }
}

void make_roll(struct draws *draws, struct roll *roll)
{
    size_t shape = below(draws, 100);
    roll->length = roll->extent = roll->places.count = roll->numbers.count = 0;
    draw_cast(draws, roll);
    if (shape < 4)
        return;
    if (shape < 8) {
        scribble(draws, roll);
        return;
    }
    if (shape < 10)
        put_done(roll, &roll->cast[0].job); /* an entry where the first byte should be; its own first byte is a 1 too */
    else
        put_bytes(roll, "\1", 1);
    put_entries(draws, roll);
    if (one_in(draws, 3)) {
        cut(draws, roll);
        if (one_in(draws, 2))
            go_on(draws, roll);
    }
    if (one_in(draws, 7))
        for (size_t left = 1 + below(draws, 2); left > 0; left--)
            damage(draws, roll);
}

/* ---- What is lent with a roll. ---- */

size_t make_list_length(struct draws *draws, size_t entries)
{
    size_t length;
    switch (below(draws, 8)) {
    case 0: length = entries == 0 ? 0 : entries - 1; break;
    case 1: length = below(draws, entries + 1); break;
    case 2: length = entries + 1; break;
    case 3: case 4: length = entries + below(draws, 20); break;
    default: length = entries;
    }
    return length < LIST_ROOM ? length : LIST_ROOM;
}

size_t make_entry_place(struct draws *draws, const struct roll *roll)
{
    size_t begun = roll->places.count == 0 ? 0 : roll->places.at[below(draws, roll->places.count)];
    switch (below(draws, 16)) {
    case 0: return 0;
    case 1: return begun + 1 + below(draws, 12);
    case 2: return begun == 0 ? 0 : begun - 1;
    case 3: return below(draws, roll->length + 1);
    case 4: return roll->length + below(draws, 8);
    case 5: return roll->length < 8 ? 0 : roll->length - below(draws, 8);
    case 6: return SIZE_MAX - below(draws, 16);
    case 7: return begun + ((size_t)UINT32_MAX + 1) * (1 + below(draws, 3));
    default: return begun;
    }
}

size_t make_used(struct draws *draws, const struct roll *roll)
{
    switch (below(draws, 16)) {
    case 0: case 1: return below(draws, roll->length + 1);
    case 2: return roll->extent;
    case 3: return roll->length + below(draws, 24);
    case 4: return one_in(draws, 2) ? SIZE_MAX : UINT32_MAX;
    case 5: return roll->length + ((size_t)UINT32_MAX + 1);
    default: return roll->length;
    }
}

size_t make_room(struct draws *draws, size_t used, size_t new_end)
{
    size_t room;
    switch (below(draws, 12)) {
    case 0: case 1: case 2: room = new_end; break;
    case 3: room = new_end - 1; break;
    case 4: room = new_end + 1; break;
    case 5: room = used; break;
    case 6: room = below(draws, new_end + 1); break;
    case 7: room = new_end + (one_in(draws, 40) ? 300000 : 3000); break;
    default: room = (used < new_end ? new_end : used) + below(draws, 64);
    }
    return room < BUFFER_ROOM ? room : BUFFER_ROOM;
}

void make_tally(struct draws *draws, const uint32_t right[2], uint32_t tally[2])
{
    bool both_right = one_in(draws, 2);
    for (int i = 0; i < 2; i++) {
        tally[i] = right[i];
        if (both_right)
            continue;
        switch (below(draws, 5)) {
        case 0: tally[i] = UINT32_MAX; break;
        case 1: tally[i] = UINT32_MAX - 1; break;
        case 2: tally[i] = 0; break;
        case 3: tally[i] = (uint32_t)below(draws, (size_t)UINT32_MAX + 1); break;
        default: break;
        }
    }
}
