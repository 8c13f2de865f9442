/* How long the library takes to read a roll, beside plain C that makes the same checks: rolls of three lengths, so that growth
   shows. There are two plain readers. One remembers the places of the entries in memory of its own, and looks backwards for a
   job's last entry; the other has none, as nothing is lent for it, and walks the roll again from its start for each entry. All
   first give their answers, of the roll whole, cut and spoilt, and they must be the same. Nothing here gates. */
#include <inttypes.h>
#include <stdbool.h>
#include <stdio.h>
#include <stdlib.h>
#include <string.h>

#include "roll/twin.h"
#include "shared/answers.h"
#include "shared/bytes.h"
#include "shared/clock.h"
#include "shared/plain_token.h"
#include "turnip.h"

enum { MOST_ENTRIES = 10000, ROLL_ROOM = 2000000, TEXT_ROOM = 128, READERS = 3, SIZES = 3 };
enum { OPEN_JOBS = 8, FILINGS = 3, MOST_CELLS = 4096 };

/* Rounds go from reader to reader in turn and the best of them counts, so that other work beside them meets all alike. */
enum { ROUNDS = 3 };

static const double LEAST_SECONDS = 0.2;

typedef void read_function(const uint8_t *, size_t, uint32_t *, size_t, uint32_t *);

struct input {
    size_t entries;
    size_t length;
    uint8_t bytes[ROLL_ROOM];
};

static const size_t sizes[SIZES] = {100, 1000, 10000};

/* ---- A roll of ordinary entries. ---- */

static void put(struct input *input, const void *bytes, size_t length)
{
    if (ROLL_ROOM - input->length < length) {
        fputs("benchmark: a roll is longer than its room\n", stderr);
        exit(2);
    }
    memcpy(input->bytes + input->length, bytes, length);
    input->length += length;
}

static void put_number(struct input *input, size_t number)
{
    uint8_t bytes[NUMBER_BYTES];

    write_number(bytes, number);
    put(input, bytes, sizeof bytes);
}

static void put_section(struct input *input, const char *string)
{
    put_number(input, strlen(string));
    put(input, string, strlen(string));
}

/* A job is filed as a plan with work left inside a block, then with work left at the end, then finished. */
static void put_text(struct input *input, size_t job, size_t filing)
{
    static const char *const forms[FILINGS] = {
        "[{move arm}{to %zu}][{scan}[{left}][{right}]b]{settle}[{log %zu}]",
        "[{move arm}{to %zu}]{settle}[[{left}]{right}][{log %zu}]c",
        "[{move arm}{to %zu}]{settle}[[{left}]{right}][{log %zu}][{log %zu}]",
    };
    char text[TEXT_ROOM];

    snprintf(text, sizeof text, forms[filing], job % 360, job, job);
    put_section(input, text);
}

/* So many entries. A few jobs are open at a time and take turns; each is filed a few times and then done, and a new one takes
   its part. Job numbers have seven digits. */
static void write_roll(struct input *input, size_t entries)
{
    size_t jobs[OPEN_JOBS], filings[OPEN_JOBS], next = 1000000;

    for (size_t i = 0; i < OPEN_JOBS; i++) {
        jobs[i] = next++;
        filings[i] = i % FILINGS;
    }
    input->entries = entries;
    input->length = 0;
    put(input, "\1", 1);
    for (size_t entry = 0; entry < entries; entry++) {
        size_t turn = entry % OPEN_JOBS;
        bool done = filings[turn] == FILINGS;
        char job[TEXT_ROOM];
        snprintf(job, sizeof job, "%zu", jobs[turn]);
        put_number(input, done ? 1 : 2);
        put_section(input, job);
        if (done) {
            jobs[turn] = next++;
            filings[turn] = 0;
        } else {
            put_text(input, jobs[turn], filings[turn]++);
        }
    }
}

/* ---- Plain C: texts. ---- */

/* What a text is: one pass, which keeps for each open block how many blocks stand just before, two at most. */
struct judged {
    uint8_t before[MOST_CELLS + 1];
    size_t depth;
    size_t cells;
    bool ready;
};

/* One item's first byte, or the end of a block; false where it makes the text no printed text of an accepted plan. */
static bool judge_byte(struct judged *judged, uint8_t byte)
{
    uint8_t *before = &judged->before[judged->depth];

    if (byte == ']') {
        if (judged->depth == 0)
            return false;
        before = &judged->before[--judged->depth];
        *before = *before == 0 ? 1 : 2;
        return true;
    }
    if (++judged->cells > MOST_CELLS)
        return false;
    if (byte == '[') {
        judged->before[++judged->depth] = 0;
        return true;
    }
    if (byte >= 'a' && byte <= 'd' && *before >= (byte <= 'b' ? 2 : 1))
        judged->ready = true;
    *before = 0;
    return (byte >= 'a' && byte <= 'd') || byte == '{';
}

static bool judge_text(const uint8_t *text, size_t length, bool *ready)
{
    struct judged judged;

    judged.before[0] = 0;
    judged.depth = judged.cells = 0;
    judged.ready = false;
    for (size_t at = 0; at < length;) {
        size_t bytes = text[at] == '{' ? plain_token(text + at, length - at).length : 1;
        bool annotation = bytes > 1 && text[at + 1] == '&';
        if (bytes == 0 || annotation || !judge_byte(&judged, text[at]))
            return false;
        at += bytes;
    }
    *ready = judged.ready;
    return judged.depth == 0;
}

/* ---- Plain C: entries. ---- */

struct entry {
    size_t sections;
    const uint8_t *job, *text;
    size_t job_length, text_length;
    size_t end;
};

/* The whole entry at a place; false where it is torn. */
static bool entry_at(const uint8_t *roll, size_t length, size_t at, struct entry *entry)
{
    if (length - at < 4)
        return false;
    entry->sections = number_at(roll + at);
    at += 4;
    for (size_t i = 0; i < entry->sections; i++) {
        if (length - at < 4 || length - at - 4 < number_at(roll + at))
            return false;
        if (i == 0) {
            entry->job = roll + at + 4;
            entry->job_length = number_at(roll + at);
        } else if (i == 1) {
            entry->text = roll + at + 4;
            entry->text_length = number_at(roll + at);
        }
        at += 4 + number_at(roll + at);
    }
    entry->end = at;
    return true;
}

static bool is_job(const uint8_t *job, size_t length)
{
    for (size_t i = 0; i < length; i++)
        if (job[i] < '0' || job[i] > '9')
            return false;
    return length >= 1 && length <= 10;
}

/* The entries so far: their places, where they are remembered, and the tally. */
struct so_far {
    uint32_t places[MOST_ENTRIES + 1];
    size_t entries, filed, done;
};

/* Finds the last entry of a job before a place; false where there is none. */
typedef bool find_function(const uint8_t *, const struct so_far *, size_t, const struct entry *, struct entry *);

static bool find_backwards(const uint8_t *roll, const struct so_far *so_far, size_t place, const struct entry *entry,
                           struct entry *found)
{
    for (size_t i = so_far->entries; i > 0; i--) {
        const uint8_t *at = roll + so_far->places[i - 1];
        if (number_at(at + 4) == entry->job_length && memcmp(at + 8, entry->job, entry->job_length) == 0)
            return entry_at(roll, place, so_far->places[i - 1], found);
    }
    return false;
}

/* Each entry before the place has obeyed the rules, so it has one or two sections and is there whole. */
static bool find_walking(const uint8_t *roll, const struct so_far *so_far, size_t place, const struct entry *entry,
                         struct entry *found)
{
    size_t last = 0, end;

    (void)so_far;
    for (size_t at = 1; at < place; at = end) {
        size_t job_length = number_at(roll + at + 4);
        end = at + 8 + job_length;
        if (number_at(roll + at) == 2)
            end += 4 + number_at(roll + end);
        if (job_length == entry->job_length && memcmp(roll + at + 8, entry->job, job_length) == 0)
            last = at;
    }
    return last > 0 && entry_at(roll, place, last, found);
}

/* Whether the entry at a place obeys the rules behind those before it; it is then counted. */
static bool count_entry(const uint8_t *roll, struct so_far *so_far, size_t place, const struct entry *entry,
                        find_function *find)
{
    struct entry last;
    bool ready;

    if ((entry->sections != 1 && entry->sections != 2) || !is_job(entry->job, entry->job_length))
        return false;
    bool any = find(roll, so_far, place, entry, &last);
    if (any && last.sections == 1)
        return false;
    if (entry->sections == 2) {
        if (!judge_text(entry->text, entry->text_length, &ready))
            return false;
        so_far->filed += !any;
    } else {
        if (!any || !judge_text(last.text, last.text_length, &ready) || ready)
            return false;
        so_far->done++;
    }
    so_far->places[so_far->entries++] = (uint32_t)place;
    return true;
}

static void read_plainly(const uint8_t *roll, size_t length, uint32_t *list, size_t list_length, uint32_t *answer,
                         find_function *find)
{
    static struct so_far so_far;
    struct entry entry;
    size_t at = length == 0 ? 0 : 1;

    so_far.entries = so_far.filed = so_far.done = 0;
    if (length > UINT32_MAX) {
        put_answer(answer, ROLL_TOOLONG, 0, 0, 0, 0);
        return;
    }
    if (length > 0 && roll[0] != 1) {
        put_answer(answer, ROLL_BADROLL, 0, 0, 0, 0);
        return;
    }
    for (; at > 0 && so_far.entries < MOST_ENTRIES && entry_at(roll, length, at, &entry); at = entry.end) {
        if (!count_entry(roll, &so_far, at, &entry, find)) {
            put_answer(answer, ROLL_BADROLL, 0, 0, 0, at);
            return;
        }
    }
    if (so_far.entries > list_length) {
        put_answer(answer, ROLL_MOREENTRIES, 0, 0, 0, so_far.entries);
        return;
    }
    memcpy(list, so_far.places, so_far.entries * sizeof *list);
    put_answer(answer, ROLL_READ, so_far.entries, so_far.filed, so_far.done, at);
}

static void read_remembering(const uint8_t *roll, size_t length, uint32_t *list, size_t list_length, uint32_t *answer)
{
    read_plainly(roll, length, list, list_length, answer, find_backwards);
}

static void read_walking(const uint8_t *roll, size_t length, uint32_t *list, size_t list_length, uint32_t *answer)
{
    read_plainly(roll, length, list, list_length, answer, find_walking);
}

/* ---- All readers must answer alike. ---- */

static const struct reader {
    const char *name;
    read_function *read;
} readers[READERS] = {{"library", turnip_roll_read}, {"plain C", read_remembering}, {"plain C, walking", read_walking}};

/* What a call leaves. */
struct outcome {
    uint32_t answer[5];
    uint32_t list[MOST_ENTRIES];
};

static void agree(const struct input *input, size_t length, size_t list_length)
{
    static struct outcome outcomes[READERS];

    for (int r = 0; r < READERS; r++) {
        memset(&outcomes[r], 0xA5, sizeof outcomes[r]);
        readers[r].read(input->bytes, length, outcomes[r].list, list_length, outcomes[r].answer);
        if (memcmp(&outcomes[r], &outcomes[0], sizeof outcomes[r]) != 0) {
            fprintf(stderr, "benchmark: %s and %s answer differently\n", readers[0].name, readers[r].name);
            exit(1);
        }
    }
}

/* The roll with another byte at a place. */
static void agree_spoilt(struct input *input, size_t at, uint8_t byte)
{
    uint8_t kept = input->bytes[at];

    input->bytes[at] = byte;
    agree(input, input->length, MOST_ENTRIES);
    input->bytes[at] = kept;
}

/* The whole roll, which must read as the entries that were put; then cut, with too short a list, and with a text spoilt, also so
   that its next token becomes an annotation. */
static void agree_around(struct input *input)
{
    static uint32_t list[MOST_ENTRIES];
    uint32_t answer[5];
    size_t half = input->length / 2;
    const uint8_t *token = memchr(input->bytes + half, '{', input->length - half);

    readers[0].read(input->bytes, input->length, list, MOST_ENTRIES, answer);
    if (answer[0] != ROLL_READ || answer[1] != input->entries || answer[4] != input->length) {
        fputs("benchmark: the roll does not read\n", stderr);
        exit(1);
    }
    agree(input, input->length, MOST_ENTRIES);
    agree(input, input->length, input->entries - 1);
    agree(input, input->length - 1, MOST_ENTRIES);
    agree(input, half, MOST_ENTRIES);
    agree_spoilt(input, half, ' ');
    agree_spoilt(input, (size_t)(token - input->bytes) + 1, '&');
}

/* ---- Timing. ---- */

/* What is timed. */
struct timed {
    const struct reader *reader;
    const struct input *input;
};

static void call_timed(const void *what)
{
    static struct outcome outcome;
    const struct timed *timed = what;

    timed->reader->read(timed->input->bytes, timed->input->length, outcome.list, MOST_ENTRIES, outcome.answer);
}

static void one_round(const struct input *input, int round, double best[READERS])
{
    for (int r = 0; r < READERS; r++) {
        struct timed timed = {&readers[r], input};

        keep_best(&best[r], seconds_a_call(call_timed, &timed, LEAST_SECONDS, round), round);
    }
}

static void print_row(const struct input *input, const double best[READERS])
{
    printf("| %zu | %zu |", input->entries, input->length);
    for (int r = 0; r < READERS; r++)
        printf(" %.3f |", best[r] * 1e3);
    for (int r = 1; r < READERS; r++)
        printf(" %.2f |", best[0] / best[r]);
    printf(" %.2f |\n", best[0] * 1e6 / (double)input->entries);
}

int main(void)
{
    static struct input input;
    double best[READERS];

    printf("Milliseconds to read a roll once:\n\n"
           "| Entries | Bytes | library | plain C | plain C, walking | library / plain | library / walking "
           "| library, microseconds an entry |\n"
           "|---|---|---|---|---|---|---|---|\n");
    for (int size = 0; size < SIZES; size++) {
        write_roll(&input, sizes[size]);
        agree_around(&input);
        for (int round = 0; round < ROUNDS; round++)
            one_round(&input, round, best);
        print_row(&input, best);
        fflush(stdout);
    }
    return 0;
}
