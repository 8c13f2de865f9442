/* The roll in three parts, as its rules have them: bytes to entries, with their places and the place where the torn one starts;
   what a list of entries must obey, and its tally; and the answers, in the order of their table. Each part has the words of the
   rules that it follows above it. What a text is and whether its plan is finished is asked of the twin of plans. */
#include "roll/twin.h"

#include <stdbool.h>
#include <stdio.h>
#include <stdlib.h>
#include <string.h>

#include "plan/twin.h"
#include "shared/answers.h"
#include "shared/bytes.h"

enum { FIRST_BYTE = 1, JOB_LIMIT = 10, CELLS_LIMIT = 4096 };
enum { DONE_SECTIONS = 1, FILED_SECTIONS = 2 };
enum { RUN_DONE = 0, READ = 3 };

/* ---- Bytes to entries. ---- */

struct entry {
    size_t place; /* its first byte */
    size_t end;   /* the byte behind its last */
    uint32_t sections;
    struct bytes job;  /* its first section, where it has one */
    struct bytes text; /* its second, where it has one */
};

struct listing {
    struct entry *entries;
    size_t count;
    size_t room;
    size_t end; /* "where the torn one starts, else the roll's end" */
};

/* "An entry is whole when every byte that it announces is there, whatever it announces." It announces its sections, and "for each
   section its byte count and its bytes"; "all these numbers are four bytes, lowest first". */
static bool take_entry(struct bytes roll, size_t at, struct entry *entry)
{
    *entry = (struct entry){.place = at};
    if (at > roll.length || !take_number(roll, &at, &entry->sections))
        return false;
    for (uint32_t i = 0; i < entry->sections; i++) {
        struct bytes section;
        if (!take_counted(roll, &at, &section))
            return false;
        if (i == 0)
            entry->job = section;
        if (i == 1)
            entry->text = section;
    }
    entry->end = at;
    return true;
}

static void push_entry(struct listing *to, struct entry entry)
{
    if (to->count == to->room) {
        to->room = to->room == 0 ? 16 : 2 * to->room;
        to->entries = need(realloc(to->entries, to->room * sizeof *to->entries));
    }
    to->entries[to->count++] = entry;
}

/* "A roll of no bytes lists nothing and ends at 0." Else entries stand behind the first byte, one behind the other. */
static struct listing list_entries(struct bytes roll)
{
    struct listing listing = {0};
    struct entry entry;
    if (roll.length == 0)
        return listing;
    listing.end = 1;
    while (take_entry(roll, listing.end, &entry)) {
        push_entry(&listing, entry);
        listing.end = entry.end;
    }
    return listing;
}

/* ---- What a list of entries must obey. ---- */

/* "a job number of 1 to 10 bytes 0 to 9" */
static bool is_job(struct bytes job)
{
    for (size_t i = 0; i < job.length; i++)
        if (job.start[i] < '0' || job.start[i] > '9')
            return false;
    return job.length >= 1 && job.length <= JOB_LIMIT;
}

/* "byte for byte, the printed text of an acceptable text's plan": so "a roll's FILED text with an annotation is no printed
   text: adding it is BADTEXT, and a whole entry that holds one is BADROLL", as it is longer than what is printed. */
static bool is_printed_text(struct bytes text)
{
    struct twin_result read = twin_read(text.start, text.length);
    bool printed = read.number == READ && read.length == text.length && memcmp(read.printed, text.start, text.length) == 0;
    twin_free(&read);
    return printed;
}

/* A run that may make no step is DONE exactly where no operator is ready; the text is an acceptable one. */
static bool has_ready_operator(struct bytes text)
{
    struct twin_result run = twin_run(text.start, text.length, 0, 4 * CELLS_LIMIT);
    bool ready = run.number != RUN_DONE;
    twin_free(&run);
    return ready;
}

/* Of the first so many entries, a job's last one with so many sections; NULL where it has none. Jobs are "compared as bytes (7 and
   07 are two jobs)". */
static const struct entry *last_of(const struct listing *listing, size_t first, uint32_t sections, struct bytes job)
{
    for (size_t i = first; i > 0; i--) {
        const struct entry *entry = &listing->entries[i - 1];
        if (entry->sections == sections && same_bytes(entry->job, job))
            return entry;
    }
    return NULL;
}

/* "The rules of a whole entry", where those before it obey them. */
static bool obeys(const struct listing *listing, size_t index)
{
    const struct entry *entry = &listing->entries[index];
    if (entry->sections != FILED_SECTIONS && entry->sections != DONE_SECTIONS)
        return false;
    if (!is_job(entry->job) || last_of(listing, index, DONE_SECTIONS, entry->job) != NULL)
        return false;
    if (entry->sections == FILED_SECTIONS)
        return is_printed_text(entry->text);
    const struct entry *filed = last_of(listing, index, FILED_SECTIONS, entry->job);
    return filed != NULL && !has_ready_operator(filed->text);
}

/* The jobs that have an entry with so many sections: each counts at its first. */
static uint32_t count_jobs(const struct listing *listing, uint32_t sections)
{
    uint32_t jobs = 0;
    for (size_t i = 0; i < listing->count; i++) {
        const struct entry *entry = &listing->entries[i];
        if (entry->sections == sections && last_of(listing, i, sections, entry->job) == NULL)
            jobs++;
    }
    return jobs;
}

/* Whether the roll reads, and the place of the refusal where it does not: the first fault from the left. */
static bool reads(struct bytes roll, const struct listing *listing, size_t *fault)
{
    *fault = 0;
    if (roll.length > 0 && roll.start[0] != FIRST_BYTE)
        return false;
    for (size_t i = 0; i < listing->count; i++) {
        if (!obeys(listing, i)) {
            *fault = listing->entries[i].place;
            return false;
        }
    }
    return true;
}

/* ---- The answers. ---- */

/* "For every other number the three in the middle are 0." */
static void refuse(uint32_t answer[5], enum roll_number number, size_t place)
{
    put_answer(answer, number, 0, 0, 0, place);
}

static void tell_read(uint32_t answer[5], const struct listing *listing)
{
    put_answer(answer, ROLL_READ, listing->count, count_jobs(listing, FILED_SECTIONS), count_jobs(listing, DONE_SECTIONS),
               listing->end);
}

void twin_roll_read(const uint8_t *roll, size_t roll_length, uint32_t *list, size_t list_length, uint32_t answer[5])
{
    struct bytes bytes = {roll, roll_length};
    size_t fault;
    if (roll_length > UINT32_MAX) {
        refuse(answer, ROLL_TOOLONG, 0);
        return;
    }
    struct listing listing = list_entries(bytes);
    if (!reads(bytes, &listing, &fault)) {
        refuse(answer, ROLL_BADROLL, fault);
    } else if (listing.count > list_length) {
        refuse(answer, ROLL_MOREENTRIES, listing.count);
    } else {
        for (size_t i = 0; i < listing.count; i++)
            list[i] = (uint32_t)listing.entries[i].place;
        tell_read(answer, &listing);
    }
    free(listing.entries);
}

/* "It looks at the bytes of that entry and at nothing else" */
void twin_roll_entry(const uint8_t *roll, size_t roll_length, size_t at, uint32_t answer[5])
{
    struct entry entry;
    if (roll_length > UINT32_MAX) {
        refuse(answer, ROLL_TOOLONG, 0);
        return;
    }
    bool whole = take_entry((struct bytes){roll, roll_length}, at, &entry);
    if (whole && entry.sections == FILED_SECTIONS)
        put_answer(answer, ROLL_READ, (size_t)(entry.job.start - roll), entry.job.length, (size_t)(entry.text.start - roll),
                   entry.text.length);
    else if (whole && entry.sections == DONE_SECTIONS)
        put_answer(answer, ROLL_READ, (size_t)(entry.job.start - roll), entry.job.length, 0, 0);
    else
        refuse(answer, ROLL_NOENTRY, 0);
}

/* ---- Adding. ---- */

/* The entry to add; a DONE has no text. */
struct new_entry {
    uint32_t sections;
    struct bytes job;
    struct bytes text;
};

/* Where the new entry would end: "On a roll of no bytes the first byte 1 is written too, and counts for room." */
static size_t new_end(const struct listing *listing, const struct new_entry *added)
{
    size_t end = listing->end == 0 ? 1 : listing->end;
    end += NUMBER_BYTES + NUMBER_BYTES + added->job.length;
    return added->sections == FILED_SECTIONS ? end + NUMBER_BYTES + added->text.length : end;
}

/* The first refusal of the new entry in the table's order, room last; false where there is none. */
static bool refuse_entry(const struct listing *listing, const struct new_entry *added, size_t room, uint32_t answer[5])
{
    bool filing = added->sections == FILED_SECTIONS;
    const struct entry *done = last_of(listing, listing->count, DONE_SECTIONS, added->job);
    const struct entry *filed = last_of(listing, listing->count, FILED_SECTIONS, added->job);
    size_t end = new_end(listing, added);
    if (!is_job(added->job))
        refuse(answer, ROLL_BADJOB, 0);
    else if (filing && !is_printed_text(added->text))
        refuse(answer, ROLL_BADTEXT, 0);
    else if (done != NULL)
        refuse(answer, ROLL_ALREADYDONE, done->place);
    else if (!filing && filed == NULL)
        refuse(answer, ROLL_UNFILED, 0);
    else if (!filing && has_ready_operator(filed->text))
        refuse(answer, ROLL_UNFINISHED, filed->place);
    else if (end > room)
        refuse(answer, ROLL_NOROOM, end < UINT32_MAX ? end : UINT32_MAX);
    else
        return false;
    return true;
}

static uint8_t *write_section(uint8_t *to, struct bytes section)
{
    to = write_number(to, section.length);
    memcpy(to, section.start, section.length);
    return to + section.length;
}

/* "The new entry goes to the end that the reader gives" */
static void write_entry(uint8_t *roll, size_t end, const struct new_entry *added)
{
    uint8_t *to = roll + end;
    if (end == 0)
        *to++ = FIRST_BYTE;
    to = write_number(to, added->sections);
    to = write_section(to, added->job);
    if (added->sections == FILED_SECTIONS)
        write_section(to, added->text);
}

/* "FILED makes filed one more where the job had no FILED yet, DONE makes done one more; each stops at 4,294,967,295" */
static void count_entry(const struct listing *before, const struct new_entry *added, uint32_t tally[2])
{
    bool filing = added->sections == FILED_SECTIONS;
    bool filed_before = last_of(before, before->count, FILED_SECTIONS, added->job) != NULL;
    uint32_t *count = filing ? &tally[0] : &tally[1];
    if (!(filing && filed_before) && *count < UINT32_MAX)
        ++*count;
}

/* The numbers of an added entry are those "of the new roll" "read afresh", so it is read afresh; that it then reads is what the
   refusals are for. */
static void tell_new_roll(const uint8_t *roll, size_t end, uint32_t answer[5])
{
    struct bytes bytes = {roll, end};
    struct listing afresh = list_entries(bytes);
    size_t fault;
    if (!reads(bytes, &afresh, &fault) || afresh.end != end) {
        fputs("the twin of the roll: a roll that was added to does not read\n", stderr);
        exit(2);
    }
    tell_read(answer, &afresh);
    free(afresh.entries);
}

static void add_entry(uint8_t *roll, size_t roll_length, size_t used, const struct new_entry *added, uint32_t tally[2],
                      uint32_t answer[5])
{
    size_t fault;
    if (roll_length > UINT32_MAX) {
        refuse(answer, ROLL_TOOLONG, 0);
        return;
    }
    struct bytes in_use = {roll, used < roll_length ? used : roll_length};
    struct listing listing = list_entries(in_use);
    if (!reads(in_use, &listing, &fault)) {
        refuse(answer, ROLL_BADROLL, fault);
    } else if (!refuse_entry(&listing, added, roll_length, answer)) {
        count_entry(&listing, added, tally);
        write_entry(roll, listing.end, added);
        tell_new_roll(roll, new_end(&listing, added), answer);
    }
    free(listing.entries);
}

void twin_roll_file(uint8_t *roll, size_t roll_length, size_t used, const uint8_t *job, size_t job_length,
                    const uint8_t *text, size_t text_length, uint32_t tally[2], uint32_t answer[5])
{
    struct new_entry added = {FILED_SECTIONS, {job, job_length}, {text, text_length}};
    add_entry(roll, roll_length, used, &added, tally, answer);
}

void twin_roll_done(uint8_t *roll, size_t roll_length, size_t used, const uint8_t *job, size_t job_length, uint32_t tally[2],
                    uint32_t answer[5])
{
    struct new_entry added = {DONE_SECTIONS, {job, job_length}, {NULL, 0}};
    add_entry(roll, roll_length, used, &added, tally, answer);
}
