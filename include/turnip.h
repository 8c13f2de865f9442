/* The C interface of the plan reader: READ and RUN over lent bytes and numbers, linking by stock words, and the roll of filed
   jobs.
   `rt lib` in crates/turnip_c writes its out/libturnip_c.a, which defines these functions for x86-64 Linux; tests/all keeps a
   copy of it as target/staticlib/libturnip.a. Each of them is proved to do, for every input, what the definitions in
   crates/plan/specs, crates/answers/specs, crates/roll_rules/specs and crates/words_meaning/specs say; crates/turnip/src/lib.rt
   has the contracts, and crates/turnip_c/src/lib.rt says them again of what it exports. */
#ifndef TURNIP_H
#define TURNIP_H

#include <stddef.h>
#include <stdint.h>

#ifdef __cplusplus
extern "C" {
#endif

/* What is lent.

   A slice is a pointer and then a length, counted in elements: bytes for a text, an output, a word list, a roll or a job number,
   32-bit numbers for a work memory or a list of places. The caller owns everything that is lent, before, during and after a call.
   Nothing is allocated, nothing is kept between calls, and nothing that was lent is looked at after the call; so calls from
   several threads do not disturb each other if what is written is lent to one of them only: outputs, memories, answers, lists of
   places, tallies, and a roll that is added to. A call uses a small fixed amount of stack, also for a plan nested to the limit;
   linking uses more with each word that uses another, some 86 KiB with a chain of 256 words.

   No pointer may be NULL, also not that of a slice of length 0: point it at any byte of yours (for a memory or a list of places,
   at any uint32_t). Numbers are aligned as uint32_t is. What is written (out, memory, answer; a list of places, a tally, a roll
   that is added to) must not overlap anything else that is lent to the same call: so a job number or a text that stands in a roll
   is copied out of it before it is added there. Apart from this a call asks nothing: any bytes, any lengths and any quota are
   answered. */

/* The five numbers of an answer, in answer[0] to answer[4]. */
enum turnip_field {
    TURNIP_NUMBER, /* which answer this is: one of the numbers below */
    TURNIP_STEPS,  /* rewrites made; 0 for READ and LINK, and for 11 to 26 */
    TURNIP_CELLS,  /* cells of the resulting plan; 0 for 11 to 26 */
    TURNIP_LENGTH, /* bytes of its printed text; 0 for 11 to 26 */
    TURNIP_PLACE,  /* a place in the text, the bytes needed, or a rank; 0 for 0 to 3, 11 and 12 */
    TURNIP_FIELDS
};

/* What means nothing: SP and LF outside tokens, and annotations, which are tokens whose text starts with &, as {&jit}. They are
   no cells, they are not printed, and they do not stand between a block and an operator. An annotation is checked as every token
   is, and refused with the same numbers. No text that a call writes holds one. */

/* Which answer it is. 11 comes before 12; then 13, 15 and a token's fault, whichever stands first from the left, a token by its
   {; then 16, 17, 18. 21 to 25 say what is wrong with a token, and the first fault of a token is given: it stands before the
   token's }, or at it where nothing is between the braces. Where two stand at one byte, 22 is given. */
enum turnip_number {
    TURNIP_DONE = 0,        /* RUN: no operator is ready, at any depth */
    TURNIP_QUOTA = 1,       /* RUN: the steps made equal the quota, and there is a next result that fits */
    TURNIP_FULL = 2,        /* RUN: the next result has more cells than the work memory gives */
    TURNIP_READ = 3,        /* READ, LINK: the text is accepted, finished or not */
    TURNIP_TOOLONG = 11,    /* the text is over 1,048,576 bytes */
    TURNIP_BADARENA = 12,   /* RUN: the work memory gives more than 4,096 cells */
    TURNIP_BADBYTE = 13,    /* a byte that may not stand outside tokens; its place */
    TURNIP_UNMATCHED = 15,  /* a ] with no block open; its place */
    TURNIP_UNCLOSED = 16,   /* the text ends in an open block; the place is the text's length */
    TURNIP_OVERFULL = 17,   /* more cells than there may be; the place is the first byte of the first item past them, which no
                               annotation is */
    TURNIP_OUTSHORT = 18,   /* the printed text is longer than the output; the place is the bytes needed */
    TURNIP_EMPTYTOKEN = 21, /* nothing between a token's braces; the place of its } */
    TURNIP_LONGTOKEN = 22,  /* a token's 64th byte, its { being the first, is not its }; that byte's place. Or the text ends in a
                               token before that; the place is the text's length */
    TURNIP_BADUTF8 = 23,    /* bytes in a token that begin no character of UTF-8; the place of the first of them */
    TURNIP_FORBIDDEN = 24,  /* a character that no token may hold: U+0000 to U+001F, U+007F to U+009F, U+FFFD; its first byte */
    TURNIP_INNERBRACE = 25  /* a { in a token; its place */
};

/* READ: whether a text is a plan, with the plan's cells, the length of its printed text, and that text (the text with SP, LF and
   annotations outside tokens taken out) written to the start of out. The other bytes of out are as they were; after a refusal
   (11 to 25) all of them are.

   A text is acceptable when nothing but 18 could refuse it: that is a text of at most 1,048,576 bytes that reads as a plan of at
   most 4,096 cells. An output of no bytes asks just this: it gives 18 and the bytes needed, or 3 where the plan is empty, for an
   acceptable text, and another refusal for every other text. As ever, out is not NULL then: point it at any byte. */
void turnip_read(const uint8_t *text, size_t text_length, uint8_t *out, size_t out_length, uint32_t answer[5]);

/* RUN: rewrites the plan of a text at most quota times, in the work memory, and writes the printed text of what it then is to
   the start of out, with the other bytes as they were; after a refusal all of them are as they were.

   The work memory gives memory_length / 4 cells, rounded down, of which the plan may have as many at any step; 16,384
   numbers give the most, 4,096. What it held before has no effect, and after every call, whatever its answer, all its numbers
   are 0. An output of 262,144 bytes is long enough for every plan. */
void turnip_run(const uint8_t *text, size_t text_length, uint32_t quota, uint32_t *memory, size_t memory_length,
                uint8_t *out, size_t out_length, uint32_t answer[5]);

/* Stock words: a word list is a count, then for each word the bytes of its name, its name, the bytes of its text, its text; all
   counts are four bytes, lowest first. A word's rank is its number in the list, from 0. In a plan a token {%name} stands for the
   word of that name; a word may use the words before it. To RUN such a token is a name like any other. Annotations, in a word's
   text or in a plan's, mean nothing here too. */

/* The numbers of LINK are 3, 11, 13, 15 to 18 and 21 to 25 as above, but that the place of 17 is 0, and this one, which comes
   before them all. */
enum turnip_link_number {
    TURNIP_BADWORDS = 26 /* the list is not right; the place is the least rank at fault: 0 for a cut count, 256 for one over
                            256, the count for bytes behind the last word */
};

/* LINK: writes the printed text of a text's plan to the start of out, with the linked plan of each listed word in place of its
   token, at any depth; tokens that the list does not have stay. The plan may have 4,096 cells once it is linked, however many the
   text has. The other bytes of out are as they were; after a refusal all of them are. */
void turnip_link(const uint8_t *list, size_t list_length, const uint8_t *text, size_t text_length, uint8_t *out,
                 size_t out_length, uint32_t answer[5]);

/* The roll of filed jobs: bytes that a clerk's program keeps on disk. A roll of no bytes lists nothing. Any other starts with
   the byte 1, and entries follow, one behind the other. An entry is its number of sections (2 for FILED: the job number and a
   text; 1 for DONE: the job number), then for each section the number of its bytes, and these. All such numbers are four
   bytes, lowest first. A job number is 1 to 10 bytes 0 to 9; a text is a printed text, as READ and RUN write it, so that it holds
   no annotation.

   What stands behind the last whole entry is torn: a power cut left it. It is no part of the roll, and no reason to refuse
   it. A program that adds an entry cuts its file at the end that reading gave, writes the bytes from there to the new end,
   and only then goes on; whatever part of them reaches the disk, the roll reads as it was, or with the new entry.

   A list or a tally that is lent is written only by a call that answers 3, and a buffer only from the old end to the new. */

/* The five numbers of an answer, in answer[0] to answer[4]; for one entry the numbers after the first are its own. */
enum turnip_roll_field {
    TURNIP_ROLL_NUMBER,  /* which answer this is: one of the numbers below */
    TURNIP_ROLL_ENTRIES, /* whole entries; 0 for every number but 3 */
    TURNIP_ROLL_FILED,   /* jobs with a FILED, done or not; 0 for every number but 3 */
    TURNIP_ROLL_DONE,    /* jobs with a DONE; 0 for every number but 3 */
    TURNIP_ROLL_PLACE    /* for 3 the end of the whole entries; else a place in the roll, or what is needed */
};

enum turnip_entry_field {
    TURNIP_ENTRY_NUMBER,     /* 3, 11 or 39; with 11 and 39 the other four are 0 */
    TURNIP_ENTRY_JOB,        /* where the job number stands in the roll */
    TURNIP_ENTRY_JOB_BYTES,  /* and its bytes */
    TURNIP_ENTRY_TEXT,       /* where the text stands in the roll; 0 for DONE */
    TURNIP_ENTRY_TEXT_BYTES  /* and its bytes; 0 for DONE */
};

/* Which answer it is, in the order in which they are tried. */
enum turnip_roll_number {
    TURNIP_ROLL_READ = 3,         /* read, or added; the place is the end */
    TURNIP_ROLL_TOOLONG = 11,     /* the roll or the buffer is over 4,294,967,295 bytes */
    TURNIP_ROLL_BADROLL = 31,     /* another first byte, at 0; or a whole entry that breaks a rule, at its first byte */
    TURNIP_ROLL_BADJOB = 32,      /* adding: not 1 to 10 bytes 0 to 9 */
    TURNIP_ROLL_BADTEXT = 33,     /* adding FILED: not the printed text of an acceptable text's plan */
    TURNIP_ROLL_ALREADYDONE = 34, /* adding: the job has a DONE; its place */
    TURNIP_ROLL_UNFILED = 35,     /* adding DONE: the job has no FILED */
    TURNIP_ROLL_UNFINISHED = 36,  /* adding DONE: its last FILED text has a ready operator; that FILED's place */
    TURNIP_ROLL_NOROOM = 37,      /* adding: the new end is past the buffer; the bytes needed, at most 4,294,967,295 */
    TURNIP_ROLL_MOREENTRIES = 38, /* reading: more entries than the list holds; the entries needed */
    TURNIP_ROLL_NOENTRY = 39      /* one entry: no whole entry of 1 or 2 sections stands at that place */
};

/* Reads a roll: the places of its whole entries go to the start of list, in order, and its other numbers are as they were. */
void turnip_roll_read(const uint8_t *roll, size_t roll_length, uint32_t *list, size_t list_length, uint32_t answer[5]);

/* Tells the entry at a place, by its own bytes alone: that the roll reads is not said by it. */
void turnip_roll_entry(const uint8_t *roll, size_t roll_length, size_t at, uint32_t answer[5]);

/* Adds a FILED, or a DONE, to the roll in the first `used` bytes of a buffer; more than the buffer has count as all of them.
   The answer is that of the new roll read afresh, and its place is the new end: the bytes in use from then on. Torn bytes
   that the new entry does not reach stay in the buffer and are no part of the roll. A tally is two numbers, jobs filed and jobs
   done: where it was that of the roll it is then that of the new one. */
void turnip_roll_file(uint8_t *roll, size_t roll_length, size_t used, const uint8_t *job, size_t job_length,
                      const uint8_t *text, size_t text_length, uint32_t tally[2], uint32_t answer[5]);

void turnip_roll_done(uint8_t *roll, size_t roll_length, size_t used, const uint8_t *job, size_t job_length,
                      uint32_t tally[2], uint32_t answer[5]);

#ifdef __cplusplus
}
#endif

#endif
