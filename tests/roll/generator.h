/* Pseudo-random rolls, whole, cut, continued and damaged, and what is lent with them around the edges that a roll has. The same
   seed and case number always give the same case. */
#ifndef ROLL_GENERATOR_H
#define ROLL_GENERATOR_H

#include <stdbool.h>
#include <stddef.h>
#include <stdint.h>

#include "plan/generator.h"

enum { ROLL_ROOM = 1 << 20, BUFFER_ROOM = 2 * ROLL_ROOM, LIST_ROOM = 1024, JOB_ROOM = 24, CAST_ROOM = 6, NOTED_ROOM = 1024 };

struct job {
    uint8_t bytes[JOB_ROOM];
    size_t length;
};

/* A job of the roll in the making, as far as it is still followed: a cut or a damage is not. */
struct cast_job {
    struct job job;
    bool filed;
    bool finished; /* its last text has no ready operator */
    bool done;
};

struct noted {
    size_t at[NOTED_ROOM];
    size_t count;
};

struct roll {
    uint8_t bytes[ROLL_ROOM];
    size_t length;         /* the roll's bytes */
    size_t extent;         /* those, and what stands behind them since a cut: no part of the roll, but good to look at */
    struct noted places;   /* where entries were begun */
    struct noted numbers;  /* where four-byte numbers were put */
    struct cast_job cast[CAST_ROOM];
    size_t jobs;
};

void make_roll(struct draws *draws, struct roll *roll);

/* A length of list for a roll of so many entries. */
size_t make_list_length(struct draws *draws, size_t entries);

/* A place to ask for one entry. */
size_t make_entry_place(struct draws *draws, const struct roll *roll);

/* The job number of an entry to add: one of the roll's most often, or another, or none at all. */
void make_job(struct draws *draws, const struct roll *roll, struct job *job);

/* The text of an entry to add. */
void make_filed_text(struct draws *draws, struct text *text);

/* The bytes in use, to say of a buffer that starts with the roll. */
size_t make_used(struct draws *draws, const struct roll *roll);

/* A length of buffer for bytes in use and a new end; at most BUFFER_ROOM. */
size_t make_room(struct draws *draws, size_t used, size_t new_end);

/* A tally to lend for a roll with so many jobs filed and done. */
void make_tally(struct draws *draws, const uint32_t right[2], uint32_t tally[2]);

#endif
