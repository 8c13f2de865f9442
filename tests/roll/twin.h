/* A second implementation of the roll of filed jobs, to compare the proved one with. It takes the bytes apart into a list of
   entries on the heap, asks the rules of that list, and answers last; it shares nothing with the crates. The parameters are
   those of the library's calls: a slice is a pointer and then a length. */
#ifndef ROLL_TWIN_H
#define ROLL_TWIN_H

#include <stddef.h>
#include <stdint.h>

/* The first of the five numbers of an answer. */
enum roll_number {
    ROLL_READ = 3,
    ROLL_TOOLONG = 11,
    ROLL_BADROLL = 31,
    ROLL_BADJOB = 32,
    ROLL_BADTEXT = 33,
    ROLL_ALREADYDONE = 34,
    ROLL_UNFILED = 35,
    ROLL_UNFINISHED = 36,
    ROLL_NOROOM = 37,
    ROLL_MOREENTRIES = 38,
    ROLL_NOENTRY = 39
};

void twin_roll_read(const uint8_t *roll, size_t roll_length, uint32_t *list, size_t list_length, uint32_t answer[5]);

void twin_roll_entry(const uint8_t *roll, size_t roll_length, size_t at, uint32_t answer[5]);

void twin_roll_file(uint8_t *roll, size_t roll_length, size_t used, const uint8_t *job, size_t job_length,
                    const uint8_t *text, size_t text_length, uint32_t tally[2], uint32_t answer[5]);

void twin_roll_done(uint8_t *roll, size_t roll_length, size_t used, const uint8_t *job, size_t job_length, uint32_t tally[2],
                    uint32_t answer[5]);

#endif
