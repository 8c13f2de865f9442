/* The five numbers of an answer, and how often a call has given each answer. */
#ifndef ANSWERS_H
#define ANSWERS_H

#include <stdbool.h>
#include <stddef.h>
#include <stdint.h>

void put_answer(uint32_t answer[5], uint32_t number, size_t second, size_t third, size_t fourth, size_t place);

enum { ANSWER_NUMBERS = 40 };

struct answers {
    const char *call;
    unsigned long seen[ANSWER_NUMBERS];
};

void count_answer(struct answers *answers, uint32_t number);

/* All that came up, without a line's end. */
void tell_seen(const struct answers *answers);

/* Whether each of these has come up; those that did not are told. The numbers end with the first that is END_OF_NUMBERS. */
enum { END_OF_NUMBERS = UINT8_MAX };
bool all_seen(const struct answers *answers, const uint8_t *numbers);

#endif
