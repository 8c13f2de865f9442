/* Pseudo-random numbers: the same seed and case number give the same numbers on every machine. */
#ifndef DRAWS_H
#define DRAWS_H

#include <stdbool.h>
#include <stddef.h>
#include <stdint.h>

#define COUNT(array) (sizeof array / sizeof *array)

struct draws {
    uint64_t state;
};

struct draws draws_for(uint64_t seed, uint64_t number);

/* A number below a bound; 0 where the bound is 0. */
size_t below(struct draws *draws, size_t bound);

bool one_in(struct draws *draws, size_t n);

const char *one_of(struct draws *draws, const char *const *strings, size_t count);

/* What a program was asked for with the words SEED COUNT. */
struct asked_cases {
    uint64_t seed;
    uint64_t count;
};

/* Where the words are no two numbers the usage is told, and the program ends with status 2. */
struct asked_cases asked_cases(int count, char **words);

#endif
