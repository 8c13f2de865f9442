#include "draws.h"

#include <stdio.h>
#include <stdlib.h>

/* splitmix64 */
static uint64_t draw(struct draws *draws)
{
    uint64_t z = draws->state += 0x9e3779b97f4a7c15u;
    z = (z ^ (z >> 30)) * 0xbf58476d1ce4e5b9u;
    z = (z ^ (z >> 27)) * 0x94d049bb133111ebu;
    return z ^ (z >> 31);
}

struct draws draws_for(uint64_t seed, uint64_t number)
{
    struct draws of_seed = {seed};
    return (struct draws){draw(&of_seed) + number * 0xd1342543de82ef95u};
}

size_t below(struct draws *draws, size_t bound)
{
    return bound == 0 ? 0 : (size_t)(draw(draws) % bound);
}

bool one_in(struct draws *draws, size_t n)
{
    return below(draws, n) == 0;
}

const char *one_of(struct draws *draws, const char *const *strings, size_t count)
{
    return strings[below(draws, count)];
}

static bool take_word(const char *word, uint64_t *number)
{
    char *end;
    *number = strtoull(word, &end, 10);
    return *word >= '0' && *word <= '9' && *end == '\0';
}

struct asked_cases asked_cases(int count, char **words)
{
    struct asked_cases asked;
    if (count != 3 || !take_word(words[1], &asked.seed) || !take_word(words[2], &asked.count)) {
        fprintf(stderr, "usage: %s SEED COUNT, two numbers\n", words[0]);
        exit(2);
    }
    return asked;
}
