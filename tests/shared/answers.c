#include "answers.h"

#include <stdio.h>

void put_answer(uint32_t answer[5], uint32_t number, size_t second, size_t third, size_t fourth, size_t place)
{
    answer[0] = number;
    answer[1] = (uint32_t)second;
    answer[2] = (uint32_t)third;
    answer[3] = (uint32_t)fourth;
    answer[4] = (uint32_t)place;
}

void count_answer(struct answers *answers, uint32_t number)
{
    if (number < ANSWER_NUMBERS)
        answers->seen[number]++;
}

void tell_seen(const struct answers *answers)
{
    printf("%s answered", answers->call);
    for (int number = 0; number < ANSWER_NUMBERS; number++)
        if (answers->seen[number] > 0)
            printf("  %d: %lu", number, answers->seen[number]);
}

bool all_seen(const struct answers *answers, const uint8_t *numbers)
{
    bool all = true;
    for (; *numbers != END_OF_NUMBERS; numbers++) {
        if (answers->seen[*numbers] == 0) {
            printf("%s never answered %d\n", answers->call, *numbers);
            all = false;
        }
    }
    return all;
}
