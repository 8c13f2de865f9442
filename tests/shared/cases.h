/* A list of cases, one case a line: its words, parted by one blank each, and the numbers and bytes that they stand for. Bytes
   are hex, `-` for none; `HEX*COUNT` repeats, `+` joins: `5b*3+5d` is `[[[]`. A line that is not of this form ends the program
   with status 2, and is pointed out by its number. */
#ifndef CASES_H
#define CASES_H

#include <stdbool.h>
#include <stddef.h>
#include <stdint.h>
#include <stdio.h>

enum { CASE_WORDS = 24 };

struct case_line {
    const char *file;
    FILE *from;
    size_t number; /* of the line, the first is 1 */
    char *bytes;   /* the line's own, on the heap */
    size_t room;
    char *words[CASE_WORDS];
    size_t count;
};

/* Bytes on the heap. */
struct case_bytes {
    uint8_t *start;
    size_t length;
};

struct case_line open_cases(const char *file);

/* Goes on to the next line; false behind the last. */
bool next_case(struct case_line *line);

/* Ends the program, and says what is wrong with the line. */
_Noreturn void wrong_case(const struct case_line *line, const char *what);

/* The line must have so many words. */
void want_words(const struct case_line *line, size_t count);

uint64_t case_number(const struct case_line *line, size_t word);

/* As many numbers of 32 bits as there are, from a word on. */
void case_numbers(const struct case_line *line, size_t word, uint32_t *numbers, size_t count);

/* The bytes of a word, with room for some more behind them. */
struct case_bytes case_bytes(const struct case_line *line, size_t word, size_t more);

#endif
