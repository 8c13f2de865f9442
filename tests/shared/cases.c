#include "cases.h"

#include <errno.h>
#include <stdlib.h>
#include <string.h>

#include "bytes.h"

struct case_line open_cases(const char *file)
{
    struct case_line line = {.file = file, .from = fopen(file, "r")};
    if (line.from == NULL) {
        fprintf(stderr, "%s cannot be read: %s\n", file, strerror(errno));
        exit(2);
    }
    return line;
}

_Noreturn void wrong_case(const struct case_line *line, const char *what)
{
    fprintf(stderr, "%s, line %zu: %s\n", line->file, line->number, what);
    exit(2);
}

/* The bytes of the next line, without its end; false where there is none. */
static bool read_line(struct case_line *line)
{
    size_t length = 0;
    for (int byte = getc(line->from);; byte = getc(line->from)) {
        if (length + 1 >= line->room) {
            line->room = line->room == 0 ? 4096 : 2 * line->room;
            line->bytes = need(realloc(line->bytes, line->room));
        }
        if (byte == EOF && length == 0)
            return false;
        if (byte == EOF || byte == '\n')
            break;
        line->bytes[length++] = (char)byte;
    }
    line->bytes[length] = '\0';
    return true;
}

bool next_case(struct case_line *line)
{
    if (!read_line(line))
        return false;
    line->number++;
    line->count = 0;
    for (char *word = strtok(line->bytes, " "); word != NULL; word = strtok(NULL, " ")) {
        if (line->count == CASE_WORDS)
            wrong_case(line, "there are more words than any case has");
        line->words[line->count++] = word;
    }
    if (line->count == 0)
        wrong_case(line, "the line is empty");
    return true;
}

void want_words(const struct case_line *line, size_t count)
{
    if (line->count != count)
        wrong_case(line, "there are too many words, or too few, for a case of this kind");
}

static uint64_t decimal_at(const struct case_line *line, const char *digits, const char **end)
{
    char *behind;
    errno = 0;
    unsigned long long number = strtoull(digits, &behind, 10);
    if (*digits < '0' || *digits > '9' || errno != 0)
        wrong_case(line, "there is no number where one must be, or it is too large");
    *end = behind;
    return number;
}

uint64_t case_number(const struct case_line *line, size_t word)
{
    const char *end;
    uint64_t number = decimal_at(line, line->words[word], &end);
    if (*end != '\0')
        wrong_case(line, "a number has something behind it");
    return number;
}

void case_numbers(const struct case_line *line, size_t word, uint32_t *numbers, size_t count)
{
    for (size_t i = 0; i < count; i++) {
        uint64_t number = case_number(line, word + i);
        if (number > UINT32_MAX)
            wrong_case(line, "a number is over 4,294,967,295");
        numbers[i] = (uint32_t)number;
    }
}

static int digit(char hex)
{
    return hex >= '0' && hex <= '9' ? hex - '0' : hex >= 'a' && hex <= 'f' ? hex - 'a' + 10 : -1;
}

/* A run: a pattern in hex, and how often it stands there. */
struct run {
    const char *hex;
    size_t bytes;
    size_t times;
};

/* Takes the run that begins here, and goes on to what stands behind it. */
static struct run take_run(const struct case_line *line, const char **at)
{
    struct run run = {.hex = *at, .times = 1};
    while (digit((*at)[0]) >= 0 && digit((*at)[1]) >= 0) {
        run.bytes++;
        *at += 2;
    }
    if (run.bytes == 0)
        wrong_case(line, "there are no bytes in hex where some must be");
    if (**at == '*')
        run.times = (size_t)decimal_at(line, *at + 1, at);
    if (**at != '+' && **at != '\0')
        wrong_case(line, "bytes in hex have something else behind them than + or *");
    if (**at == '+')
        ++*at;
    return run;
}

static void put_run(struct case_bytes *to, struct run run)
{
    for (size_t i = 0; i < run.bytes * run.times; i++) {
        const char *pair = run.hex + 2 * (i % run.bytes);
        to->start[to->length++] = (uint8_t)(16 * digit(pair[0]) + digit(pair[1]));
    }
}

struct case_bytes case_bytes(const struct case_line *line, size_t word, size_t more)
{
    const char *first = strcmp(line->words[word], "-") == 0 ? "" : line->words[word];
    size_t length = 0;
    for (const char *at = first; *at != '\0';) {
        struct run run = take_run(line, &at);
        length += run.bytes * run.times;
    }
    struct case_bytes bytes = {.start = need(malloc(length + more + 1))};
    for (const char *at = first; *at != '\0';)
        put_run(&bytes, take_run(line, &at));
    return bytes;
}
