/* Texts in the making, and the limits that they are made around. Bytes past a text's room are dropped. */
#ifndef TEXT_H
#define TEXT_H

#include <stdbool.h>
#include <stddef.h>
#include <stdint.h>

enum { TEXT_LIMIT_BYTES = 1048576, CELLS_AT_MOST = 4096, PRINTED_AT_MOST = 262144 };
enum { TEXT_ROOM = TEXT_LIMIT_BYTES + 1, OUT_ROOM = PRINTED_AT_MOST + 128 };

struct text {
    uint8_t bytes[TEXT_ROOM];
    size_t length;
};

/* Bytes that are known, and may hold a 0. */
struct piece {
    const char *bytes;
    size_t length;
};

#define PIECE(string) {string, sizeof string - 1}

void add_bytes(struct text *text, const void *bytes, size_t length);

void add_string(struct text *text, const char *string);

void add_times(struct text *text, const char *string, size_t times);

/* Whether bytes hold `{&`. In a text that is accepted this always opens an annotation, as no token holds a {. */
bool opens_annotation(const uint8_t *bytes, size_t length);

#endif
