/* A second implementation of the rules, to compare the proved one with. It holds plans as plain trees on the heap, and follows
   the rules sentence by sentence; it shares nothing with the crates, and knows of the work memory only how long it is. */
#ifndef PLAN_TWIN_H
#define PLAN_TWIN_H

#include <stddef.h>
#include <stdint.h>

/* What a call gives, before the output's length is asked about. */
struct twin_result {
    uint32_t number;
    uint32_t steps;
    uint32_t cells;
    uint32_t place;
    uint32_t most;    /* the most cells that the plan had on the way */
    uint8_t *printed; /* the printed text, on the heap; NULL after a refusal */
    size_t length;
};

/* READ before it writes. A text is acceptable where the number is 3, as only OUTSHORT is then still to be asked about. */
struct twin_result twin_read(const uint8_t *text, size_t text_length);

/* RUN before it writes. */
struct twin_result twin_run(const uint8_t *text, size_t text_length, uint32_t quota, size_t memory_length);

/* The five numbers and the output, or OUTSHORT. */
void twin_write(const struct twin_result *result, uint8_t *out, size_t out_length, uint32_t answer[5]);

void twin_free(struct twin_result *result);

#endif
