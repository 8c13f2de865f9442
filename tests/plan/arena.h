/* RUN of document 01 in plain C, for the benchmark alone: the same design as the proved engine, and no proof. What the design
   costs can then be told from what Rattle adds to it. */
#ifndef ARENA_H
#define ARENA_H

#include <stddef.h>
#include <stdint.h>

/* The parameters, and the five numbers of the answer, are those of turnip_run. */
void arena_run(const uint8_t *text, size_t text_length, uint32_t quota, uint32_t *memory, size_t memory_length, uint8_t *out,
               size_t out_length, uint32_t *answer);

#endif
