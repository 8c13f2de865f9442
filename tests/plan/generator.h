/* Pseudo-random cases: texts of many shapes, good and damaged, and the quota and the lengths around the edges that a text has.
   The same seed and case number give the same case on every machine. */
#ifndef PLAN_GENERATOR_H
#define PLAN_GENERATOR_H

#include <stddef.h>
#include <stdint.h>

#include "shared/draws.h"
#include "shared/text.h"

enum { MEMORY_ROOM = 20000 };

void make_text(struct draws *draws, struct text *text);

/* Adds a { to a text, and something at an edge of the token that it opens: most often what no token may hold there. */
void add_edge_token(struct draws *draws, struct text *text);

/* Adds an annotation to a text. */
void add_annotation(struct draws *draws, struct text *text);

/* A length of work memory for a plan that has so many cells, and at most so many during its run. */
size_t make_memory_length(struct draws *draws, size_t cells, size_t most);

uint32_t make_quota(struct draws *draws, size_t cells);

/* A quota at the edge of a run that ends by itself after so many steps. */
uint32_t edge_quota(struct draws *draws, uint32_t steps);

/* A length of output for a printed text of so many bytes. */
size_t make_out_length(struct draws *draws, size_t printed);

#endif
