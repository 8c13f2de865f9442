/* Runs something on a thread with a small stack, so that what costs stack shows. */
#ifndef SMALL_STACK_H
#define SMALL_STACK_H

#include <stdbool.h>
#include <stddef.h>

/* Whether all was as expected, on a thread with so many KiB; a line says so, with what was run. */
bool on_small_stack(const char *what, size_t kib, bool (*as_expected)(void));

#endif
