/* Runs plans nested to the limit on a thread with a 64 KiB stack, and says whether all was as expected. */
#ifndef PLAN_NESTED_H
#define PLAN_NESTED_H

#include <stdbool.h>

bool nested_on_small_stack(void);

#endif
