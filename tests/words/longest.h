/* Links by the longest lists, doubling and chained, on a thread with a 256 KiB stack, and says whether all was as expected. */
#ifndef WORDS_LONGEST_H
#define WORDS_LONGEST_H

#include <stdbool.h>

bool links_on_small_stack(void);

#endif
