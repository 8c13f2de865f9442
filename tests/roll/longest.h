/* The edge of length: a roll and a buffer of 4,294,967,295 bytes, and of one more. */
#ifndef ROLL_LONGEST_H
#define ROLL_LONGEST_H

#include <stdint.h>

/* Compares library and twin on both, with the four calls each, and tells every difference. Answers how many there were, and
   counts among them an answer that is not 3 for the longest, or not 11 for the longer. */
uint64_t longest_differences(void);

#endif
