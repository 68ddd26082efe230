// The levels call in C, written for speed, to be measured beside the Rattle code.
#ifndef LEVELS_H
#define LEVELS_H

#include "face.h"

// Fills a levels buffer, one byte a size, and answers with the number of the first of checks 1 to 14 that fails, or 0.
unsigned levels_fill(bytes file, uint8_t *levels, size_t room);

#endif
