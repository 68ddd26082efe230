// The reading call in C, written for speed, to be measured beside the Rattle code.
#ifndef READING_H
#define READING_H

#include "face.h"

// p of the item at a place, counted from 1, of the lazy list that the arena holds, from its top or from its low end; 0
// where check 17, 20 or 21 fails.
uint32_t arena_read(words arena, uint32_t place);
uint32_t arena_read_low(words arena, uint32_t place);

#endif
