// The walk of a catalogue in C, written for speed, to be measured beside the Rattle code.
#ifndef WALKING_H
#define WALKING_H

#include "face.h"

// Writes for each height, tallest first, the width of the first item no taller, 0 where there is none, and answers with
// the looks. The list has the height and the width of each item.
size_t walking_widths(words list, words heights, uint32_t *output);

#endif
