// The list of a gauge: its sizes without inferior ones, by falling height.
#ifndef USEFUL_H
#define USEFUL_H

#include "face.h"

enum { MOST_SIZES = 8 };

// Where the sizes of a gauge's list stand among its sizes, in the room, with their count in the place of the sizes';
// NULL where the sizes stand in order and so are the list.
const uint8_t *list_places(bytes file, const uint8_t *sizes, size_t *count, uint8_t *room);

// The place of item i of such a list.
static inline size_t place_of(const uint8_t *places, size_t i) { return places == NULL ? i : places[i]; }

#endif
