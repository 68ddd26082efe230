// Lists as plain arrays, and Stockmeyer's merge of them. An item is one word, m in the high half and p in the low half,
// and a list runs by strictly falling m. A list is not turned: it is read across, from its end down, with m and p
// changed.
#ifndef PLAIN_H
#define PLAIN_H

#include <stdbool.h>
#include <stddef.h>
#include <stdint.h>

// An item read the other way: m and p change places.
static inline uint32_t swapped(uint32_t item) { return item << 16 | item >> 16; }

// Writes the list of a gauge's sizes, four bytes a size, by height: those at so many places, or, where these are NULL, so
// many as they stand.
void plain_load(const uint8_t *sizes, const uint8_t *places, size_t count, uint32_t *to);

// Writes the merge of two lists of one item or more, each read as it runs or across, with the rib in each sum, and
// returns its length.
size_t plain_merge(const uint32_t *a, size_t length_a, bool across_a, const uint32_t *b, size_t length_b, bool across_b,
                   uint32_t rib, uint32_t *to);

#endif
