// Lazy lists in C, written for speed, to be measured beside the Rattle code: the records and links of document 01, with the
// back words of paper 6, in the same arena, so that a list made here is one that the reading call takes.
#ifndef LAZY_H
#define LAZY_H

#include <stdbool.h>
#include <stddef.h>
#include <stdint.h>

// The words of a record.
enum { LEVEL = 0, M = 1, P = 2, FORWARD = 3, ADJUST = 11, BACK = 19, STRIDE = 20 };

enum { LINKS = 8, WORDS = 16384 };

// Makes the list of a head of a gauge's sizes, four bytes a size: by falling height, or, where it is to run across, by
// falling width. The list has the sizes at so many places, or, where these are NULL, so many sizes as they stand. The size
// at place 0 has the record first.
void lazy_load(uint32_t *arena, size_t head, size_t first, const uint8_t *sizes, const uint8_t *levels,
               const uint8_t *places, size_t count, bool across);

// Turns the list of a head: m and p change places and the order reverses.
void lazy_turn(uint32_t *arena, size_t head);

// Makes the list of a result head the merge of the lists of two heads, with the rib in each sum. The result may be one
// of the two.
void lazy_merge(uint32_t *arena, size_t older, size_t newer, uint32_t rib, size_t result);

// Writes m and true p of each item of a head's list, in the order of the walk, and returns how many items there are.
size_t lazy_items(const uint32_t *arena, size_t head, uint32_t *pairs);

// Writes true p and m of each item, from the last to the first: the items of the list turned.
size_t lazy_items_turned(const uint32_t *arena, size_t head, uint32_t *pairs);

#endif
