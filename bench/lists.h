// The list call in C twice, with lazy lists and with plain arrays.
#ifndef LISTS_H
#define LISTS_H

#include "face.h"

// Each makes the checks, fills the output and returns the number of items, or 0 where a check fails.
size_t lazy_list(bytes file, bytes levels, uint32_t rib, words arena, words scratch, words output);
size_t plain_list(bytes file, bytes levels, uint32_t rib, words arena, words scratch, words output);

#endif
