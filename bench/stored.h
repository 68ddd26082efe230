// The fit call's own part in C: plain lists of every part, one word an item, the item that is picked, and its layout.
// It builds no lazy list: the arena stays as it is.
#ifndef STORED_H
#define STORED_H

#include "face.h"

typedef struct {
    uint32_t number, height, width, area, count;
} fitted;

// Makes the checks, fills the output, and answers as the fit call does.
fitted stored_fit(bytes file, bytes levels, uint32_t rib, uint32_t height, uint32_t width, words arena, words scratch,
                  words output);

#endif
