// The sheet call in C, written for speed, to be measured beside the Rattle code.
#ifndef LINES_H
#define LINES_H

#include "face.h"

typedef struct {
    uint32_t number, length;
} printed;

// Makes the checks, writes the sheet into an output of so many bytes, and answers as the sheet call does. Like the fit
// call of stored.h it builds no lazy list: the arena stays as it is.
printed lines_sheet(bytes file, bytes levels, uint32_t rib, uint32_t height, uint32_t width, words arena, words scratch,
                    uint8_t *output, size_t output_bytes);

#endif
