// A face saved and read again in C, written for speed, to be measured beside the Rattle code. The words of a face are
// its number of entries and, for each entry, its kind and what a gauge has: the number of its sizes, and the height and
// the width of each.
#ifndef SAVING_H
#define SAVING_H

#include "face.h"

// Writes the file of version 2 of the words and answers with its length, or with 0 where one of checks 4 to 8, 10 to
// 13 and 18 fails.
size_t saving_write(words face, uint8_t *output, size_t room);

// Writes the words of a file of version 1 or 2 and answers with their number, or with 0 where one of checks 1 to 13
// and 18 fails.
size_t saving_read(bytes file, words output);

#endif
