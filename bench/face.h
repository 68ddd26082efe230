// The face file in C, and the checks of the list and fit calls, for the programs that are measured beside the Rattle
// code.
#ifndef FACE_H
#define FACE_H

#include <stdbool.h>
#include <stddef.h>
#include <stdint.h>
#include <string.h>

enum { GAUGE = 1, BESIDE = 2, JOIN_STACKED = 3 };

typedef struct {
    const uint8_t *bytes;
    size_t length;
} bytes;

typedef struct {
    uint32_t *words;
    size_t length;
} words;

// Whether the list of a part of a kind runs the other way than that of a join: a stacked part's list runs by width, and
// all others, gauges too, by height.
static inline bool runs_across(uint32_t part, uint32_t join) {
    return (part == JOIN_STACKED) != (join == JOIN_STACKED);
}

// Whether check 9 is asked of the file's gauges: its version is 1.
static inline bool asks_order(bytes file) { return file.bytes[4] == 1; }

// A size of a file: the height in the high half of a word, the width in the low half.
static inline uint32_t size_word(const uint8_t *size) {
    uint32_t word;
    memcpy(&word, size, sizeof word);
    return __builtin_bswap32(word);
}

// Checks 1 to 15, 22, 17 and 18 of the list call: the number of the first that fails, or 0.
unsigned list_number(bytes file, bytes levels, uint32_t rib, words arena, words scratch, words output);

// Checks 1 to 15, 22 and 16 to 18 of the fit call.
unsigned fit_number(bytes file, bytes levels, uint32_t rib, uint32_t height, uint32_t width, words arena, words scratch,
                    words output);

#endif
