// Checks 1 to 13 of a face file in C, compiled into each program that makes them.
#ifndef FILE_CHECKS_H
#define FILE_CHECKS_H

#include "face.h"

enum { MOST_SIZES = 8 };

typedef struct {
    size_t at, parts, gauges, sizes;
} cursor;

static unsigned field(const uint8_t *b) { return 256u * b[0] + b[1]; }

typedef struct {
    unsigned height, width;
} size;

static inline size size_of(const uint8_t *b) {
    uint32_t word = size_word(b);
    return (size){word >> 16, word & 0xFFFF};
}

static inline bool is_limited(size z) { return z.height - 1 <= 999 && z.width - 1 <= 999; }

// The test of is_limited is written out, since the compilers then take fewer instructions.
static inline unsigned limited_number(const uint8_t *b, size_t count) {
    for (size_t i = 0; i < count; i++) {
        size z = size_of(b + 4 * i);
        if (z.height - 1 > 999 || z.width - 1 > 999) return 8;
    }
    return 0;
}

// Sizes in order lie between the first and the last, so only these two are held against the limits.
static inline unsigned ordered_number(const uint8_t *b, size_t count) {
    size before = size_of(b);
    if (!is_limited(before)) return 8;
    for (size_t i = 1; i < count; i++) {
        size z = size_of(b + 4 * i);
        if (z.height >= before.height || z.width <= before.width) return is_limited(before) && is_limited(z) ? 9 : 8;
        before = z;
    }
    return is_limited(before) ? 0 : 8;
}

// Eight sizes are the most of a gauge: each loop over sizes is compiled for eight too, as a row of steps without a
// loop.
static inline unsigned sizes_number(const uint8_t *b, size_t count, bool order) {
    if (count == MOST_SIZES) return order ? ordered_number(b, MOST_SIZES) : limited_number(b, MOST_SIZES);
    return order ? ordered_number(b, count) : limited_number(b, count);
}

static unsigned gauge_number(bytes file, cursor *c) {
    if (c->gauges >= 64) return 10;
    if (c->at >= file.length) return 5;
    size_t count = file.bytes[c->at];
    if (count < 1 || count > MOST_SIZES) return 7;
    c->at++;
    if (file.length - c->at < 4 * count) return 5;
    unsigned number = sizes_number(file.bytes + c->at, count, asks_order(file));
    c->at += 4 * count;
    c->parts++;
    c->gauges++;
    c->sizes += count;
    return number;
}

static unsigned entry_number(bytes file, cursor *c) {
    if (c->at >= file.length) return 5;
    unsigned kind = file.bytes[c->at++];
    if (kind < 1 || kind > 3) return 6;
    if (kind == GAUGE) return gauge_number(file, c);
    if (c->parts < 2) return 11;
    c->parts--;
    return 0;
}

// The number of the first check that fails, or 0 with what is counted.
static unsigned file_number(bytes file, cursor *c) {
    if (file.length < 7) return 1;
    if (file.bytes[0] != 'F' || file.bytes[1] != 'C' || file.bytes[2] != 'E') return 2;
    unsigned version = field(file.bytes + 3);
    if (version < 1 || version > 2) return 3;
    unsigned entries = field(file.bytes + 5);
    if (entries < 1 || entries > 127) return 4;
    c->at = 7;
    for (unsigned i = 0; i < entries; i++) {
        unsigned number = entry_number(file, c);
        if (number != 0) return number;
    }
    if (c->parts != 1) return 12;
    return c->at == file.length ? 0 : 13;
}

#endif
