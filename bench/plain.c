// See plain.h.
#include "plain.h"

#include "face.h"
#include "useful.h"

#define INLINE static inline __attribute__((always_inline))

void plain_load(const uint8_t *sizes, const uint8_t *places, size_t count, uint32_t *to) {
    for (size_t i = 0; i < count; i++) to[i] = size_word(sizes + 4 * place_of(places, i));
}

// What is left of a list: its next item, and where it ends.
typedef struct {
    const uint32_t *at, *end;
    uint32_t item;
} rest;

INLINE rest enter(const uint32_t *list, size_t length, bool across) {
    if (across) return (rest){list + length - 1, list - 1, swapped(list[length - 1])};
    return (rest){list, list + length, list[0]};
}

// Goes on to the next item. Answers whether there is one.
INLINE bool next(rest *x, bool across) {
    x->at += across ? -1 : 1;
    if (x->at == x->end) return false;
    x->item = across ? swapped(*x->at) : *x->at;
    return true;
}

// Writes the items of a list whose m is larger than that of an item of the other list. The rib is added once for all of
// them. Answers whether an item is left.
INLINE bool run(rest *x, bool across, uint32_t other, uint32_t rib, uint32_t **to) {
    uint32_t m = other | 0xFFFF, p = (other & 0xFFFF) + rib;
    while (x->item > m) {
        *(*to)++ = x->item + p;
        if (!next(x, across)) return false;
    }
    return true;
}

// The merge, made once for each way in which the two lists are read.
INLINE size_t merge(rest x, bool across_x, rest y, bool across_y, uint32_t rib, uint32_t *to) {
    const uint32_t *start = to;
    while (run(&x, across_x, y.item, rib, &to) && run(&y, across_y, x.item, rib, &to)) {
        if ((x.item ^ y.item) > 0xFFFF) continue;
        *to++ = x.item + (y.item & 0xFFFF) + rib;
        if (!next(&x, across_x) || !next(&y, across_y)) break;
    }
    return (size_t)(to - start);
}

size_t plain_merge(const uint32_t *a, size_t length_a, bool across_a, const uint32_t *b, size_t length_b, bool across_b,
                   uint32_t rib, uint32_t *to) {
    rest x = enter(a, length_a, across_a), y = enter(b, length_b, across_b);
    if (across_a) return across_b ? merge(x, true, y, true, rib, to) : merge(x, true, y, false, rib, to);
    return across_b ? merge(x, false, y, true, rib, to) : merge(x, false, y, false, rib, to);
}
