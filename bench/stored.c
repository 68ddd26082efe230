// See stored.h. The scratch has a table of the parts in the order of their entries, and after it their lists, as plain
// arrays. m is the width in a stacked part's list, and the height in all others. Behind a gauge's list stand the places of
// its items among the gauge's sizes, one byte each.
#include "stored.h"

#include "plain.h"
#include "useful.h"

enum { PARTS = 127, PLACES_WORDS = 2 };

static const uint8_t in_order[MOST_SIZES] = {0, 1, 2, 3, 4, 5, 6, 7};

typedef struct {
    uint32_t from, count, kind, gauges;
} part;

static inline part *table_of(uint32_t *scratch) { return (part *)scratch; }

// ---- the lists

// Stores the lists of all parts. Answers the number of the whole face.
static size_t store_lists(bytes file, uint32_t rib, uint32_t *scratch) {
    part *table = table_of(scratch);
    size_t at = 7, p = 0;
    uint32_t to = 4 * PARTS;
    for (; at < file.length; p++) {
        uint8_t kind = file.bytes[at++];
        if (kind == GAUGE) {
            uint8_t room[MOST_SIZES];
            size_t printed = file.bytes[at++], count = printed;
            const uint8_t *places = list_places(file, file.bytes + at, &count, room);
            plain_load(file.bytes + at, places, count, scratch + to);
            memcpy(scratch + to + count, places == NULL ? in_order : places, MOST_SIZES);
            table[p] = (part){to, (uint32_t)count, kind, 1};
            at += 4 * printed;
            to += PLACES_WORDS;
        } else {
            const part *newer = &table[p - 1], *older = &table[p - 2 * newer->gauges];
            uint32_t count = plain_merge(scratch + older->from, older->count, runs_across(older->kind, kind),
                                         scratch + newer->from, newer->count, runs_across(newer->kind, kind), rib,
                                         scratch + to);
            table[p] = (part){to, count, kind, older->gauges + newer->gauges};
        }
        to += table[p].count;
    }
    return p - 1;
}

// ---- the layout

// The item of least area inside the opening, of equal areas the narrowest, as height and width packed; 0 for none.
static uint32_t pick(const uint32_t *list, size_t count, bool across, uint32_t height, uint32_t width) {
    uint64_t best = UINT64_MAX;
    uint32_t found = 0;
    for (size_t k = 0; k < count; k++) {
        uint32_t z = across ? swapped(list[k]) : list[k];
        uint32_t h = z >> 16, w = z & 0xFFFF;
        if (h > height || w > width) continue;
        uint64_t rank = (uint64_t)(h * w) << 16 | w;
        if (rank < best) {
            best = rank;
            found = z;
        }
    }
    return found;
}

// The first item of a list by falling m whose m is at most the limit. There is such an item.
static uint32_t take(const uint32_t *scratch, const part *p, uint32_t join, uint32_t limit) {
    const uint32_t *list = scratch + p->from;
    size_t low = 0, high = p->count - 1;
    if (runs_across(p->kind, join)) {
        // Read turned: p rises along the list, and the last item whose p is at most the limit is wanted.
        while (low < high) {
            size_t mid = low + (high - low + 1) / 2;
            if ((list[mid] & 0xFFFF) <= limit) low = mid;
            else high = mid - 1;
        }
        return swapped(list[low]);
    }
    while (low < high) {
        size_t mid = low + (high - low) / 2;
        if (list[mid] >> 16 <= limit) high = mid;
        else low = mid + 1;
    }
    return list[low];
}

// The number of the size of a gauge's list that has this height.
static uint32_t size_number(const uint32_t *list, size_t count, uint32_t height) {
    size_t k = 0;
    while (list[k] >> 16 != height) k++;
    return ((const uint8_t *)(list + count))[k] + 1u;
}

// Lays a part out that takes an item, given as height and width packed, with its lower left corner, given as up and
// across packed. No place is past 65,260, so nothing is carried from across to up.
static void lay(const uint32_t *scratch, const part *p, uint32_t z, uint32_t corner, uint32_t rib, uint32_t *out) {
    if (p->kind == GAUGE) {
        out[0] = size_number(scratch + p->from, p->count, z >> 16);
        out[1] = corner & 0xFFFF;
        out[2] = corner >> 16;
        out[3] = z & 0xFFFF;
        out[4] = z >> 16;
        return;
    }
    const part *newer = p - 1, *older = p - 2 * newer->gauges;
    if (p->kind == JOIN_STACKED) {
        uint32_t limit = z & 0xFFFF;
        uint32_t a = take(scratch, older, JOIN_STACKED, limit), b = take(scratch, newer, JOIN_STACKED, limit);
        lay(scratch, older, swapped(a), corner, rib, out);
        lay(scratch, newer, swapped(b), corner + ((a + rib) << 16), rib, out + 5 * older->gauges);
    } else {
        uint32_t limit = z >> 16;
        uint32_t a = take(scratch, older, BESIDE, limit), b = take(scratch, newer, BESIDE, limit);
        lay(scratch, older, a, corner, rib, out);
        lay(scratch, newer, b, corner + (a & 0xFFFF) + rib, rib, out + 5 * older->gauges);
    }
}

fitted stored_fit(bytes file, bytes levels, uint32_t rib, uint32_t height, uint32_t width, words arena, words scratch,
                  words output) {
    unsigned number = fit_number(file, levels, rib, height, width, arena, scratch, output);
    if (number != 0) return (fitted){number, 0, 0, 0, 0};
    const part *root = table_of(scratch.words) + store_lists(file, rib, scratch.words);
    uint32_t z = pick(scratch.words + root->from, root->count, root->kind == JOIN_STACKED, height, width);
    if (z == 0) return (fitted){19, 0, 0, 0, 0};
    lay(scratch.words, root, z, 0, rib, output.words);
    return (fitted){0, z >> 16, z & 0xFFFF, (z >> 16) * (z & 0xFFFF), root->count};
}
