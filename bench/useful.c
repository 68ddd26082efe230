// See useful.h.
#include "useful.h"

static bool stand_in_order(const uint8_t *sizes, size_t count) {
    uint32_t before = size_word(sizes);
    for (size_t i = 1; i < count; i++) {
        uint32_t size = size_word(sizes + 4 * i);
        if (size >> 16 >= before >> 16 || (size & 0xFFFF) <= (before & 0xFFFF)) return false;
        before = size;
    }
    return true;
}

// A size by its width, then its height, then its place.
static uint64_t rank(const uint8_t *sizes, size_t i) {
    uint32_t size = size_word(sizes + 4 * i);
    return (uint64_t)(size & 0xFFFF) << 24 | (size >> 16) << 8 | i;
}

// Sorts the sizes by their ranks, and keeps each that is lower than all before it.
static size_t useful_places(const uint8_t *sizes, size_t count, uint8_t *room) {
    uint64_t ranks[MOST_SIZES];
    for (size_t i = 0; i < count; i++) {
        uint64_t own = rank(sizes, i);
        size_t k = i;
        for (; k > 0 && ranks[k - 1] > own; k--) ranks[k] = ranks[k - 1];
        ranks[k] = own;
    }
    size_t found = 0;
    uint32_t lowest = UINT32_MAX;
    for (size_t i = 0; i < count; i++) {
        uint32_t height = ranks[i] >> 8 & 0xFFFF;
        if (height >= lowest) continue;
        room[found++] = (uint8_t)ranks[i];
        lowest = height;
    }
    return found;
}

const uint8_t *list_places(bytes file, const uint8_t *sizes, size_t *count, uint8_t *room) {
    if (asks_order(file) || stand_in_order(sizes, *count)) return NULL;
    *count = useful_places(sizes, *count, room);
    return room;
}
