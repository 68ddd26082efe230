// See walking.h.
#include "walking.h"

// The looks are told at the end: one at each item that was passed, and one at the item that meets each height.
size_t walking_widths(words list, words heights, uint32_t *output) {
    const uint32_t *item = list.words, *end = list.words + list.length;
    size_t met = 0;
    for (; met < heights.length; met++) {
        uint32_t height = heights.words[met];
        while (item != end && height < *item) item += 2;
        if (item == end) break;
        output[met] = item[1];
    }
    memset(output + met, 0, (heights.length - met) * sizeof *output);
    return (size_t)(item - list.words) / 2 + met;
}
