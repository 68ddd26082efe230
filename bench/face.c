// See face.h.
#include "face.h"

#include "file_checks.h"

// A level of 1 to 8, less 1, is in the low three bits.
static unsigned levels_number(bytes levels, const cursor *c) {
    if (levels.length != c->sizes) return 14;
    uint8_t high = 0;
    for (size_t i = 0; i < levels.length; i++) high |= (uint8_t)(levels.bytes[i] - 1) & 0xF8;
    return high == 0 ? 0 : 15;
}

// Checks 1 to 15, and 22.
static unsigned given_number(bytes file, bytes levels, uint32_t rib, cursor *c) {
    unsigned number = file_number(file, c);
    if (number == 0) number = levels_number(levels, c);
    if (number == 0 && rib > 20) number = 22;
    return number;
}

unsigned list_number(bytes file, bytes levels, uint32_t rib, words arena, words scratch, words output) {
    cursor c = {0, 0, 0, 0};
    unsigned number = given_number(file, levels, rib, &c);
    if (number != 0) return number;
    if (arena.length < 16384 || scratch.length < 16384) return 17;
    return output.length < 2 * (c.sizes - c.gauges + 1) ? 18 : 0;
}

unsigned fit_number(bytes file, bytes levels, uint32_t rib, uint32_t height, uint32_t width, words arena, words scratch,
                    words output) {
    cursor c = {0, 0, 0, 0};
    unsigned number = given_number(file, levels, rib, &c);
    if (number != 0) return number;
    if (height < 1 || height > 65260 || width < 1 || width > 65260) return 16;
    if (arena.length < 16384 || scratch.length < 16384) return 17;
    return output.length < 5 * c.gauges ? 18 : 0;
}
