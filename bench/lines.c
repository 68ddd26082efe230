// See lines.h. Numbers are written two digits at a time. All is written once, from left to right, and no byte after the
// text is touched.
#include "lines.h"

#include "stored.h"

enum { PLACES = 5 * 64 };

// The two digits of each number below 100.
static const char pairs[] =
    "00010203040506070809" "10111213141516171819" "20212223242526272829" "30313233343536373839"
    "40414243444546474849" "50515253545556575859" "60616263646566676869" "70717273747576777879"
    "80818283848586878889" "90919293949596979899";

// Both digits of a number below 100.
static inline uint8_t *put_pair(uint8_t *to, uint32_t n) {
    memcpy(to, pairs + 2 * n, 2);
    return to + 2;
}

// All four digits of a number below 10,000.
static inline uint8_t *put_four(uint8_t *to, uint32_t n) { return put_pair(put_pair(to, n / 100), n % 100); }

static inline uint8_t *put_byte(uint8_t *to, uint32_t byte) {
    *to = (uint8_t)byte;
    return to + 1;
}

// A number below 100, without leading zeros.
static inline uint8_t *put_short(uint8_t *to, uint32_t n) { return n < 10 ? put_byte(to, '0' + n) : put_pair(to, n); }

// A number below 10,000.
static inline uint8_t *put_low(uint8_t *to, uint32_t n) {
    if (n < 100) return put_short(to, n);
    if (n < 1000) return put_pair(put_byte(to, '0' + n / 100), n % 100);
    return put_four(to, n);
}

static inline uint8_t *put_number(uint8_t *to, uint32_t n) {
    if (n < 10000) return put_low(to, n);
    if (n < 100000000) return put_four(put_low(to, n / 10000), n % 10000);
    to = put_short(to, n / 100000000);
    return put_four(put_four(to, n / 10000 % 10000), n % 10000);
}

// A name of so many bytes, and a number that ends the line.
static inline uint8_t *put_named(uint8_t *to, const char *name, size_t length, uint32_t n) {
    memcpy(to, name, length);
    return put_byte(put_number(to + length, n), '\n');
}

// Answers with the length. A gauge is below 100, and its width and height, which check 8 limits, are below 10,000.
static uint32_t write_sheet(const uint32_t *layout, uint32_t gauges, uint32_t face, uint8_t *output) {
    uint8_t *to = output;
    uint32_t used = 0;
    for (uint32_t gauge = 1; gauge <= gauges; gauge++, layout += 5) {
        uint32_t width = layout[3], height = layout[4], area = width * height;
        used += area;
        to = put_byte(put_short(to, gauge), ' ');
        to = put_byte(put_low(to, width), ' ');
        to = put_byte(put_low(to, height), ' ');
        to = put_byte(put_number(to, area), '\n');
    }
    to = put_named(to, "used ", 5, used);
    to = put_named(to, "blank ", 6, face - used);
    to = put_named(to, "face ", 5, face);
    return (uint32_t)(to - output);
}

// The gauges of a file that is taken, by its number of entries: it has one join less than gauges.
static inline uint32_t gauges_of(bytes file) {
    return file.length < 7 ? 0 : (256u * file.bytes[5] + file.bytes[6] + 1) / 2;
}

// Where the output is too short the fit call is lent no room for the layout, so that its check 18 fails in its turn.
printed lines_sheet(bytes file, bytes levels, uint32_t rib, uint32_t height, uint32_t width, words arena, words scratch,
                    uint8_t *output, size_t output_bytes) {
    uint32_t layout[PLACES], gauges = gauges_of(file);
    size_t room = output_bytes < 64 + 32 * gauges ? 0 : PLACES;
    fitted best = stored_fit(file, levels, rib, height, width, arena, scratch, (words){layout, room});
    if (best.number != 0) return (printed){best.number, 0};
    return (printed){0, write_sheet(layout, gauges, best.area, output)};
}
