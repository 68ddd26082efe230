// See levels.h.
#include "levels.h"

#include "file_checks.h"

enum { MOST_GAUGES = 64 };

typedef struct {
    uint8_t least, most;
} depths;

static inline depths joined(depths older, depths newer) {
    uint8_t least = older.least < newer.least ? older.least : newer.least;
    uint8_t most = older.most > newer.most ? older.most : newer.most;
    return (depths){(uint8_t)(least + 1), (uint8_t)(most + 1)};
}

// The least and the largest number of joins above a gauge of a file that is taken.
static depths depths_of(bytes file) {
    depths parts[MOST_GAUGES], *top = parts;
    const uint8_t *at = file.bytes + 7, *end = file.bytes + file.length;
    while (at < end) {
        if (*at++ == GAUGE) {
            *top++ = (depths){0, 0};
            at += 1 + 4 * *at;
        } else {
            top--;
            top[-1] = joined(top[-1], top[0]);
        }
    }
    return parts[0];
}

static unsigned top_level(size_t n, depths d) {
    if (d.most <= 2 * d.least || n < 128) return 1;
    return n < 512 ? 2 : 3;
}

unsigned levels_fill(bytes file, uint8_t *levels, size_t room) {
    cursor c = {0, 0, 0, 0};
    unsigned number = file_number(file, &c);
    if (number != 0) return number;
    if (room != c.sizes) return 14;
    unsigned top = top_level(room, depths_of(file));
    memset(levels, 1, room);
    for (size_t level = 2, step = 4; level <= top; level++, step *= 4) {
        for (size_t r = step; r <= room; r += step) levels[r - 1] = (uint8_t)level;
    }
    return 0;
}
