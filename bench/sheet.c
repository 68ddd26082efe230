// The sheet call on one file, once by Rattle and once by C, and by Rattle the fit call and the build of the lazy list,
// once each.
//
//     sheet FILE LEVELS
//
// LEVELS is a file of one byte a size. The rib is 0, and the opening 65,260 by 65,260. The number, the length and the
// output of Rattle are held against those of C, and the area of the fit call against the sheet. One number is printed:
// the bytes of the text. The instructions inside a function are for callgrind to count.
#include <stdio.h>
#include <string.h>

#include "held.h"
#include "lazy.h"
#include "lines.h"
#include "rattle.h"

enum { OPENING = 65260, TEXT = 64 + 32 * 64, PLACES = 5 * 64, PAINT = 0xA5 };

static uint8_t file_room[4096], levels_room[512];
static uint32_t arena_room[WORDS], scratch_room[WORDS];

// Both are painted first, so that a byte that was not written is seen.
static uint8_t in_c[TEXT], rattle[TEXT];

// Answers with the length.
static size_t sheets(bytes file, bytes levels) {
    words arena = {arena_room, WORDS}, scratch = {scratch_room, WORDS};
    memset(in_c, PAINT, sizeof in_c);
    memset(rattle, PAINT, sizeof rattle);
    printed c = lines_sheet(file, levels, 0, OPENING, OPENING, arena, scratch, in_c, TEXT);
    uint32_t answer[2] = {1, 0};
    rattle_sheet(file.bytes, file.length, levels.bytes, levels.length, 0, OPENING, OPENING, arena_room, WORDS,
                 scratch_room, WORDS, rattle, TEXT, answer);
    hold(c.number == 0, "the number of the sheet call in C");
    hold(answer[0] == c.number && answer[1] == c.length, "what Rattle's sheet call answers");
    hold(memcmp(rattle, in_c, sizeof in_c) == 0, "the sheet by Rattle");
    return c.length;
}

// The sheet of so many bytes has to end with the area.
static void fits(bytes file, bytes levels, size_t length) {
    static uint32_t layout[PLACES];
    uint32_t area = rattle_fit(file.bytes, file.length, levels.bytes, levels.length, 0, OPENING, OPENING, arena_room,
                               WORDS, scratch_room, WORDS, layout, PLACES);
    char line[32];
    size_t last = (size_t)snprintf(line, sizeof line, "face %u\n", area);
    hold(memcmp(rattle + length - last, line, last) == 0, "the area of Rattle's fit call");
}

int main(int argc, char **argv) {
    if (argc != 3) return 2;
    bytes file = read_file(argv[1], file_room, sizeof file_room);
    bytes levels = read_file(argv[2], levels_room, sizeof levels_room);
    size_t length = sheets(file, levels);
    fits(file, levels, length);
    rattle_build(file.bytes, file.length, levels.bytes, levels.length, 0, arena_room, WORDS);
    printf("%zu\n", length);
    return 0;
}
