// The catalogue call on one file, once by Rattle, and its walk over the outer sizes, once by Rattle and once by C.
//
//     catalogue FILE LEVELS HEIGHTS
//
// LEVELS is a file of one byte a size, and HEIGHTS from 1 to 256 how many heights there are: they fall evenly from the
// tallest outer size to 1. The rib is 0. The widths and the looks of Rattle are held against those of C. Two numbers are
// printed: the items and the looks. The instructions inside a function are for callgrind to count.
#include <stdio.h>
#include <stdlib.h>
#include <string.h>

#include "held.h"
#include "lazy.h"
#include "lists.h"
#include "rattle.h"
#include "walking.h"

enum { PAIRS = 2 * 449, HEIGHTS = 256, PAINT = 0xA5 };

static uint8_t file_room[4096], levels_room[512];
static uint32_t arena_room[WORDS], scratch_room[WORDS];

// The outer sizes, with room for one more.
static uint32_t list[PAIRS + 2];

static uint32_t heights[HEIGHTS];

// The widths of each walk, and those of the call. All are painted first, so that a width that was not written is seen.
static uint32_t in_c[HEIGHTS], walked[HEIGHTS], called[HEIGHTS];

static size_t make_list(bytes file, bytes levels) {
    words arena = {arena_room, WORDS}, scratch = {scratch_room, WORDS};
    size_t items = plain_list(file, levels, 0, arena, scratch, (words){list, PAIRS});
    hold(items != 0, "the number of items");
    return items;
}

static void make_heights(size_t count) {
    for (size_t i = 0; i < count; i++) heights[i] = list[0] - (uint32_t)((list[0] - 1) * (i + 1) / count);
}

// Answers with the looks.
static size_t walks(bytes file, bytes levels, size_t items, size_t count) {
    memset(in_c, PAINT, sizeof in_c);
    memset(walked, PAINT, sizeof walked);
    memset(called, PAINT, sizeof called);
    size_t looks = walking_widths((words){list, 2 * items}, (words){heights, count}, in_c);
    size_t walk_looks = rattle_walk(list, PAIRS + 2, items, heights, count, walked, count);
    size_t call_looks = rattle_widths(file.bytes, file.length, levels.bytes, levels.length, 0, heights, count,
                                      arena_room, WORDS, scratch_room, WORDS, called, count);
    hold(walk_looks == looks && memcmp(walked, in_c, sizeof in_c) == 0, "what Rattle's walk gives");
    hold(call_looks == looks && memcmp(called, in_c, sizeof in_c) == 0, "what Rattle's catalogue call gives");
    return looks;
}

int main(int argc, char **argv) {
    if (argc != 4) return 2;
    bytes file = read_file(argv[1], file_room, sizeof file_room);
    bytes levels = read_file(argv[2], levels_room, sizeof levels_room);
    size_t count = (size_t)atoi(argv[3]), items = make_list(file, levels);
    make_heights(count);
    printf("%zu %zu\n", items, walks(file, levels, items, count));
    return 0;
}
