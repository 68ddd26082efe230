// The list call and the fit call on one file, each once by each program that is measured, and the reading call from either
// end twice by each: on the list that Rattle left in the arena, and on the one that C left. The words of the file are
// read, the file of these words is written, and the face's own levels are filled in, each once by Rattle and once by C.
//
//     calls FILE LEVELS RIB
//
// LEVELS is a file of one byte a size, RIB a number from 0 to 20. The opening is 64,000 by 64,000. The lists are held
// against that of plain arrays, the layout against that of the stored lists, the words and the levels of Rattle against
// those of C, and the files of the words against the file itself with version 2. Six numbers are printed: the items,
// the area, the bytes of stack that Rattle's list call and its fit call touched, the words, and the sizes. The
// instructions inside a function are for callgrind to count.
#include <stdio.h>
#include <stdlib.h>
#include <string.h>

#include "held.h"
#include "lazy.h"
#include "levels.h"
#include "lists.h"
#include "rattle.h"
#include "reading.h"
#include "saving.h"
#include "stored.h"

enum { OPENING = 64000, PAIRS = 2 * 449, PLACES = 5 * 64 };
enum { SIZES = 512, FACE_WORDS = 3 * 64 + 2 * SIZES, FILE_BYTES = 6 + 3 * 64 + 4 * SIZES };

static uint8_t file_room[4096], levels_room[SIZES];
static uint32_t arena_room[WORDS], scratch_room[WORDS];
static words arena = {arena_room, WORDS}, scratch = {scratch_room, WORDS};

// ---- the stack: what lies below the caller is painted, a call is made, and what is painted no more was touched

enum { PAINTED = 65536, PAINT = 0xA5 };

static __attribute__((noinline)) void paint(void) {
    volatile uint8_t room[PAINTED];
    for (size_t i = 0; i < PAINTED; i++) room[i] = PAINT;
    __asm__ volatile("" : : "r"(room) : "memory");
}

static __attribute__((noinline)) size_t touched(void) {
    volatile uint8_t room[PAINTED];
    __asm__ volatile("" : : "r"(room) : "memory");
    size_t left = 0;
    while (left < PAINTED && room[left] == PAINT) left++;
    return PAINTED - left;
}

// ---- the calls

// Reads p of the last item of the list that the arena holds, from either end.
static void read_last(size_t items, uint32_t p, const char *what) {
    hold(rattle_read(arena_room, WORDS, (uint32_t)items) == p, what);
    hold(rattle_read_low(arena_room, WORDS, 1) == p, what);
    hold(arena_read(arena, (uint32_t)items) == p, "what is read in C");
    hold(arena_read_low(arena, 1) == p, "what is read from the low end in C");
}

// Answers with the stack that Rattle's call touched.
static size_t lists(bytes file, bytes levels, uint32_t rib, size_t *items) {
    static uint32_t plain[PAIRS], lazy[PAIRS], rattle[PAIRS];
    *items = plain_list(file, levels, rib, arena, scratch, (words){plain, PAIRS});
    hold(*items != 0, "the number of items of plain arrays");
    uint32_t last_p = file.bytes[file.length - 1] == JOIN_STACKED ? plain[0] : plain[2 * *items - 1];
    size_t lazy_count = lazy_list(file, levels, rib, arena, scratch, (words){lazy, PAIRS});
    read_last(*items, last_p, "what is read of the lazy list in C");
    paint();
    size_t rattle_count = rattle_list(file.bytes, file.length, levels.bytes, levels.length, rib, arena_room, WORDS,
                                      scratch_room, WORDS, rattle, PAIRS);
    size_t stack = touched();
    read_last(*items, last_p, "what is read of Rattle's list");
    hold(lazy_count == *items && memcmp(lazy, plain, sizeof plain) == 0, "the lazy list in C");
    hold(rattle_count == *items && memcmp(rattle, plain, sizeof plain) == 0, "Rattle's list");
    return stack;
}

// Answers with the stack that Rattle's call touched.
static size_t fits(bytes file, bytes levels, uint32_t rib, uint32_t *area) {
    static uint32_t stored[PLACES], rattle[PLACES];
    fitted best = stored_fit(file, levels, rib, OPENING, OPENING, arena, scratch, (words){stored, PLACES});
    hold(best.number == 0, "the number of the fit call in C");
    paint();
    *area = rattle_fit(file.bytes, file.length, levels.bytes, levels.length, rib, OPENING, OPENING, arena_room, WORDS,
                       scratch_room, WORDS, rattle, PLACES);
    size_t stack = touched();
    hold(*area == best.area && memcmp(rattle, stored, sizeof stored) == 0, "Rattle's layout");
    return stack;
}

// Answers with the number of words.
static size_t saves(bytes file) {
    static uint32_t in_c[FACE_WORDS], rattle[FACE_WORDS];
    static uint8_t again[FILE_BYTES], written_in_c[FILE_BYTES], written[FILE_BYTES];
    size_t count = saving_read(file, (words){in_c, FACE_WORDS});
    hold(count != 0, "the number of words in C");
    size_t rattle_count = rattle_read_words(file.bytes, file.length, rattle, FACE_WORDS);
    hold(rattle_count == count && memcmp(rattle, in_c, sizeof in_c) == 0, "the face in words by Rattle");
    memcpy(again, file.bytes, file.length);
    again[4] = 2;
    size_t c_length = saving_write((words){in_c, count}, written_in_c, FILE_BYTES);
    size_t length = rattle_write_file(rattle, count, written, FILE_BYTES);
    hold(c_length == file.length && memcmp(written_in_c, again, sizeof again) == 0, "the file of the words in C");
    hold(length == file.length && memcmp(written, again, sizeof again) == 0, "the file of the words by Rattle");
    return count;
}

// The buffer of the levels has a byte for each of so many sizes. It is aligned, since the instructions of memset hang
// on that.
static void fills(bytes file, size_t sizes) {
    static _Alignas(64) uint8_t in_c[SIZES], rattle[SIZES];
    hold(levels_fill(file, in_c, sizes) == 0, "the number of the levels call in C");
    hold(rattle_fill_levels(file.bytes, file.length, rattle, sizes) == 0, "the number of Rattle's levels call");
    hold(memcmp(rattle, in_c, sizeof in_c) == 0, "the levels by Rattle");
}

int main(int argc, char **argv) {
    if (argc != 4) return 2;
    bytes file = read_file(argv[1], file_room, sizeof file_room);
    bytes levels = read_file(argv[2], levels_room, sizeof levels_room);
    size_t items;
    uint32_t area, rib = (uint32_t)atoi(argv[3]);
    size_t list_stack = lists(file, levels, rib, &items), fit_stack = fits(file, levels, rib, &area);
    rattle_build(file.bytes, file.length, levels.bytes, levels.length, rib, arena_room, WORDS);
    fills(file, levels.length);
    printf("%zu %u %zu %zu %zu %zu\n", items, area, list_stack, fit_stack, saves(file), levels.length);
    return 0;
}
