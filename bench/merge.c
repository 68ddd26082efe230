// One item is merged into a list of k records, at every place where its m can fall.
//
//     merge older|newer gap|tie K RIB
//
// The list's records are 1 to K with levels one in four: level 1 plus the times that 4 divides the record number, cut
// to 8. The item is the list of the older or of the newer part, and its m falls in a gap (above the first record,
// between two, or below the last) or on the m of a record. RIB is in each sum. Each merge is made by each program that
// is measured, from the same freshly made arena, and held against the plain one. The number of merges is printed; the
// instructions inside a function are for callgrind to count.
#include <stdio.h>
#include <stdlib.h>
#include <string.h>

#include "lazy.h"
#include "plain.h"
#include "rattle.h"

enum { LIST = 513, ITEM = 514, RESULT = 0 };

static uint32_t fresh[WORDS], arena[WORDS], pairs[2 * 512], records[512], merged[512];

static unsigned level_of(size_t record) {
    unsigned level = 1;
    while (record % 4 == 0 && level < 8) {
        record /= 4;
        level++;
    }
    return level;
}

static void put_size(uint8_t *bytes, uint32_t item) {
    for (size_t i = 0; i < 4; i++) bytes[i] = (uint8_t)(item >> (24 - 8 * i));
}

// Record r has m 2(K + 1 - r), so that gaps have odd m, and p 10 r.
static void make_list(size_t k) {
    static uint8_t sizes[4 * 512], levels[512];
    for (size_t r = 1; r <= k; r++) {
        records[r - 1] = (uint32_t)(2 * (k + 1 - r) << 16 | 10 * r);
        put_size(sizes + 4 * (r - 1), records[r - 1]);
        levels[r - 1] = (uint8_t)level_of(r);
    }
    lazy_load(fresh, LIST, 1, sizes, levels, NULL, k, false);
}

// A fresh arena with the list and, as record K + 1, the item.
static void make_arena(size_t k, uint32_t one) {
    uint8_t size[4], level = (uint8_t)level_of(k + 1);
    memcpy(arena, fresh, sizeof arena);
    put_size(size, one);
    lazy_load(arena, ITEM, k + 1, size, &level, NULL, 1, false);
}

static bool is_as_merged(size_t expected) {
    if (lazy_items(arena, RESULT, pairs) != expected) return false;
    for (size_t i = 0; i < expected; i++) {
        if ((pairs[2 * i] << 16 | pairs[2 * i + 1]) != merged[i]) return false;
    }
    return true;
}

static void check(size_t expected) {
    if (is_as_merged(expected)) return;
    fprintf(stderr, "the merge differs from the plain one\n");
    exit(1);
}

static void merge_all(bool is_older, size_t k, uint32_t one, uint32_t rib) {
    size_t older = is_older ? ITEM : LIST, newer = is_older ? LIST : ITEM;
    size_t expected = is_older ? plain_merge(&one, 1, false, records, k, false, rib, merged)
                               : plain_merge(records, k, false, &one, 1, false, rib, merged);
    make_arena(k, one);
    lazy_merge(arena, older, newer, rib, RESULT);
    check(expected);
    make_arena(k, one);
    rattle_merge(arena, WORDS, older, newer, rib);
    check(expected);
}

int main(int argc, char **argv) {
    if (argc != 5) return 2;
    bool is_older = strcmp(argv[1], "older") == 0, is_tie = strcmp(argv[2], "tie") == 0;
    size_t k = (size_t)atoi(argv[3]), merges = 0;
    uint32_t rib = (uint32_t)atoi(argv[4]);
    make_list(k);
    for (size_t m = is_tie ? 2 : 1; m <= 2 * k + 1; m += 2) {
        merge_all(is_older, k, (uint32_t)(m << 16 | 7), rib);
        merges++;
    }
    printf("%zu\n", merges);
    return 0;
}
