// See lists.h.
#include "lists.h"

#include "lazy.h"
#include "plain.h"
#include "useful.h"

// ---- lazy lists: a gauge's list is made where it is joined, so that it need not be turned

enum { HEADS = 513 };

// A part on the stack. Where its entry begins and its first size are asked of gauges alone.
typedef struct {
    size_t at, size;
    uint8_t kind;
} pending;

// Makes the list of a part under a head run the way it is joined.
static void lazy_face(bytes file, bytes levels, uint32_t *arena, size_t head, const pending *part, bool across) {
    if (part->kind == GAUGE) {
        const uint8_t *entry = file.bytes + part->at;
        uint8_t room[MOST_SIZES];
        size_t count = entry[1];
        const uint8_t *places = list_places(file, entry + 2, &count, room);
        lazy_load(arena, head, part->size + 1, entry + 2, levels.bytes + part->size, places, count, across);
    } else if (across) {
        lazy_turn(arena, head);
    }
}

// Leaves the face's list under head 0. Answers with the kind of its last entry.
static uint8_t lazy_build(bytes file, bytes levels, uint32_t rib, uint32_t *arena) {
    pending stack[64];
    size_t at = 7, parts = 0, size = 0;
    while (at < file.length) {
        uint8_t kind = file.bytes[at];
        if (kind == GAUGE) {
            size_t count = file.bytes[at + 1];
            stack[parts++] = (pending){at, size, kind};
            size += count;
            at += 2 + 4 * count;
        } else {
            pending *newer = &stack[--parts], *older = newer - 1;
            size_t head = HEADS + parts;
            lazy_face(file, levels, arena, head - 1, older, runs_across(older->kind, kind));
            lazy_face(file, levels, arena, head, newer, runs_across(newer->kind, kind));
            at++;
            lazy_merge(arena, head - 1, head, rib, at == file.length ? 0 : head - 1);
            older->kind = kind;
        }
    }
    if (stack[0].kind == GAUGE) lazy_face(file, levels, arena, 0, &stack[0], false);
    return stack[0].kind;
}

size_t lazy_list(bytes file, bytes levels, uint32_t rib, words arena, words scratch, words output) {
    if (list_number(file, levels, rib, arena, scratch, output) != 0) return 0;
    uint8_t kind = lazy_build(file, levels, rib, arena.words);
    return (kind == JOIN_STACKED ? lazy_items_turned : lazy_items)(arena.words, 0, output.words);
}

// ---- plain arrays: each list stands behind all that were made before it

typedef struct {
    uint32_t *items;
    size_t length;
    uint8_t kind;
} part;

static uint32_t room[512 + 63 * 449];

static void plain_join(part *older, const part *newer, uint8_t join, uint32_t rib, uint32_t *to) {
    older->length = plain_merge(older->items, older->length, runs_across(older->kind, join), newer->items,
                                newer->length, runs_across(newer->kind, join), rib, to);
    older->items = to;
    older->kind = join;
}

static part plain_build(bytes file, uint32_t rib) {
    part stack[64];
    size_t at = 7, parts = 0;
    uint32_t *free = room;
    while (at < file.length) {
        uint8_t kind = file.bytes[at++];
        if (kind == GAUGE) {
            uint8_t places_room[MOST_SIZES];
            size_t printed = file.bytes[at++], count = printed;
            const uint8_t *places = list_places(file, file.bytes + at, &count, places_room);
            plain_load(file.bytes + at, places, count, free);
            stack[parts++] = (part){free, count, kind};
            at += 4 * printed;
        } else {
            parts--;
            plain_join(&stack[parts - 1], &stack[parts], kind, rib, free);
        }
        free += stack[parts - 1].length;
    }
    return stack[0];
}

// Height and width of each item: where m is the width, from the last to the first.
static void plain_write(const part *root, uint32_t *pairs) {
    bool across = root->kind == JOIN_STACKED;
    for (size_t i = 0; i < root->length; i++) {
        uint32_t item = across ? swapped(root->items[root->length - 1 - i]) : root->items[i];
        pairs[2 * i] = item >> 16;
        pairs[2 * i + 1] = item & 0xFFFF;
    }
}

size_t plain_list(bytes file, bytes levels, uint32_t rib, words arena, words scratch, words output) {
    if (list_number(file, levels, rib, arena, scratch, output) != 0) return 0;
    part root = plain_build(file, rib);
    plain_write(&root, output.words);
    return root.length;
}
