// See lazy.h.
//
// Link k here is link k + 1 of document 01. The sum of a link is that of the adjusts from it up, so that true p is p
// and the sum of link `level`. Adjust 0 is in no sum. The adjusts of every head are 0, and while a list is made so is,
// for each link, the adjust of the last record that has it: what is put behind needs no correction. No adjust is below
// zero.
#include "lazy.h"

#include <string.h>

#include "face.h"
#include "useful.h"

#define INLINE static inline __attribute__((always_inline))

INLINE uint32_t *record(uint32_t *arena, size_t r) { return arena + STRIDE * r; }

static void clear_head(uint32_t *head) {
    head[LEVEL] = LINKS;
    memset(head + FORWARD, 0, (2 * LINKS + 1) * sizeof *head);
}

// ---- lists made anew, from the last record to the first

// Puts a record of a level in front of a list, at the links above the lowest.
INLINE void hook(uint32_t *head, uint32_t *x, uint32_t r, size_t level) {
    for (size_t k = level - 1; k > 0; k--) {
        x[FORWARD + k] = head[FORWARD + k];
        x[ADJUST + k] = 0;
        head[FORWARD + k] = r;
    }
}

// The record goes before `after`, which is the head where there is none: the last item is the head's back word.
INLINE void put_first(uint32_t *head, uint32_t *x, uint32_t r, uint32_t level, uint32_t m, uint32_t p, uint32_t next,
                      uint32_t *after) {
    x[LEVEL] = level;
    x[M] = m;
    x[P] = p;
    x[FORWARD] = next;
    after[BACK] = r;
    hook(head, x, r, level);
}

// The sizes as they stand.
static void load_all(uint32_t *arena, size_t head, size_t first, const uint8_t *sizes, const uint8_t *levels,
                     size_t count, bool across) {
    uint32_t *h = record(arena, head), *after = h, next = 0;
    clear_head(h);
    if (across) {
        uint32_t r = (uint32_t)first, *x = record(arena, r);
        for (size_t i = 0; i < count; i++, x += STRIDE) {
            uint32_t size = size_word(sizes + 4 * i);
            put_first(h, x, r, levels[i], size & 0xFFFF, size >> 16, next, after);
            next = r++;
            after = x;
        }
    } else {
        uint32_t r = (uint32_t)(first + count), *x = record(arena, r);
        for (size_t i = count; i-- > 0;) {
            uint32_t size = size_word(sizes + 4 * i);
            x -= STRIDE;
            r--;
            put_first(h, x, r, levels[i], size >> 16, size & 0xFFFF, next, after);
            next = r;
            after = x;
        }
    }
    h[FORWARD] = next;
    after[BACK] = 0;
}

static void load_places(uint32_t *arena, size_t head, size_t first, const uint8_t *sizes, const uint8_t *levels,
                        const uint8_t *places, size_t count, bool across) {
    uint32_t *h = record(arena, head), *after = h, next = 0;
    clear_head(h);
    for (size_t i = 0; i < count; i++) {
        size_t k = places[across ? i : count - 1 - i];
        uint32_t size = size_word(sizes + 4 * k), r = (uint32_t)(first + k);
        uint32_t m = across ? size & 0xFFFF : size >> 16, p = across ? size >> 16 : size & 0xFFFF;
        uint32_t *x = record(arena, r);
        put_first(h, x, r, levels[k], m, p, next, after);
        next = r;
        after = x;
    }
    h[FORWARD] = next;
    after[BACK] = 0;
}

void lazy_load(uint32_t *arena, size_t head, size_t first, const uint8_t *sizes, const uint8_t *levels,
               const uint8_t *places, size_t count, bool across) {
    if (places == NULL) load_all(arena, head, first, sizes, levels, count, across);
    else load_places(arena, head, first, sizes, levels, places, count, across);
}

// ---- walks of a whole list

// The sums of the links of a record that is passed.
INLINE void pass(const uint32_t *x, size_t level, uint32_t *sums) {
    for (size_t k = level - 1; k > 0; k--) sums[k] = sums[k + 1] + x[ADJUST + k];
}

// m and p change places, and what was p is raised by its sum. True p is small: nothing is carried out of the low half.
INLINE void swap(uint32_t *x, uint32_t sum) {
    uint64_t both;
    memcpy(&both, x + M, sizeof both);
    both = (both << 32 | both >> 32) + sum;
    memcpy(x + M, &both, sizeof both);
}

// Passes a record of level 2 or more, and puts it in front of a list.
INLINE void rehook(uint32_t *head, uint32_t *x, uint32_t r, size_t level, uint32_t *sums) {
    size_t k = level - 1;
    do {
        sums[k] = sums[k + 1] + x[ADJUST + k];
        x[FORWARD + k] = head[FORWARD + k];
        x[ADJUST + k] = 0;
        head[FORWARD + k] = r;
    } while (--k > 0);
}

void lazy_turn(uint32_t *arena, size_t head) {
    uint32_t *h = record(arena, head), sums[LINKS + 1] = {0};
    uint32_t first = h[FORWARD], r = first, before = 0;
    clear_head(h);
    while (r != 0) {
        uint32_t *x = record(arena, r), level = x[LEVEL], next = x[FORWARD];
        swap(x, sums[level]);
        x[FORWARD] = before;
        x[BACK] = next;
        before = r;
        r = next;
        if (level > 1) rehook(h, x, before, level, sums);
    }
    h[FORWARD] = before;
    h[BACK] = first;
}

size_t lazy_items(const uint32_t *arena, size_t head, uint32_t *pairs) {
    uint32_t sums[LINKS + 1] = {0}, *to = pairs;
    const uint32_t *x = arena + STRIDE * head;
    pass(x, LINKS, sums);
    while (x[FORWARD] != 0) {
        x = arena + STRIDE * x[FORWARD];
        *to++ = x[M];
        *to++ = x[P] + sums[x[LEVEL]];
        pass(x, x[LEVEL], sums);
    }
    return (size_t)(to - pairs) / 2;
}

static size_t length(const uint32_t *arena, size_t head) {
    size_t n = 0;
    for (const uint32_t *x = arena + STRIDE * head; x[FORWARD] != 0; x = arena + STRIDE * x[FORWARD]) n++;
    return n;
}

size_t lazy_items_turned(const uint32_t *arena, size_t head, uint32_t *pairs) {
    size_t n = length(arena, head);
    uint32_t sums[LINKS + 1] = {0}, *to = pairs + 2 * n;
    const uint32_t *x = arena + STRIDE * head;
    pass(x, LINKS, sums);
    while (x[FORWARD] != 0) {
        x = arena + STRIDE * x[FORWARD];
        *--to = x[M];
        *--to = x[P] + sums[x[LEVEL]];
        pass(x, x[LEVEL], sums);
    }
    return n;
}

// ---- merging lists that have no link 1

// What is left of a list that is merged: its first record, the record's number, and its m. After the last record comes
// record 0, whose m is 0, below that of every item.
typedef struct {
    uint32_t *at, first, m;
} front;

INLINE front front_at(uint32_t *arena, uint32_t r) {
    uint32_t *at = record(arena, r);
    return (front){at, r, at[M]};
}

// The list that is made: its last record, and that record's number, which is 0 where there is none.
typedef struct {
    uint32_t *last, number;
} made;

// The first record of what is left comes next on the list that is made.
INLINE void follow(const front *a, const made *c) {
    c->last[FORWARD] = a->first;
    a->at[BACK] = c->number;
}

// Moves the records in front whose m is larger, one or more, behind the list that is made, and raises their p.
INLINE void move_flat(uint32_t *arena, front *a, made *c, uint32_t m, uint32_t p) {
    follow(a, c);
    do {
        *c = (made){a->at, a->first};
        c->last[P] += p;
        *a = front_at(arena, c->last[FORWARD]);
    } while (a->m > m);
}

// Stored p are true p here.
static void merge_flat(uint32_t *arena, front a, front b, uint32_t rib, uint32_t *head) {
    made c = {head, 0};
    clear_head(head);
    while (a.m != 0 && b.m != 0) {
        if (a.m > b.m) {
            move_flat(arena, &a, &c, b.m, b.at[P] + rib);
        } else if (b.m > a.m) {
            move_flat(arena, &b, &c, a.m, a.at[P] + rib);
        } else {
            follow(&a, &c);
            c = (made){a.at, a.first};
            a.at[P] += b.at[P] + rib;
            a = front_at(arena, a.at[FORWARD]);
            b = front_at(arena, b.at[FORWARD]);
        }
    }
    c.last[FORWARD] = 0;
    head[BACK] = c.number;
}

// ---- merging lists that have links above the lowest

// The links of what is left of a list: the first record with each, the m of the first with link 1, and the sums.
typedef struct {
    uint32_t m, forward[LINKS + 1], sums[LINKS + 1];
} links;

// Enters the list of a head as one in which each p is raised.
INLINE void enter(uint32_t *arena, size_t head, uint32_t raise, links *x) {
    memcpy(x->forward, record(arena, head) + FORWARD, LINKS * sizeof *arena);
    x->forward[LINKS] = 0;
    for (size_t k = 0; k <= LINKS; k++) x->sums[k] = raise;
    x->m = record(arena, x->forward[1])[M];
}

INLINE uint32_t first_p(const front *a, const links *x) { return a->at[P] + x->sums[a->at[LEVEL]]; }

// Raises a run without link 1 from its first record on. Answers with its last one. It stands apart from the function
// that calls it, where gcc has too few registers left for the loop.
static __attribute__((noinline)) uint32_t *raise_flat(uint32_t *arena, uint32_t *at, uint32_t key, uint32_t v) {
    for (;;) {
        at[P] += v;
        uint32_t *next = record(arena, at[FORWARD]);
        if (next[M] < key) return at;
        next[P] += v;
        at = record(arena, next[FORWARD]);
        if (at[M] < key) return next;
    }
}

// Moves link k of a run, whose last record with it is given, to the ends of the list that is made: for each link the
// word for the next record. The adjust of the given record goes into the sums, and is 0 from then on: what it covers in
// the run is raised by it too. Answers with what that is raised by in all.
INLINE uint32_t move_link(uint32_t *at, links *x, uint32_t **ends, size_t k, uint32_t u, uint32_t q) {
    u += at[ADJUST + k];
    at[ADJUST + k] = 0;
    x->sums[k] = u - q;
    *ends[k] = x->forward[k];
    x->forward[k] = at[FORWARD + k];
    ends[k] = at + FORWARD + k;
    return u;
}

// A run of one record, which has link 1.
INLINE void move_one(uint32_t *at, links *x, uint32_t **ends, uint32_t q) {
    size_t k = at[LEVEL];
    uint32_t u = q + x->sums[k];
    at[P] += u;
    while (--k > 0) u = move_link(at, x, ends, k, u, q);
}

// Raises the records before the first with the next link, and goes on to that one.
INLINE uint32_t *climb(uint32_t *arena, uint32_t *at, const uint32_t *stop, size_t k, uint32_t v) {
    while (at != stop) {
        at[P] += v;
        if (k > 0) at[ADJUST + k] += v;
        at = record(arena, at[FORWARD + k]);
    }
    return at;
}

// Goes by link k to the last record of the run that has it, and raises what it meets.
INLINE uint32_t *descend(uint32_t *arena, uint32_t *at, size_t k, uint32_t key, uint32_t u) {
    for (;;) {
        uint32_t *next = record(arena, at[FORWARD + k]);
        if (next[M] < key) return at;
        if (k > 0) at[ADJUST + k] += u;
        at = next;
        at[P] += u;
    }
}

// A run of more records, one of which has link 1: up link by link to the highest that the run has, and down again.
// Answers with its last record.
INLINE uint32_t *move_stairs(uint32_t *arena, uint32_t *at, links *x, uint32_t **ends, uint32_t key, uint32_t q) {
    size_t k = 1;
    uint32_t u;
    at = climb(arena, at, record(arena, x->forward[1]), 0, q + x->sums[1]);
    for (;; k++) {
        uint32_t *next = record(arena, x->forward[k + 1]);
        u = q + x->sums[k + 1];
        if (next[M] < key) break;
        at = climb(arena, at, next, k, u);
    }
    at[P] += u;
    for (; k > 0; k--) {
        at = descend(arena, at, k, key, u);
        u = move_link(at, x, ends, k, u, q);
    }
    return descend(arena, at, 0, key, u);
}

static uint32_t *move_linked(uint32_t *arena, uint32_t *at, links *x, uint32_t **ends, uint32_t key, uint32_t q) {
    if (record(arena, at[FORWARD])[M] < key) {
        move_one(at, x, ends, q);
    } else {
        at = move_stairs(arena, at, x, ends, key, q);
    }
    x->m = record(arena, x->forward[1])[M];
    return at;
}

// Moves the records in front whose m is at least the key, one or more, behind the list that is made, and raises each true
// p by q.
INLINE void move_run(uint32_t *arena, front *a, links *x, made *c, uint32_t **ends, uint32_t key, uint32_t q) {
    follow(a, c);
    if (x->m < key) {
        c->last = raise_flat(arena, a->at, key, q + x->sums[1]);
    } else {
        c->last = move_linked(arena, a->at, x, ends, key, q);
    }
    c->number = (uint32_t)((size_t)(c->last - arena) / STRIDE);
    *a = front_at(arena, c->last[FORWARD]);
}

// The first record leaves a list.
INLINE void drop_first(uint32_t *arena, front *a, links *x) {
    size_t k = a->at[LEVEL];
    if (k > 1) {
        while (--k > 0) {
            x->sums[k] = x->sums[k + 1] + a->at[ADJUST + k];
            x->forward[k] = a->at[FORWARD + k];
        }
        x->m = record(arena, x->forward[1])[M];
    }
    *a = front_at(arena, a->at[FORWARD]);
}

// The older list is entered as raised by the rib: then what a run is raised by has the rib in it. The function stands
// apart from the one that calls it, so that a merge of lists without link 1 has no room for links to make.
static __attribute__((noinline)) void merge_linked(uint32_t *arena, size_t older, size_t newer, uint32_t rib,
                                                   uint32_t *head) {
    links x, y;
    uint32_t *ends[LINKS];
    made c = {head, 0};
    enter(arena, older, rib, &x);
    enter(arena, newer, 0, &y);
    front a = front_at(arena, x.forward[0]), b = front_at(arena, y.forward[0]);
    clear_head(head);
    for (size_t k = 1; k < LINKS; k++) ends[k] = head + FORWARD + k;
    while (a.m != 0 && b.m != 0) {
        if (b.m <= a.m) {
            move_run(arena, &a, &x, &c, ends, b.m, first_p(&b, &y));
            if (c.last[M] == b.m) drop_first(arena, &b, &y);
        } else {
            move_run(arena, &b, &y, &c, ends, a.m + 1, first_p(&a, &x));
        }
    }
    c.last[FORWARD] = 0;
    for (size_t k = 1; k < LINKS; k++) *ends[k] = 0;
    head[BACK] = c.number;
}

void lazy_merge(uint32_t *arena, size_t older, size_t newer, uint32_t rib, size_t result) {
    const uint32_t *a = record(arena, older), *b = record(arena, newer);
    uint32_t *head = record(arena, result);
    arena[M] = 0;
    if (a[FORWARD + 1] == 0 && b[FORWARD + 1] == 0) {
        merge_flat(arena, front_at(arena, a[FORWARD]), front_at(arena, b[FORWARD]), rib, head);
    } else {
        merge_linked(arena, older, newer, rib, head);
    }
}
