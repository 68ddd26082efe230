// See reading.h.
#include "reading.h"

#include "lazy.h"

// For each link k the record that must come next with it. The sum of a link is that of the adjusts k and up.
typedef struct {
    uint32_t due[LINKS], sums[LINKS + 1];
} links;

// Passes a record at its links above the lowest. Answers whether each was due.
static inline bool pass(const uint32_t *x, uint32_t r, links *l) {
    for (size_t k = x[LEVEL] - 1; k > 0; k--) {
        if (l->due[k] != r) return false;
        l->due[k] = x[FORWARD + k];
        l->sums[k] = l->sums[k + 1] + x[ADJUST + k];
    }
    return true;
}

static inline bool none_due(const links *l) {
    uint32_t any = 0;
    for (size_t k = 1; k < LINKS; k++) any |= l->due[k];
    return any == 0;
}

// Reading from the top remembers the item on the way; from the low end the walk has to end first, so that every p is kept.
static inline __attribute__((always_inline)) uint32_t read_end(words arena, uint32_t place, bool low) {
    if (arena.length < 16384 || arena.words[LEVEL] != LINKS) return 0;
    links l = {{0}, {0}};
    pass(arena.words, 0, &l);
    uint64_t m_before = UINT64_MAX;
    int64_t p_before = -1;
    uint32_t ps[512], found = 0, count = 0, last = 0;
    for (uint32_t r = arena.words[FORWARD]; r != 0;) {
        if (r > 512 || ++count > 512) return 0;
        const uint32_t *x = arena.words + STRIDE * r;
        if (x[LEVEL] - 1 >= LINKS || x[BACK] != last) return 0;
        uint32_t m = x[M], p = x[P] + l.sums[x[LEVEL]];
        if (m >= m_before || p <= p_before) return 0;
        if (!pass(x, r, &l)) return 0;
        if (low) ps[count - 1] = p;
        else if (count == place) found = p;
        m_before = m;
        p_before = p;
        last = r;
        r = x[FORWARD];
    }
    if (arena.words[BACK] != last || !none_due(&l)) return 0;
    if (!low) return found;
    return count - place < count ? ps[count - place] : 0;
}

uint32_t arena_read(words arena, uint32_t place) { return read_end(arena, place, false); }

uint32_t arena_read_low(words arena, uint32_t place) { return read_end(arena, place, true); }
