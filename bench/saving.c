// See saving.h. Each loop over sizes is compiled for eight too, as in file_checks.h.
#include "saving.h"

#include "file_checks.h"

typedef struct {
    const uint32_t *at, *end;
    size_t parts, gauges;
} word_cursor;

typedef uint32_t four_words __attribute__((vector_size(16)));

// ---- words to a file

// For a word below 1 or above 1000, and for no other, one of the two differences has its high bit.
static inline four_words not_limited(four_words x) { return (x - 1) | (1000 - x); }

// Check 8, two sizes at a time, without a way out.
static inline bool are_limited(const uint32_t *sizes, size_t count) {
    four_words high = {0};
    for (size_t i = 0; i < count / 2; i++) {
        four_words two;
        memcpy(&two, sizes + 4 * i, sizeof two);
        high |= not_limited(two);
    }
    if (count % 2 != 0) high |= not_limited((four_words){sizes[2 * count - 2], sizes[2 * count - 1], 1, 1});
    return (high[0] | high[1] | high[2] | high[3]) >> 31 == 0;
}

static inline unsigned gauge_words_number(word_cursor *c) {
    if (c->gauges >= 64) return 10;
    if (c->at == c->end) return 5;
    size_t count = *c->at;
    if (count < 1 || count > MOST_SIZES) return 7;
    c->at++;
    if ((size_t)(c->end - c->at) < 2 * count) return 5;
    if (!(count == MOST_SIZES ? are_limited(c->at, MOST_SIZES) : are_limited(c->at, count))) return 8;
    c->at += 2 * count;
    c->parts++;
    c->gauges++;
    return 0;
}

static inline unsigned entry_words_number(word_cursor *c) {
    if (c->at == c->end) return 5;
    uint32_t kind = *c->at++;
    if (kind < 1 || kind > 3) return 6;
    if (kind == GAUGE) return gauge_words_number(c);
    if (c->parts < 2) return 11;
    c->parts--;
    return 0;
}

// Checks 4 to 8, 10 to 13 and 18: the number of the first that fails, or 0. A face of g gauges and n sizes takes
// 3g + 2n words, so that the 6 + 3g + 4n bytes of its file follow from the number of words, and sizes need not be
// counted.
static unsigned write_number(words face, size_t room) {
    if (face.length < 1) return 5;
    uint32_t entries = face.words[0];
    if (entries < 1 || entries > 127) return 4;
    word_cursor c = {face.words + 1, face.words + face.length, 0, 0};
    for (uint32_t i = 0; i < entries; i++) {
        unsigned number = entry_words_number(&c);
        if (number != 0) return number;
    }
    if (c.parts != 1) return 12;
    if (c.at != c.end) return 13;
    return room < 6 + 2 * face.length - 3 * c.gauges ? 18 : 0;
}

// Answers the place after the sizes. Each height and width is written by itself, so that the compilers take eight at
// once.
static inline uint8_t *write_sizes(const uint32_t *restrict sizes, size_t count, uint8_t *restrict to) {
    for (size_t i = 0; i < 2 * count; i++) {
        uint16_t field = __builtin_bswap16((uint16_t)sizes[i]);
        memcpy(to + 2 * i, &field, sizeof field);
    }
    return to + 4 * count;
}

size_t saving_write(words face, uint8_t *output, size_t room) {
    if (write_number(face, room) != 0) return 0;
    const uint8_t header[7] = {'F', 'C', 'E', 0, 2, 0, (uint8_t)face.words[0]};
    memcpy(output, header, sizeof header);
    uint8_t *to = output + sizeof header;
    const uint32_t *at = face.words + 1, *end = face.words + face.length;
    while (at < end) {
        uint32_t kind = *at++;
        *to++ = (uint8_t)kind;
        if (kind != GAUGE) continue;
        size_t count = *at++;
        *to++ = (uint8_t)count;
        to = count == MOST_SIZES ? write_sizes(at, MOST_SIZES, to) : write_sizes(at, count, to);
        at += 2 * count;
    }
    return (size_t)(to - output);
}

// ---- a file to words

// Checks 1 to 13 and 18. gcc takes more instructions where this is compiled into its caller.
static __attribute__((noinline)) unsigned read_number(bytes file, words output) {
    cursor c = {0, 0, 0, 0};
    unsigned number = file_number(file, &c);
    if (number != 0) return number;
    return output.length < 3 * c.gauges + 2 * c.sizes ? 18 : 0;
}

// Answers the place after the sizes, and reads as write_sizes writes.
static inline uint32_t *read_sizes(const uint8_t *restrict sizes, size_t count, uint32_t *restrict to) {
    for (size_t i = 0; i < 2 * count; i++) {
        uint16_t field;
        memcpy(&field, sizes + 2 * i, sizeof field);
        to[i] = __builtin_bswap16(field);
    }
    return to + 2 * count;
}

size_t saving_read(bytes file, words output) {
    if (read_number(file, output) != 0) return 0;
    uint32_t *to = output.words;
    *to++ = file.bytes[6];
    const uint8_t *at = file.bytes + 7, *end = file.bytes + file.length;
    while (at < end) {
        uint8_t kind = *at++;
        *to++ = kind;
        if (kind != GAUGE) continue;
        size_t count = *at++;
        *to++ = (uint32_t)count;
        to = count == MOST_SIZES ? read_sizes(at, MOST_SIZES, to) : read_sizes(at, count, to);
        at += 4 * count;
    }
    return (size_t)(to - output.words);
}
