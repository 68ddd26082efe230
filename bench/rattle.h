// The proved calls, as rattle.rt.txt, catalogue.rt.txt and sheet.rt.txt export them. A slice is lent to Rattle as its
// pointer and its length.
#ifndef RATTLE_H
#define RATTLE_H

#include <stddef.h>
#include <stdint.h>

// The result's head is record 0.
void rattle_merge(uint32_t *arena, size_t arena_words, size_t older, size_t newer, uint32_t rib);

// Answers with the number of items.
uint32_t rattle_list(const uint8_t *file, size_t file_bytes, const uint8_t *levels, size_t level_bytes, uint32_t rib,
                     uint32_t *arena, size_t arena_words, uint32_t *scratch, size_t scratch_words, uint32_t *output,
                     size_t output_words);

// Answers with the looks.
uint32_t rattle_widths(const uint8_t *file, size_t file_bytes, const uint8_t *levels, size_t level_bytes, uint32_t rib,
                       const uint32_t *heights, size_t height_count, uint32_t *arena, size_t arena_words,
                       uint32_t *scratch, size_t scratch_words, uint32_t *output, size_t output_words);

// Answers with the looks. The list has room for one item more.
size_t rattle_walk(uint32_t *list, size_t list_words, size_t items, const uint32_t *heights, size_t height_count,
                   uint32_t *output, size_t output_words);

// Answers with the area.
uint32_t rattle_fit(const uint8_t *file, size_t file_bytes, const uint8_t *levels, size_t level_bytes, uint32_t rib,
                    uint32_t height, uint32_t width, uint32_t *arena, size_t arena_words, uint32_t *scratch,
                    size_t scratch_words, uint32_t *output, size_t output_words);

// Gives as its answer the number and the length of the text.
void rattle_sheet(const uint8_t *file, size_t file_bytes, const uint8_t *levels, size_t level_bytes, uint32_t rib,
                  uint32_t height, uint32_t width, uint32_t *arena, size_t arena_words, uint32_t *scratch,
                  size_t scratch_words, uint8_t *output, size_t output_bytes, uint32_t answer[2]);

// Answers with the kind of the face's last entry.
uint8_t rattle_build(const uint8_t *file, size_t file_bytes, const uint8_t *levels, size_t level_bytes, uint32_t rib,
                     uint32_t *arena, size_t arena_words);

// Answers with p of the item at a place from the top or from the low end, 0 where a check fails.
uint32_t rattle_read(const uint32_t *arena, size_t arena_words, uint32_t place);
uint32_t rattle_read_low(const uint32_t *arena, size_t arena_words, uint32_t place);

// Answers with the length of the file, 0 where a check fails.
uint32_t rattle_write_file(const uint32_t *words, size_t word_count, uint8_t *output, size_t output_bytes);

// Answers with the number of words, 0 where a check fails.
uint32_t rattle_read_words(const uint8_t *file, size_t file_bytes, uint32_t *output, size_t output_words);

// Answers with the number.
uint32_t rattle_fill_levels(const uint8_t *file, size_t file_bytes, uint8_t *levels, size_t level_bytes);

#endif
