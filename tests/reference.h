/* The eleven functions of nwb.h a second time, in plain C and written from the paper alone, so that the archive has something
 * independent to be compared with. Same signatures, same answers; see nwb.h for what each one promises. */
#ifndef NWB_REFERENCE_H
#define NWB_REFERENCE_H

#include <stddef.h>
#include <stdint.h>

uint32_t ref_check(const uint8_t *book, size_t book_len, uint64_t *place);

uint32_t ref_none(uint8_t area, uint16_t year, uint8_t month, uint8_t *out, size_t out_len, uint64_t *place, uint64_t *length);

uint32_t ref_one(uint8_t area, uint16_t year, uint8_t month,
                 uint16_t participant, uint8_t service, uint8_t state, uint32_t number, uint32_t revision,
                 uint16_t start, uint16_t minutes, int32_t a, uint32_t b, uint32_t c,
                 uint8_t *out, size_t out_len, uint64_t *place, uint64_t *length);

uint32_t ref_join(const uint8_t *first, size_t first_len, const uint8_t *second, size_t second_len,
                  uint8_t *out, size_t out_len, uint64_t *place, uint64_t *length, uint64_t *turns);

uint32_t ref_tabs(const uint8_t *book, size_t book_len, uint8_t *tabs, size_t tabs_len, uint64_t *place);

uint32_t ref_join_tabs(const uint8_t *first, size_t first_len, const uint8_t *tabs, size_t tabs_len, const uint8_t *second, size_t second_len,
                       uint8_t *out, size_t out_len, uint8_t *out_tabs, size_t out_tabs_len, uint64_t *place, uint64_t *length, uint64_t *turns);

uint32_t ref_find(const uint8_t *first, size_t first_len, const uint8_t *second, size_t second_len,
                  uint16_t participant, uint32_t number, uint64_t *offset);

uint32_t ref_score(uint16_t participant, uint8_t kind, uint32_t rated, const uint8_t *book, size_t book_len,
                   const uint32_t *series, size_t series_len, uint64_t *place, uint64_t *grains, uint64_t *fen);

uint32_t ref_ramp(uint16_t participant, uint8_t kind, uint32_t rated, const uint8_t *actions, size_t actions_len, uint64_t *place, uint64_t *grains);

uint64_t ref_fen(uint64_t grains);

uint32_t ref_share(uint32_t part, const uint8_t *lines, size_t lines_len, uint8_t *out, size_t out_len, uint64_t *place, int64_t *gap);

/* The paper's rule over a whole list of books, which never speaks of two books at a time: trees of joins are held against it.
 * Books 1 to 64 in number, each sound, of either version, all of one area, year and month. Answers 0, 8 or 9 as joining does. */
enum { REF_MOST_BOOKS = 64 };
uint32_t ref_join_all(const uint8_t *const books[], size_t n, uint8_t *out, size_t out_len, uint64_t *place, uint64_t *length);

#endif
