/* nwb.h: call books, pay and sharing for the plants' own tools. Eleven functions.
 *
 * Editions of this header (NWB_EDITION), the latest last:
 *  1  the base.
 *  2  nwb_share takes the generator part and gives the user's amount besides: a tool built with edition 1 must be built anew.
 *  3  books of version 2, of up to 2,000 records. No signature is changed; "Two versions", below, says what a caller has to know.
 *  4  nwb_join tells its turns in a cell more: a tool built with an earlier header must be built anew.
 *
 * What holds for every function:
 *
 *  - The number is returned; 0 is accepted. Every other answer goes through a pointer to a cell. Each cell is written by
 *    every call, and must be given; where the paper says zeros it is 0. Cells are the answer and no lent memory.
 *  - A refusal gives number and place, otherwise zeros; lent memory (`out`, a page to be written) keeps its contents, every byte of it.
 *  - Accepted, number and place are 0. Only the bytes of the answer are written to lent memory; bytes after it stay.
 *  - What is lent for reading is only read. Records, actions, lines and series values are counted from 0.
 *  - Buffers and cells must not overlap one another.
 *  - A length of 0 may come with a null pointer. Any address will do for bytes (a series is aligned as uint32_t asks).
 *    Lengths of bytes are in bytes, the length of a series is in values.
 *  - A stack of 4 KiB is enough for every function, its return address and stack arguments included; how much each one takes is
 *    the table of bench/README.md, "The stack". There is no heap, and nothing is kept between calls.
 *
 * The refusal numbers, when each comes and what its place counts, are the table of docs/FORMAT.md, "Refusal numbers";
 * the order in which a function asks them is said at the function.
 *
 * Two versions. A book is of version 1, up to 512 records, or of version 2, up to 2,000; header and records lie alike. Every
 * function that reads books takes both, also one of each. What is new to a caller of edition 2:
 *
 *  - nwb_join may give a version 2 book: where one of the two books is of version 2, and where the result has more than 512 keys.
 *    A tool of edition 1 or 2 answers such a book with 3. nwb_none and nwb_one write version 1.
 *  - 8 comes above 2,000 keys, no longer above 512. Who lends room for 16,400 bytes, the longest book of before, and was told 8 at
 *    the 513th key, is told 9 now: room for any joined book is NWB_MOST_BOOK bytes.
 *  - A buffer that a book is read into has to hold NWB_MOST_BOOK bytes too.
 */
#ifndef NWB_H
#define NWB_H

#include <stddef.h>
#include <stdint.h>

#define NWB_EDITION 4

/* The most records of a version 1 book, and of a version 2 book; the longest book of either version in bytes, 16 + 32 * 2,000. */
#define NWB_MOST_RECORDS_1 512
#define NWB_MOST_RECORDS_2 2000
#define NWB_MOST_BOOK 64016

/* A page of tabs in bytes: ten for each of 64 members, member 1 first. They are five u16, little endian: the index of the member's
 * first record (the book's count, not 0, where it has none), the count of its records, and how many of these are live, contested and
 * withdrawn. There is no mark, no version and no reserved byte: books of equal calls have one page, whatever their versions. */
#define NWB_TABS 640

#ifdef __cplusplus
extern "C" {
#endif

/* Checks one book. In this order: 1 (under 16 bytes), 2, 3 (a version other than 1 and 2), 4 (a count above its version's limit, or
 * another header field), 1 (length not as count says), then record by record 5, 6.
 * The place of 5 and 6 is the record, else 0. Nothing but the cell is written. */
uint32_t nwb_check(const uint8_t *book, size_t book_len, uint64_t *place);

/* Writes a book of none from header values, 16 bytes, of version 1. In this order: 4, 9; the place is 0.
 * `length` is 16, or 0 on a refusal. Bytes of `out` after the book stay; on a refusal all of them do. */
uint32_t nwb_none(uint8_t area, uint16_t year, uint8_t month, uint8_t *out, size_t out_len, uint64_t *place, uint64_t *length);

/* Writes a book of one from header values and a record, 48 bytes, of version 1. In this order: 4, 5, 9; the place is 0.
 * `minutes` is the record's length field. A contested or withdrawn record has service, start, minutes, a, b and c all zero.
 * `length` is 48, or 0 on a refusal. Bytes of `out` after the book stay; on a refusal all of them do. */
uint32_t nwb_one(uint8_t area, uint16_t year, uint8_t month,
                 uint16_t participant, uint8_t service, uint8_t state, uint32_t number, uint32_t revision,
                 uint16_t start, uint16_t minutes, int32_t a, uint32_t b, uint32_t c,
                 uint8_t *out, size_t out_len, uint64_t *place, uint64_t *length);

/* Joins two books into `out`. A key in one book only keeps its record. In both: withdrawn beats live and contested whatever the
 * revisions; of two withdrawn the higher revision stands. Otherwise the higher revision stands. At equal revision, equal records
 * stay; unequal ones become contested at that revision.
 * The joined book is of version 1 exactly where both books are and it has at most 512 keys, otherwise of version 2.
 * In this order: 1 to 6 for the first book as nwb_check has them, 21 to 26 for the second (its place counts in the second book),
 * 7 (year, month or area differ; the version is not asked), 8 (more than 2,000 keys, whatever the versions), 9.
 * `length` is the joined book's, 16 + 32 for each different key, or 0 on a refusal. `turns` is the number of different keys of
 * both books: the join settles one key a turn, the lowest that either book still has, and writes its record once. It is 0 for two empty
 * books, and on a refusal.
 * Bytes of `out` after the book stay; on a refusal all of them do. `out` must not overlap either book. */
uint32_t nwb_join(const uint8_t *first, size_t first_len, const uint8_t *second, size_t second_len,
                  uint8_t *out, size_t out_len, uint64_t *place, uint64_t *length, uint64_t *turns);

/* Makes the page of a book afresh. In this order: 1 to 6 as nwb_check has them, 9 (under NWB_TABS bytes of `tabs`; place 0).
 * Bytes of `tabs` after the page stay; on a refusal all of them do. `tabs` must not overlap the book. */
uint32_t nwb_tabs(const uint8_t *book, size_t book_len, uint8_t *tabs, size_t tabs_len, uint64_t *place);

/* Joins two books into `out` as nwb_join does, and brings the first book's page `tabs` forward into `out_tabs`, which is then the
 * joined book's own: the one that nwb_tabs makes of it. Only the first book brings a page.
 * In this order: 1 to 6 for the first book and 21 to 26 for the second, as nwb_join has them; 10, where the page does not fit the first
 * book; 7; 8; 9, where either output is too short (place 0), `out` for the book or `out_tabs` for NWB_TABS bytes.
 * The place of 10 is the lowest member, by its number 1 to 64, whose ten bytes are not there in full or are not those of the first
 * book's own page. So a page that is too short is 10 and not 1: 69 bytes of a right page are 10 at 7, no bytes are 10 at 1. Bytes of
 * `tabs` behind the first NWB_TABS are not looked at.
 * Accepted, `length`, `turns` and the book's bytes are nwb_join's; on a refusal `length` and `turns` are 0.
 * Bytes of `out` after the book and of `out_tabs` after the page stay; on a refusal all of them do. All five buffers lie apart, the
 * page that is given and the page that is written too. */
uint32_t nwb_join_tabs(const uint8_t *first, size_t first_len, const uint8_t *tabs, size_t tabs_len,
                       const uint8_t *second, size_t second_len, uint8_t *out, size_t out_len, uint8_t *out_tabs, size_t out_tabs_len,
                       uint64_t *place, uint64_t *length, uint64_t *turns);

/* Asks for one key, participant and call number, in two books: the record that stands, as it lies in the first or the second book.
 * Gives 1 where it lies in the first (also where both are equal), 2 where it lies in the second, and in `offset` where its
 * 32 bytes begin in that book. Gives 0 and offset 0 where neither has the key, where the rule makes a record that stands in
 * neither, or where joining would refuse with 1 to 7 or 21 to 26; no number is given here. Limits 8 and 9 play no part.
 * Nothing but the cell is written. */
uint32_t nwb_find(const uint8_t *first, size_t first_len, const uint8_t *second, size_t second_len,
                  uint16_t participant, uint32_t number, uint64_t *offset);

/* Scores one member: its register line (participant 1 to 64, kind 1 to 8, rated 1 to 4,000,000 kW), the book, and one mean output
 * in kW, 0 to 5,000,000, for each quarter hour of the book's month.
 * In this order: 10 (place 0); the book, 1 to 6; 11, the length first (place 65,535), then the lowest bad index; then that member's
 * records in turn, in each 14, 12, 13 (the place counts in the whole book). Others' and withdrawn records are skipped.
 * From January 2027 on a live black start (service 5) is 12 for every kind; checking, joining and finding take it in any month.
 * `grains` is the month's pay (60,000 grains are one fen) and `fen` the same rounded once; both are 0 on a refusal.
 * Nothing but the cells is written. */
uint32_t nwb_score(uint16_t participant, uint8_t kind, uint32_t rated, const uint8_t *book, size_t book_len,
                   const uint32_t *series, size_t series_len, uint64_t *place, uint64_t *grains, uint64_t *fen);

/* Scores one hour's control actions of a coal, gas or hydro unit (article 16): its register line as nwb_score has it, and 0 to 60
 * actions of 24 bytes, little endian, six u32 each: power at the start, at the end, commanded power (kW, at most 5,000,000),
 * delay (seconds, at most 300), real rate, standard rate (kW a minute, at most 1,000,000; real at most 100 times standard).
 * In this order: 1 (no multiple of 24), 10 (the register line, place 0), 12 (another kind, place 0), then action by action 10, its
 * place the action: a standard rate of 0 or unlike the first action's, a command equal to the start, a field above its limit, a
 * 61st action (place 60). No actions are accepted, and pay 0.
 * `grains` is the hour's pay, 0 on a refusal: 90,000 a kW of distance times the mean index, over the right-way actions alone,
 * rounded down once; at most 1,630,800,000,000,000. Nothing but the cells is written. */
uint32_t nwb_ramp(uint16_t participant, uint8_t kind, uint32_t rated, const uint8_t *actions, size_t actions_len,
                  uint64_t *place, uint64_t *grains);

/* Fen for grains, 60,000 to a fen, half a fen upwards: right for every number of 64 bits. A member's fen are those of its score's
 * grains and its hours' grains added up, converted once. It refuses nothing and writes nothing. */
uint64_t nwb_fen(uint64_t grains);

/* Shares the generators' R over 0 to 64 lines of 24 bytes, little endian: number u16, status u8, a zero byte, energy u32,
 * compensation u64, assessment u32, four zero bytes. R is A - C; the generators' is R times `part`, 0 to 10,000 hundredths of a
 * percent, over 10,000 and cut toward zero, and the rest is the user's amount. The outcome is 16 bytes a line, share i64, amount
 * i64, and 16 behind them, the user's amount twice: 16 * lines + 16 bytes, no lines give 16. All amounts, the user's among them,
 * add up to zero. With part 10,000 the lines get what they got without a part, and the user's amount is 0.
 * In this order: 1 (no multiple of 24), 10 at place 65 (a part above 10,000), 10 line by line (the place is the line; a 65th line
 * has place 64), 15, 16, 9. `gap` is the whole R in fen, negative where compensations exceed assessments; 0 on a refusal.
 * Bytes of `out` after the outcome stay; on a refusal all of them do. `out` must not overlap `lines`. */
uint32_t nwb_share(uint32_t part, const uint8_t *lines, size_t lines_len, uint8_t *out, size_t out_len, uint64_t *place, int64_t *gap);

#ifdef __cplusplus
}
#endif

#endif
