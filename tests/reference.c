/* Written from the paper and to be read against it: each comment quotes or names the sentence that its code states.
 * It is also the baseline of bench/, so it makes no pass over the data that the order of refusals does not ask for. */
#include "reference.h"

#include <string.h>

enum { HEADER = 16, RECORD = 32, MOST_RECORDS = 2000, MOST_RECORDS_1 = 512 };
enum { LIVE = 0, CONTESTED = 1, WITHDRAWN = 2 };
enum { COAL = 1, GAS = 2, HYDRO = 3, WIND = 4, PHOTOVOLTAIC = 5, PUMPED = 7 };

/* ---- bytes, little endian whatever the machine ---- */

static uint32_t get16(const uint8_t *p) { return p[0] | (uint32_t)p[1] << 8; }
static uint32_t get32(const uint8_t *p) { return p[0] | (uint32_t)p[1] << 8 | (uint32_t)p[2] << 16 | (uint32_t)p[3] << 24; }
static uint64_t get64(const uint8_t *p) { return get32(p) | (uint64_t)get32(p + 4) << 32; }

static void put16(uint8_t *p, uint32_t v) { p[0] = (uint8_t)v; p[1] = (uint8_t)(v >> 8); }
static void put32(uint8_t *p, uint32_t v) { put16(p, v); put16(p + 2, v >> 16); }
static void put64(uint8_t *p, uint64_t v) { put32(p, (uint32_t)v); put32(p + 4, (uint32_t)(v >> 32)); }

/* Two's complement without a conversion that C leaves to the compiler. */
static int32_t get_i32(const uint8_t *p)
{
    uint32_t v = get32(p);
    return v <= INT32_MAX ? (int32_t)v : -1 - (int32_t)(UINT32_MAX - v);
}

/* ---- the call book ---- */

static const uint8_t *record(const uint8_t *book, size_t i) { return book + HEADER + RECORD * i; }
static uint32_t version(const uint8_t *book) { return get16(book + 4); }
static size_t count(const uint8_t *book) { return get16(book + 10); }
static size_t size(size_t records) { return HEADER + RECORD * records; }

/* Participant and call number make the key; as one number it rises by participant, then number. */
static uint64_t key(const uint8_t *r) { return (uint64_t)get16(r) << 32 | get32(r + 4); }
static uint32_t state(const uint8_t *r) { return r[3]; }
static uint32_t revision(const uint8_t *r) { return get32(r + 8); }

static uint32_t month_minutes(uint32_t year, uint32_t month)
{
    static const uint8_t days[] = {31, 28, 31, 30, 31, 30, 31, 31, 30, 31, 30, 31};
    int leap = year % 4 == 0 && (year % 100 != 0 || year % 400 == 0);
    return (days[month - 1] + (month == 2 && leap ? 1u : 0u)) * 1440;
}

static int header_values_sound(uint32_t area, uint32_t year, uint32_t month)
{
    return area >= 1 && area <= 99 && year >= 2024 && year <= 2099 && month >= 1 && month <= 12;
}

/* Everything that 5 speaks of: one record by itself, in a month of so many minutes. Inline: left to itself the compiler calls it for each record,
 * and the baseline takes a quarter more. */
static inline int record_sound(const uint8_t *r, uint32_t minutes)
{
    uint32_t participant = get16(r), service = r[2], start = get16(r + 12), length = get16(r + 14);
    int32_t a = get_i32(r + 16);
    uint32_t b = get32(r + 20), c = get32(r + 24);

    if (participant < 1 || participant > 64 || state(r) > WITHDRAWN || revision(r) < 1 || get32(r + 28) != 0)
        return 0;
    if (state(r) != LIVE)
        return service == 0 && start == 0 && length == 0 && a == 0 && b == 0 && c == 0;
    if (start + length > minutes)
        return 0;
    switch (service) {
    case 1:
        return start % 15 == 0 && length % 15 == 0 && length >= 15 && a == 0 && b == 0 && c == 0;
    case 2:
        return start % 15 == 0 && length % 15 == 0 && length >= 15 && a >= 0 && a <= 4000000 && b == 0 && c == 0;
    case 3: case 4:
        return length >= 1 && a == 0 && b == 0 && c == 0;
    case 5:
        return start == 0 && length == 0 && a == 0 && b == 0 && c == 0;
    case 6: case 7:
        return start == 0 && length == 0 && a == 0 && b <= 10000 && c == 0;
    case 8:
        return a >= -1000000000 && a <= 1000000000 && b <= 1000000000 && c <= 1;
    case 9:
        return start == 0 && a == 0 && b <= 10000 && c <= 10000;
    case 10:
        return length == 0 && a == 0 && b == 0 && c == 0;
    default:
        return 0;
    }
}

/* "Version 2 of the book allows 2,000 records .. A version 1 book is still read, with its own limit." */
static size_t most_records(uint32_t version) { return version == 1 ? MOST_RECORDS_1 : MOST_RECORDS; }

/* "Order in a book: 1 (under 16), 2, 3, 4, 1, then record by record 5, 6." */
uint32_t ref_check(const uint8_t *book, size_t book_len, uint64_t *place)
{
    *place = 0;
    if (book_len < HEADER)
        return 1;
    if (book[0] != 'N' || book[1] != 'W' || book[2] != 'B')
        return 2;
    if (version(book) != 1 && version(book) != 2)
        return 3;
    uint32_t area = book[3], year = get16(book + 6), month = book[8];
    if (!header_values_sound(area, year, month) || book[9] != 0 || count(book) > most_records(version(book)) || get32(book + 12) != 0)
        return 4;
    if (book_len != size(count(book)))
        return 1;

    uint32_t minutes = month_minutes(year, month);
    uint64_t before = 0; /* below every key, as a participant is at least 1 */
    for (size_t i = 0; i < count(book); i++) {
        const uint8_t *r = record(book, i);
        if (!record_sound(r, minutes)) {
            *place = i;
            return 5;
        }
        if (key(r) <= before) {
            *place = i;
            return 6;
        }
        before = key(r);
    }
    return 0;
}

static void write_header(uint8_t *out, uint32_t version, uint32_t area, uint32_t year, uint32_t month, size_t records)
{
    memcpy(out, "NWB", 3);
    out[3] = (uint8_t)area;
    put16(out + 4, version);
    put16(out + 6, year);
    out[8] = (uint8_t)month;
    out[9] = 0;
    put16(out + 10, (uint32_t)records);
    put32(out + 12, 0);
}

/* "A book of none or one is written as version 1." */
uint32_t ref_none(uint8_t area, uint16_t year, uint8_t month, uint8_t *out, size_t out_len, uint64_t *place, uint64_t *length)
{
    *place = *length = 0;
    if (!header_values_sound(area, year, month))
        return 4;
    if (out_len < size(0))
        return 9;
    write_header(out, 1, area, year, month, 0);
    *length = size(0);
    return 0;
}

uint32_t ref_one(uint8_t area, uint16_t year, uint8_t month,
                 uint16_t participant, uint8_t service, uint8_t state, uint32_t number, uint32_t revision,
                 uint16_t start, uint16_t minutes, int32_t a, uint32_t b, uint32_t c,
                 uint8_t *out, size_t out_len, uint64_t *place, uint64_t *length)
{
    *place = *length = 0;
    if (!header_values_sound(area, year, month))
        return 4;

    uint8_t r[RECORD] = {0};
    put16(r, participant);
    r[2] = service;
    r[3] = state;
    put32(r + 4, number);
    put32(r + 8, revision);
    put16(r + 12, start);
    put16(r + 14, minutes);
    put32(r + 16, (uint32_t)a);
    put32(r + 20, b);
    put32(r + 24, c);
    if (!record_sound(r, month_minutes(year, month)))
        return 5;

    if (out_len < size(1))
        return 9;
    write_header(out, 1, area, year, month, 1);
    memcpy(out + HEADER, r, RECORD);
    *length = size(1);
    return 0;
}

/* ---- the page of tabs ---- */

/* "For each of 64 members the first record's index, the count of its records, and how many are live, contested and withdrawn":
 * five u16 in that order, member 1 first. */
enum { MEMBERS = 64, TAB = 10, PAGE = MEMBERS * TAB };

static size_t tab_at(uint32_t member) { return TAB * (size_t)(member - 1); }
static size_t tab_state_at(uint32_t member, uint32_t state) { return tab_at(member) + 4 + 2 * state; }

/* One member's tab from the book: `i` is where its records begin, if it has any, since keys rise. Gives where they end.
 * "A member with none has index equal to the book's count." */
static inline size_t put_tab(uint8_t *tab, const uint8_t *book, uint32_t member, size_t i)
{
    size_t from = i, all = count(book);
    uint32_t in_state[3] = {0, 0, 0};
    for (; i < all && get16(record(book, i)) == member; i++)
        in_state[state(record(book, i))]++;
    put16(tab, (uint32_t)(i == from ? all : from));
    put16(tab + 2, (uint32_t)(i - from));
    put16(tab + 4, in_state[LIVE]);
    put16(tab + 6, in_state[CONTESTED]);
    put16(tab + 8, in_state[WITHDRAWN]);
    return i;
}

uint32_t ref_tabs(const uint8_t *book, size_t book_len, uint8_t *tabs, size_t tabs_len, uint64_t *place)
{
    uint32_t no = ref_check(book, book_len, place);
    if (no != 0)
        return no;
    if (tabs_len < PAGE)
        return 9;
    size_t i = 0;
    for (uint32_t member = 1; member <= MEMBERS; member++)
        i = put_tab(tabs + tab_at(member), book, member, i);
    return 0;
}

/* The lowest member whose ten bytes are not there in full or are not those of the sound book's own page; 0 where it fits. One pass over the book. */
static uint32_t lowest_unfit(const uint8_t *book, const uint8_t *tabs, size_t tabs_len)
{
    size_t i = 0;
    for (uint32_t member = 1; member <= MEMBERS; member++) {
        uint8_t own[TAB];
        i = put_tab(own, book, member, i);
        if (tabs_len < tab_at(member + 1) || memcmp(tabs + tab_at(member), own, TAB) != 0)
            return member;
    }
    return 0;
}

/* "After every join the summary brought forward equals one worked out afresh", and is not worked out afresh: the first book's page with what changes at the
 * keys of the second. `page` is null where none is asked for. First, a record whose key the first book does not have. */
static inline void count_new(uint8_t *page, const uint8_t *r)
{
    if (!page)
        return;
    uint8_t *now = page + tab_state_at(get16(r), state(r));
    put16(now, get16(now) + 1);
}

/* A key that both books have, where the first book's record r no longer stands: one of state `other` does. */
static inline void count_anew(uint8_t *page, const uint8_t *r, uint32_t other)
{
    if (!page)
        return;
    uint8_t *before = page + tab_state_at(get16(r), state(r)), *now = page + tab_state_at(get16(r), other);
    put16(before, get16(before) - 1);
    put16(now, get16(now) + 1);
}

/* The counts and the indexes of all members, once their states are counted, in a book of so many records. */
static void set_places(uint8_t *page, size_t records)
{
    uint32_t below = 0;
    for (uint32_t member = 1; member <= MEMBERS; member++) {
        uint8_t *tab = page + tab_at(member);
        uint32_t own = get16(tab + 4) + get16(tab + 6) + get16(tab + 8);
        put16(tab, own == 0 ? (uint32_t)records : below);
        put16(tab + 2, own);
        below += own;
    }
}

/* ---- joining ---- */

static int equal_records(const uint8_t *x, const uint8_t *y) { return memcmp(x, y, RECORD) == 0; }

enum standing { NEITHER, FIRST, SECOND };

/* The rule for one key in both books. At one revision, contested against live gives the contested record, and that lies in a book:
 * only two unequal live records make one that lies in neither. */
static enum standing stands(const uint8_t *x, const uint8_t *y)
{
    if ((state(x) == WITHDRAWN) != (state(y) == WITHDRAWN))
        return state(x) == WITHDRAWN ? FIRST : SECOND;
    if (revision(x) != revision(y))
        return revision(x) > revision(y) ? FIRST : SECOND;
    if (equal_records(x, y))
        return FIRST;
    return state(x) == CONTESTED ? FIRST : state(y) == CONTESTED ? SECOND : NEITHER;
}

static void write_contested(uint8_t *out, const uint8_t *r)
{
    memset(out, 0, RECORD);
    put16(out, get16(r));
    out[3] = CONTESTED;
    put32(out + 4, get32(r + 4));
    put32(out + 8, revision(r));
}

static uint32_t check_each(const uint8_t *first, size_t first_len, const uint8_t *second, size_t second_len, uint64_t *place)
{
    uint32_t no = ref_check(first, first_len, place);
    if (no != 0)
        return no;
    no = ref_check(second, second_len, place);
    if (no != 0)
        return no + 20;
    return 0;
}

static uint32_t check_month(const uint8_t *first, const uint8_t *second)
{
    if (first[3] != second[3] || get16(first + 6) != get16(second + 6) || first[8] != second[8])
        return 7;
    return 0;
}

/* Both books, then 7: what joining and asking for a key have in common. */
static uint32_t check_two(const uint8_t *first, size_t first_len, const uint8_t *second, size_t second_len, uint64_t *place)
{
    uint32_t no = check_each(first, first_len, second, second_len, place);
    return no != 0 ? no : check_month(first, second);
}

static inline size_t different_keys(const uint8_t *first, const uint8_t *second)
{
    size_t m = count(first), n = count(second), i = 0, j = 0, keys = 0;
    while (i < m && j < n) {
        uint64_t x = key(record(first, i)), y = key(record(second, j));
        i += x <= y;
        j += y <= x;
        keys++;
    }
    return keys + (m - i) + (n - j);
}

/* "A join gives version 1 exactly where both books are version 1 and the result has at most 512 keys, otherwise version 2." */
static uint32_t joined_version(const uint8_t *first, const uint8_t *second, size_t keys)
{
    return version(first) == 1 && version(second) == 1 && keys <= MOST_RECORDS_1 ? 1 : 2;
}

/* Two sound books of one month: 8, 9, or the joined book. `given` is the first book's page, and `page` the room for the joined one's; both are
 * null where no page is asked for. Inline, so that the baseline of a join without a page is what it was before there were pages. */
__attribute__((always_inline)) static inline
uint32_t join_sound(const uint8_t *first, const uint8_t *second, uint8_t *out, size_t out_len,
                    const uint8_t *given, uint8_t *page, size_t page_len, uint64_t *length, uint64_t *turns)
{
    /* 8 and 9 come before the first byte is written, so the keys are counted ahead; but only where it could matter. */
    size_t m = count(first), n = count(second);
    if (m + n > MOST_RECORDS || size(m + n) > out_len) {
        size_t keys = different_keys(first, second);
        if (keys > MOST_RECORDS)
            return 8;
        if (size(keys) > out_len)
            return 9;
    }
    if (given) {
        if (page_len < PAGE)
            return 9;
        memcpy(page, given, PAGE);
    }

    /* A key a step, the lowest that is left, and the steps are counted by themselves, apart from the bytes that they write. */
    uint64_t steps = 0;
    uint8_t *to = out + HEADER;
    const uint8_t *x = record(first, 0), *x_end = record(first, m);
    const uint8_t *y = record(second, 0), *y_end = record(second, n);
    while (x < x_end && y < y_end) {
        uint64_t kx = key(x), ky = key(y);
        if (kx < ky) {
            memcpy(to, x, RECORD);
            x += RECORD;
        } else if (ky < kx) {
            memcpy(to, y, RECORD);
            count_new(page, y);
            y += RECORD;
        } else {
            switch (stands(x, y)) {
            case FIRST: memcpy(to, x, RECORD); break;
            case SECOND: memcpy(to, y, RECORD); count_anew(page, x, state(y)); break;
            case NEITHER: write_contested(to, x); count_anew(page, x, CONTESTED); break;
            }
            x += RECORD;
            y += RECORD;
        }
        to += RECORD;
        steps++;
    }
    memcpy(to, x, (size_t)(x_end - x));
    to += x_end - x;
    memcpy(to, y, (size_t)(y_end - y));
    to += y_end - y;
    steps += (uint64_t)(x_end - x) / RECORD + (uint64_t)(y_end - y) / RECORD; /* one of the two has none left */
    for (; page && y < y_end; y += RECORD)
        count_new(page, y);

    size_t keys = (size_t)(to - out - HEADER) / RECORD;
    *turns = steps;
    *length = size(keys);
    write_header(out, joined_version(first, second, keys), first[3], get16(first + 6), first[8], keys);
    if (page)
        set_places(page, keys);
    return 0;
}

uint32_t ref_join(const uint8_t *first, size_t first_len, const uint8_t *second, size_t second_len,
                  uint8_t *out, size_t out_len, uint64_t *place, uint64_t *length, uint64_t *turns)
{
    *turns = 0;
    *length = 0;
    uint32_t no = check_two(first, first_len, second, second_len, place);
    if (no != 0)
        return no;
    return join_sound(first, second, out, out_len, NULL, NULL, 0, length, turns);
}

/* "10 at the lowest member for a summary that doesn't fit the first book, which alone brings one, after the books' own refusals and before 7." */
uint32_t ref_join_tabs(const uint8_t *first, size_t first_len, const uint8_t *tabs, size_t tabs_len, const uint8_t *second, size_t second_len,
                       uint8_t *out, size_t out_len, uint8_t *out_tabs, size_t out_tabs_len, uint64_t *place, uint64_t *length, uint64_t *turns)
{
    *length = *turns = 0;
    uint32_t no = check_each(first, first_len, second, second_len, place);
    if (no != 0)
        return no;
    *place = lowest_unfit(first, tabs, tabs_len);
    if (*place != 0)
        return 10;
    no = check_month(first, second);
    return no != 0 ? no : join_sound(first, second, out, out_len, tabs, out_tabs, out_tabs_len, length, turns);
}

/* Where a key lies in a sound book, or null. */
static const uint8_t *look_up(const uint8_t *book, uint64_t wanted)
{
    size_t low = 0, high = count(book);
    while (low < high) {
        size_t middle = low + (high - low) / 2;
        if (key(record(book, middle)) < wanted)
            low = middle + 1;
        else
            high = middle;
    }
    return low < count(book) && key(record(book, low)) == wanted ? record(book, low) : NULL;
}

uint32_t ref_find(const uint8_t *first, size_t first_len, const uint8_t *second, size_t second_len,
                  uint16_t participant, uint32_t number, uint64_t *offset)
{
    uint64_t place;
    *offset = 0;
    if (check_two(first, first_len, second, second_len, &place) != 0)
        return 0;
    uint64_t wanted = (uint64_t)participant << 32 | number;
    const uint8_t *x = look_up(first, wanted), *y = look_up(second, wanted);
    enum standing answer = x && y ? stands(x, y) : x ? FIRST : y ? SECOND : NEITHER;
    if (answer != NEITHER)
        *offset = (uint64_t)(answer == FIRST ? x - first : y - second);
    return (uint32_t)answer;
}

/* "Over a whole list of books, a key's record is: where any is withdrawn, withdrawn at the highest withdrawn revision; else at the
 * highest revision, the record there if all at that revision are equal, otherwise contested." */
static void write_standing_of_all(uint8_t *out, const uint8_t *const records[], size_t n)
{
    const uint8_t *withdrawn = NULL, *highest = NULL;
    for (size_t i = 0; i < n; i++) {
        if (state(records[i]) == WITHDRAWN && (!withdrawn || revision(records[i]) > revision(withdrawn)))
            withdrawn = records[i];
        if (!highest || revision(records[i]) > revision(highest))
            highest = records[i];
    }
    if (withdrawn) {
        memcpy(out, withdrawn, RECORD);
        return;
    }
    for (size_t i = 0; i < n; i++)
        if (revision(records[i]) == revision(highest) && !equal_records(records[i], highest)) {
            write_contested(out, highest);
            return;
        }
    memcpy(out, highest, RECORD);
}

/* And the version over a whole list: 1 exactly where every book is version 1 and the list has at most 512 different keys. */
uint32_t ref_join_all(const uint8_t *const books[], size_t n, uint8_t *out, size_t out_len, uint64_t *place, uint64_t *length)
{
    uint8_t all[MOST_RECORDS * RECORD];
    size_t at[REF_MOST_BOOKS] = {0}, keys = 0;
    *place = *length = 0;
    for (;;) {
        /* The lowest key not yet taken, and every record that any book has for it. */
        const uint8_t *records[REF_MOST_BOOKS];
        uint64_t lowest = UINT64_MAX;
        size_t found = 0;
        for (size_t i = 0; i < n; i++)
            if (at[i] < count(books[i]) && key(record(books[i], at[i])) < lowest)
                lowest = key(record(books[i], at[i]));
        if (lowest == UINT64_MAX)
            break;
        for (size_t i = 0; i < n; i++)
            if (at[i] < count(books[i]) && key(record(books[i], at[i])) == lowest)
                records[found++] = record(books[i], at[i]++);
        if (keys == MOST_RECORDS)
            return 8;
        write_standing_of_all(all + RECORD * keys++, records, found);
    }
    if (size(keys) > out_len)
        return 9;
    int all_first = keys <= MOST_RECORDS_1;
    for (size_t i = 0; i < n; i++)
        all_first = all_first && version(books[i]) == 1;
    write_header(out, all_first ? 1 : 2, books[0][3], get16(books[0] + 6), books[0][8], keys);
    memcpy(out + HEADER, all, RECORD * keys);
    *length = size(keys);
    return 0;
}

/* ---- pay, in grains ---- */

/* 10: a register line within its limits */
static int line_sound(uint32_t participant, uint32_t kind, uint32_t rated)
{
    return participant >= 1 && participant <= 64 && kind >= 1 && kind <= 8 && rated >= 1 && rated <= 4000000;
}

/* Request 9: from this month on black start is bought by auction. */
enum { CLOSING_YEAR = 2027, CLOSING_MONTH = 1 };

/* 12: is a sound live record open to this kind, in this month? */
static int open_to(const uint8_t *r, uint32_t kind, uint32_t rated, uint32_t year, uint32_t month)
{
    int32_t a = get_i32(r + 16);
    uint32_t b = get32(r + 20);
    switch (r[2]) {
    case 1: case 4:
        return kind == COAL;
    case 2:
        return kind == COAL ? a >= 1 && (uint32_t)a <= rated : (kind == GAS || kind == HYDRO) && a == 0;
    case 3:
        return kind == COAL || kind == GAS || kind == HYDRO;
    case 5:
        return year < CLOSING_YEAR || (year == CLOSING_YEAR && month < CLOSING_MONTH);
    case 6:
        return kind != WIND && kind != PHOTOVOLTAIC;
    case 8:
        return (kind != WIND && kind != PHOTOVOLTAIC) || (a == 0 && b <= 10000);
    default:
        return 1;
    }
}

/* 13: does live record `r` meet an earlier live one of this member, of which `mine` is the first, as it must not? */
static int collides(const uint8_t *mine, const uint8_t *r)
{
    uint32_t service = r[2], start = get16(r + 12), end = start + get16(r + 14);
    if (service == 8 || service == 10)
        return 0;
    for (const uint8_t *e = mine; e < r; e += RECORD) {
        if (state(e) != LIVE || e[2] != service)
            continue;
        if (service > 4)
            return 1;
        uint32_t e_start = get16(e + 12), e_end = e_start + get16(e + 14);
        if (start < e_end && e_start < end)
            return 1;
    }
    return 0;
}

/* Deep peak and reserve: the sum over the window's quarter hours of what each lacks, in tenths of a kW times the rate. */
static uint64_t window_pay(const uint8_t *r, uint32_t kind, uint32_t rated, const uint32_t *series)
{
    uint32_t from = get16(r + 12) / 15, to = from + get16(r + 14) / 15, a = get32(r + 16);
    uint64_t sum = 0;
    for (uint32_t q = from; q < to; q++) {
        uint32_t p = series[q];
        if (r[2] == 1)
            sum += 10 * p < 5 * rated ? 5 * rated - 10 * p : 0;
        else if (kind != COAL)
            sum += 10 * p < 7 * rated ? 7 * rated - 10 * p : 0;
        else if (5 * rated < 10 * p && p < a)
            sum += (uint64_t)(10 * a - 10 * p) * (10 * p < 7 * rated ? 350 : 70);
    }
    return sum * 15 * (r[2] == 1 ? 3000 : kind == COAL ? 1 : 10);
}

/* What one record pays, apart from the energy of service 8, which is summed over the month first. */
static uint64_t pay(const uint8_t *r, uint32_t kind, uint32_t rated, const uint32_t *series)
{
    uint64_t n = rated;
    uint32_t length = get16(r + 14), b = get32(r + 20), c = get32(r + 24);
    switch (r[2]) {
    case 1: case 2:
        return window_pay(r, kind, rated, series);
    case 3:
        return kind == COAL ? (length <= 4320 ? n * 12000000 : 0) : n * (kind == GAS ? 6000000 : 120000);
    case 4:
        return n * 600000 * (length / 1440 < 7 ? length / 1440 : 7);
    case 5:
        n *= kind == HYDRO || kind == PUMPED ? 600000 : 1200000;
        return n < 1800000000000 ? n : 1800000000000;
    case 6:
        return b > 9800 ? n * 6000 * (b - 9800) : 0;
    case 7:
        if (kind == WIND || kind == PHOTOVOLTAIC)
            return b > 9000 ? n * 120000 * ((b - 9000) / 100) : 0;
        return n * (kind == HYDRO || kind == PUMPED ? 30 : 180) * b;
    case 8: /* wind and photovoltaic */
        if (c == 1 || b < 8000)
            return 0;
        return n * (b < 9000 ? 3000000 + 2400 * (b - 8000) : 5400000);
    case 9:
        return c >= 9800 && b >= 9900 ? (b - 9900) * n * length : 0;
    default:
        return n * 2400000;
    }
}

uint32_t ref_score(uint16_t participant, uint8_t kind, uint32_t rated, const uint8_t *book, size_t book_len,
                   const uint32_t *series, size_t series_len, uint64_t *place, uint64_t *grains, uint64_t *fen)
{
    *place = *grains = *fen = 0;
    if (!line_sound(participant, kind, rated))
        return 10;
    uint32_t no = ref_check(book, book_len, place);
    if (no != 0)
        return no;
    if (series_len != month_minutes(get16(book + 6), book[8]) / 15) {
        *place = 65535;
        return 11;
    }
    for (size_t i = 0; i < series_len; i++)
        if (series[i] > 5000000) {
            *place = i;
            return 11;
        }

    const uint8_t *mine = NULL;
    uint64_t sum = 0;
    int64_t watt_hours = 0;
    for (size_t i = 0; i < count(book); i++) {
        const uint8_t *r = record(book, i);
        if (get16(r) != participant)
            continue;
        if (!mine)
            mine = r;
        if (state(r) == WITHDRAWN)
            continue;
        no = state(r) == CONTESTED ? 14 : !open_to(r, kind, rated, get16(book + 6), book[8]) ? 12 : collides(mine, r) ? 13 : 0;
        if (no != 0) {
            *place = i;
            return no;
        }
        if (r[2] == 8 && kind != WIND && kind != PHOTOVOLTAIC) {
            int64_t a = get_i32(r + 16), b = get32(r + 20);
            if (get32(r + 24) == 0)
                watt_hours += a < b ? a : b;
        } else {
            sum += pay(r, kind, rated, series);
        }
    }
    if (watt_hours > 0)
        sum += (uint64_t)watt_hours * 120000;
    *grains = sum;
    *fen = sum / 60000 + (sum % 60000 >= 30000);
    return 0;
}

/* ---- ramping ---- */

enum { ACTION = 24, MOST_ACTIONS = 60 };

/* One hour: "90,000 grains per kW of distance times the mean index", as an exact fraction, rounded down once. An index is
 * 0.2 x (3 real / standard + 1 - delay / 300 + 1 - error / 1.5% of N), here over 5 x 300 x 15 x standard x N. */
uint32_t ref_ramp(uint16_t participant, uint8_t kind, uint32_t rated, const uint8_t *actions, size_t actions_len, uint64_t *place, uint64_t *grains)
{
    *place = *grains = 0;
    if (actions_len % ACTION != 0)
        return 1;
    if (!line_sound(participant, kind, rated))
        return 10;
    if (kind != COAL && kind != GAS && kind != HYDRO)
        return 12;

    int64_t n = rated, distance = 0, right = 0;
    __int128 indices = 0;
    uint32_t first = actions_len ? get32(actions + 20) : 0;
    for (size_t i = 0; i < actions_len / ACTION; i++) {
        const uint8_t *p = actions + ACTION * i;
        uint32_t start = get32(p), end = get32(p + 4), command = get32(p + 8), delay = get32(p + 12), real = get32(p + 16), standard = get32(p + 20);
        if (i == MOST_ACTIONS || standard == 0 || standard != first || command == start || start > 5000000 || end > 5000000 || command > 5000000
            || delay > 300 || real > 1000000 || standard > 1000000 || real > 100 * standard) {
            *place = i;
            return 10;
        }
        /* "An action whose end is not on the commanded side of its start is wrong-way: it earns no distance and stays out of the mean." */
        if (start < command ? end <= start : end >= start)
            continue;
        int64_t error = end < command ? command - end : end - command, s = standard;
        distance += end < start ? start - end : end - start;
        indices += (__int128)(3 * 300 * 15 * (int64_t)real * n + 15 * (300 - (int64_t)delay) * s * n) + 300 * (15 * n - 1000 * error) * s;
        right++;
    }
    if (right != 0 && indices > 0)
        *grains = (uint64_t)((__int128)90000 * distance * indices / ((__int128)5 * 300 * 15 * first * n * right));
    return 0;
}

/* "Adding 30,000 and dividing by 60,000, rounding down", the sum not wrapping. */
uint64_t ref_fen(uint64_t grains) { return (uint64_t)(((unsigned __int128)grains + 30000) / 60000); }

/* ---- sharing ---- */

enum { LINE = 24, OUTCOME = 16, MOST_LINES = 64, WHOLE = 10000 };
static const uint64_t MOST_FEN = 100000000000; /* 10^11 */

uint32_t ref_share(uint32_t part, const uint8_t *lines, size_t lines_len, uint8_t *out, size_t out_len, uint64_t *place, int64_t *gap)
{
    *place = 0;
    *gap = 0;
    if (lines_len % LINE != 0)
        return 1;
    if (part > WHOLE) {
        *place = 65;
        return 10;
    }

    size_t n = lines_len / LINE;
    uint32_t before = 0;
    uint64_t compensation = 0, assessment = 0;
    for (size_t i = 0; i < n; i++) {
        const uint8_t *l = lines + LINE * i;
        uint32_t number = get16(l);
        /* A 65th line cannot be above 64 sound ones, so it needs no rule of its own. */
        if (number <= before || number > MOST_LINES || l[2] > 2 || l[3] != 0 || get32(l + 4) > 5000000
            || get64(l + 8) > MOST_FEN || get32(l + 16) > 10000000 || get32(l + 20) != 0) {
            *place = i;
            return 10;
        }
        before = number;
        compensation += get64(l + 8);
        assessment += (uint64_t)get32(l + 16) * 100;
    }
    if (compensation > MOST_FEN)
        return 15;

    /* "The generators' R is the whole R times that part, divided by 10,000 and cut toward zero", as C divides; "the rest is one user line". */
    int negative = assessment < compensation;
    int64_t all = (int64_t)assessment - (int64_t)compensation, generators = all * (int64_t)part / WHOLE, user = all - generators;
    uint64_t r = (uint64_t)(negative ? -generators : generators);
    uint64_t weight[MOST_LINES], weights = 0;
    for (size_t i = 0; i < n; i++) {
        const uint8_t *l = lines + LINE * i;
        weight[i] = (uint64_t)get32(l + 4) * (l[2] == 0 ? 10 : l[2] == 1 ? 5 : negative ? 12 : 10);
        weights += weight[i];
    }
    if (r != 0 && weights == 0)
        return 16;
    if (out_len < OUTCOME * n + OUTCOME)
        return 9;

    /* Each share of the generators' R, without its sign, rounded down; the lines are kept in the order in which they get a fen that is left. */
    uint64_t share[MOST_LINES], remainder[MOST_LINES], left = r;
    size_t turn[MOST_LINES];
    for (size_t i = 0; i < n; i++) {
        share[i] = r == 0 ? 0 : r * weight[i] / weights; /* at most 10^11 * 60,000,000 */
        remainder[i] = r == 0 ? 0 : r * weight[i] % weights;
        left -= share[i];
        size_t k = i;
        for (; k > 0 && remainder[turn[k - 1]] < remainder[i]; k--) /* a tie stays behind the lower number */
            turn[k] = turn[k - 1];
        turn[k] = i;
    }
    for (size_t k = 0; k < left; k++)
        share[turn[k]]++;

    for (size_t i = 0; i < n; i++) {
        const uint8_t *l = lines + LINE * i;
        int64_t s = negative ? -(int64_t)share[i] : (int64_t)share[i];
        int64_t amount = (int64_t)get64(l + 8) - (int64_t)get32(l + 16) * 100 + s;
        put64(out + OUTCOME * i, (uint64_t)s);
        put64(out + OUTCOME * i + 8, (uint64_t)amount);
    }
    put64(out + OUTCOME * n, (uint64_t)user);
    put64(out + OUTCOME * n + 8, (uint64_t)user);
    *gap = all;
    return 0;
}
