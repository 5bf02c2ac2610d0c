/* What takes the most of the stack: every function of nwb.h on its fullest inputs (2,000 + 2,000 records, a month of 31 days, 64 lines, 60 actions), accepted and with
 * each refusal. Linked with tests/small-stack.c, so that each call has 4 KiB and a guard page below them. Fails where an answer is not the one meant, so that each path is
 * seen to be gone, and names the call where a guard page was touched. */
#define _DEFAULT_SOURCE
#include "memory-and-books.h"
#include "nwb.h"

enum { FULL = MOST_2, QUARTERS = 2976, LINES = 64, ACTIONS = 60 };

static struct call calls[FULL + 1];
static uint8_t first[BOOK_MOST], second[BOOK_MOST], spoilt[BOOK_MOST + 32], out[2 * BOOK_MOST], lines[24 * (LINES + 1)], actions[24 * (ACTIONS + 1)];
static size_t first_len, second_len;
static uint32_t series[QUARTERS];
static uint64_t place, length, turns, grains, fen, offset;
static int64_t gap;
static int failed, line_now;

static void want(uint64_t got, uint64_t number)
{
    if (got != number) {
        printf("stack: tests/stack.c:%d answered %llu, not %llu\n", line_now, (unsigned long long)got, (unsigned long long)number);
        failed = 1;
    }
}

#define WANT(number, call) (line_now = __LINE__, want(call, number))

static void touched(int sig)
{
    printf("stack: tests/stack.c:%d: signal %d, more than 4 KiB of stack is needed, or another guard page was touched\n", line_now, sig);
    fflush(stdout);
    _exit(1);
}

/* ---- books ---- */

/* A sound call of a service that is open to coal. */
static struct call call_of(uint16_t member, uint32_t number, uint8_t service, uint16_t start)
{
    struct call c = {member, service, 0, number, 1, 0, 0, 0, 0, 0};
    if (service >= 1 && service <= 4)
        c.start = start, c.minutes = 15;
    if (service == 2)
        c.a = 200000;
    if (service == 8)
        c.start = start, c.a = 1000000000, c.b = 1000000000;
    if (service == 9)
        c.minutes = 40000;
    if (service == 6 || service == 7 || service == 9)
        c.b = c.c = 9901;
    if (service == 6 || service == 7)
        c.c = 0;
    return c;
}

/* Call i of the full books: 31 to a member and what is left to the last. A member's first ten are of each service in turn, the others of those that it may have often. */
static uint16_t member_of(uint32_t i) { return (uint16_t)(i < 31 * 63 ? i / 31 + 1 : 64); }

static uint8_t service_of(uint32_t i)
{
    static const uint8_t often[] = {1, 2, 3, 4, 8, 10};
    uint32_t mine = i - 31 * (member_of(i) - 1u);
    return (uint8_t)(mine < 10 ? mine + 1 : often[mine % 6]);
}

/* Books of 2,000 calls over 64 members and all services; half of the second's are of another revision, some contradict. */
static void fill_books(void)
{
    for (uint32_t i = 0; i < FULL; i++)
        calls[i] = call_of(member_of(i), i, service_of(i), (uint16_t)(15 * (i % 100)));
    first_len = put_book_of(2, first, 1, 2026, 1, calls, FULL);
    for (uint32_t i = 0; i < FULL; i++) {
        calls[i].revision = i % 2 + 1;
        if (i % 3 == 0 && calls[i].service == 3)
            calls[i].minutes = 30;
        if (i % 7 == 0)
            calls[i] = (struct call){calls[i].participant, 0, (uint8_t)(1 + i % 2), calls[i].number, 3, 0, 0, 0, 0, 0};
    }
    second_len = put_book_of(2, second, 1, 2026, 1, calls, FULL);
}

/* The first book with one fault, by the refusal that it is for; the fault is as far behind as it can be. */
static size_t spoil(uint32_t number)
{
    memcpy(spoilt, first, first_len);
    switch (number) {
    case 1: return first_len - 1;
    case 2: spoilt[0] = 'M'; break;
    case 3: spoilt[4] = 3; break;
    case 4: spoilt[8] = 13; break;
    case 5: spoilt[16 + 32 * (FULL - 1) + 31] = 1; break;
    case 6: memcpy(spoilt + 16 + 32 * (FULL - 1), spoilt + 16 + 32 * (FULL - 2), 32); break;
    case 7: spoilt[8] = 3; break;
    }
    return first_len;
}

static void books(void)
{
    WANT(0, nwb_check(first, first_len, &place));
    WANT(0, nwb_check(second, second_len, &place));
    WANT(1, nwb_check(NULL, 0, &place));
    for (uint32_t n = 1; n <= 6; n++)
        WANT(n, nwb_check(spoilt, spoil(n), &place));
    WANT(0, nwb_none(1, 2026, 1, out, sizeof out, &place, &length));
    WANT(4, nwb_none(0, 2026, 1, out, sizeof out, &place, &length));
    WANT(9, nwb_none(1, 2026, 1, NULL, 0, &place, &length));
    for (uint8_t service = 0; service <= 10; service++)
        for (uint8_t state = 0; state <= 2; state++) {
            struct call c = call_of(64, UINT32_MAX, service, 30);
            uint32_t no = (service == 0) == (state == 0) ? 5 : 0;
            WANT(no, nwb_one(1, 2026, 1, 64, service, state, c.number, c.revision, c.start, c.minutes, c.a, c.b, c.c, out, sizeof out, &place, &length));
        }
    WANT(4, nwb_one(1, 2026, 13, 1, 3, 0, 9, 1, 0, 240, 0, 0, 0, out, sizeof out, &place, &length));
    WANT(5, nwb_one(1, 2026, 1, 65, 3, 0, 9, 1, 0, 240, 0, 0, 0, out, sizeof out, &place, &length));
    WANT(9, nwb_one(1, 2026, 1, 1, 3, 0, 9, 1, 0, 240, 0, 0, 0, out, 47, &place, &length));
}

/* ---- two books ---- */

/* A part of the first book: one call in `step`, from `from` on. */
static size_t part(uint8_t *book, int from, int step)
{
    size_t n = 0;
    for (int i = from; i < FULL; i += step, n++)
        memcpy(book + 16 + 32 * n, first + 16 + 32 * i, 32);
    memcpy(book, first, 16);
    put_bytes(book + 10, n, 2);
    return 16 + 32 * n;
}

/* Call i of `first` and `second`: the second's where it is of a later revision, withdrawn or contested; the first's where both are equal; neither where they are not. */
static uint32_t stands(uint32_t i) { return i == FULL ? 0 : i % 7 == 0 || i % 2 == 1 ? 2 : i % 3 == 0 && service_of(i) == 3 ? 0 : 1; }

static void find(uint32_t number, const uint8_t *a, size_t a_len, const uint8_t *b, size_t b_len, uint32_t key, uint64_t where)
{
    WANT(number, nwb_find(a, a_len, b, b_len, member_of(key), key, &offset));
    WANT(number == 0 ? 0 : where, offset);
}

static void two_books(void)
{
    static uint8_t odd[BOOK_MOST], even[BOOK_MOST], last[BOOK_MOST];
    size_t odd_len = part(odd, 1, 2), even_len = part(even, 0, 2), last_len = part(last, FULL - 1, 1);
    WANT(0, nwb_join(first, first_len, first, first_len, out, sizeof out, &place, &length, &turns));
    WANT(0, nwb_join(first, first_len, second, second_len, out, 16 + 32 * FULL, &place, &length, &turns));
    WANT(0, nwb_join(second, second_len, first, first_len, out, sizeof out, &place, &length, &turns));
    WANT(0, nwb_join(odd, odd_len, even, even_len, out, sizeof out, &place, &length, &turns));
    WANT(0, nwb_join(last, last_len, second, second_len, out, sizeof out, &place, &length, &turns));
    for (uint32_t n = 1; n <= 7; n++) {
        WANT(n, nwb_join(spoilt, spoil(n), second, second_len, out, sizeof out, &place, &length, &turns));
        WANT(n < 7 ? n + 20 : 7, nwb_join(first, first_len, spoilt, spoil(n), out, sizeof out, &place, &length, &turns));
        WANT(0, nwb_find(spoilt, spoil(n), second, second_len, 64, FULL - 1, &offset));
        WANT(0, nwb_find(first, first_len, spoilt, spoil(n), 64, FULL - 1, &offset));
    }
    put_bytes(last + 16 + 4, UINT32_MAX, 4); /* a call more than 2,000 */
    WANT(8, nwb_join(first, first_len, last, last_len, out, sizeof out, &place, &length, &turns));
    WANT(9, nwb_join(first, first_len, second, second_len, out, 15 + 32 * FULL, &place, &length, &turns));
    WANT(9, nwb_join(odd, odd_len, even, even_len, NULL, 0, &place, &length, &turns));
    /* A full book of version 1: with itself, and with one call more, into room for version 2 and for version 1 alone. */
    static uint8_t small[BOOK_MOST_1];
    size_t small_len = put_book(small, 1, 2026, 1, NULL, 0) + 32 * MOST_1;
    memcpy(small + 16, first + 16, 32 * MOST_1);
    put_bytes(small + 10, MOST_1, 2);
    WANT(0, nwb_check(small, small_len, &place));
    WANT(0, nwb_join(small, small_len, small, small_len, out, 16 + 32 * MOST_1, &place, &length, &turns));
    WANT(1, out[4]);
    last[4] = 1;
    WANT(0, nwb_join(small, small_len, last, last_len, out, sizeof out, &place, &length, &turns));
    WANT(2, out[4]);
    WANT(9, nwb_join(small, small_len, last, last_len, out, 16 + 32 * MOST_1, &place, &length, &turns));
    put_bytes(small + 10, MOST_1 + 1, 2);
    WANT(4, nwb_check(small, small_len, &place));
    for (uint32_t i = 0; i <= FULL; i++) {
        find(stands(i), first, first_len, second, second_len, i, 16 + 32 * i);
        find(i == FULL ? 0 : i % 2 == 1 ? 1 : 2, odd, odd_len, even, even_len, i, 16 + 32 * (i / 2));
    }
}

/* ---- pages of tabs ---- */

static uint32_t join_tabs(const uint8_t *a, size_t a_len, const uint8_t *tabs, size_t tabs_len, const uint8_t *b, size_t b_len, size_t room, size_t page_room)
{
    static uint8_t page[NWB_TABS];
    return nwb_join_tabs(a, a_len, tabs, tabs_len, b, b_len, room ? out : NULL, room, page_room ? page : NULL, page_room, &place, &length, &turns);
}

/* The full books again, each with its page; then each refusal, 10 at the last member as at the first. */
static void pages(void)
{
    static uint8_t odd[BOOK_MOST], even[BOOK_MOST], last[BOOK_MOST], first_tabs[NWB_TABS], second_tabs[NWB_TABS], odd_tabs[NWB_TABS], last_tabs[NWB_TABS];
    size_t odd_len = part(odd, 1, 2), even_len = part(even, 0, 2), last_len = part(last, FULL - 1, 1);
    WANT(0, nwb_tabs(first, first_len, first_tabs, NWB_TABS, &place));
    WANT(0, nwb_tabs(second, second_len, second_tabs, NWB_TABS, &place));
    WANT(0, nwb_tabs(odd, odd_len, odd_tabs, NWB_TABS, &place));
    WANT(0, nwb_tabs(last, last_len, last_tabs, NWB_TABS, &place));
    WANT(1, nwb_tabs(NULL, 0, NULL, 0, &place));
    WANT(9, nwb_tabs(first, first_len, NULL, 0, &place));
    WANT(9, nwb_tabs(first, first_len, out, NWB_TABS - 1, &place));
    for (uint32_t n = 1; n <= 6; n++)
        WANT(n, nwb_tabs(spoilt, spoil(n), out, NWB_TABS, &place));
    WANT(0, join_tabs(first, first_len, first_tabs, NWB_TABS, first, first_len, sizeof out, NWB_TABS));
    WANT(0, join_tabs(first, first_len, first_tabs, NWB_TABS, second, second_len, BOOK_MOST, NWB_TABS));
    WANT(0, join_tabs(second, second_len, second_tabs, NWB_TABS, first, first_len, sizeof out, NWB_TABS));
    WANT(0, join_tabs(odd, odd_len, odd_tabs, NWB_TABS, even, even_len, sizeof out, NWB_TABS));
    WANT(0, join_tabs(last, last_len, last_tabs, NWB_TABS, second, second_len, sizeof out, NWB_TABS));
    WANT(0, join_tabs(first, first_len, first_tabs, NWB_TABS, last, last_len, sizeof out, NWB_TABS));
    for (uint32_t n = 1; n <= 7; n++) {
        WANT(n, join_tabs(spoilt, spoil(n), first_tabs, NWB_TABS, second, second_len, sizeof out, NWB_TABS));
        WANT(n < 7 ? n + 20 : 7, join_tabs(first, first_len, first_tabs, NWB_TABS, spoilt, spoil(n), sizeof out, NWB_TABS));
    }
    for (size_t n = 0; n < NWB_TABS; n += 9)
        WANT(10, join_tabs(first, first_len, first_tabs, n, second, second_len, sizeof out, NWB_TABS));
    WANT(10, join_tabs(first, first_len, second_tabs, NWB_TABS, second, second_len, sizeof out, NWB_TABS));
    first_tabs[NWB_TABS - 1]++;
    WANT(10, join_tabs(first, first_len, first_tabs, NWB_TABS, second, second_len, sizeof out, NWB_TABS));
    WANT(64, place);
    first_tabs[NWB_TABS - 1]--;
    WANT(9, join_tabs(first, first_len, first_tabs, NWB_TABS, second, second_len, BOOK_MOST - 1, NWB_TABS));
    WANT(9, join_tabs(first, first_len, first_tabs, NWB_TABS, second, second_len, BOOK_MOST, NWB_TABS - 1));
    WANT(9, join_tabs(first, first_len, first_tabs, NWB_TABS, second, second_len, 0, 0));
    put_bytes(last + 16 + 4, UINT32_MAX, 4); /* a call more than 2,000 */
    WANT(8, join_tabs(first, first_len, first_tabs, NWB_TABS, last, last_len, sizeof out, NWB_TABS));
    WANT(8, join_tabs(first, first_len, first_tabs, NWB_TABS, last, last_len, sizeof out, NWB_TABS - 1));
}

/* ---- pay ---- */

/* The first member's calls, n of them made by `call_of`: of one service, or of every one in turn where it is 0. */
static size_t month_of(uint8_t *book, int n, uint8_t service)
{
    for (int i = 0; i < n; i++)
        calls[i] = call_of(1, (uint32_t)i, service ? service : (uint8_t)(i % 10 + 1), (uint16_t)(15 * i));
    return put_book_of(n > MOST_1 ? 2 : 1, book, 1, 2026, 1, calls, (size_t)n);
}

static void score(void)
{
    /* Each member of the first book has every service, so that every kind but coal has one that is not open to it. */
    for (unsigned kind = 0; kind <= 9; kind++)
        for (uint16_t member = 0; member <= 65; member++)
            WANT(kind == 0 || kind == 9 || member == 0 || member == 65 ? 10 : kind == 1 ? 0 : 12,
                 nwb_score(member, (uint8_t)kind, 300001, first, first_len, series, QUARTERS, &place, &grains, &fen));
    for (uint32_t n = 1; n <= 6; n++)
        WANT(n, nwb_score(64, 1, 300001, spoilt, spoil(n), series, QUARTERS, &place, &grains, &fen));
    size_t len = month_of(spoilt, 10, 0);
    WANT(0, nwb_score(1, 1, 300001, spoilt, len, series, QUARTERS, &place, &grains, &fen));
    for (uint8_t service = 1; service <= 10; service++) {
        len = month_of(spoilt, FULL, service);
        int fits = service <= 4 || service == 8 || service == 10;
        WANT(fits ? 0 : 13, nwb_score(1, 1, 4000000, spoilt, len, series, QUARTERS, &place, &grains, &fen));
        WANT(service == 1 || service == 2 || service == 3 || service == 4 || service == 6 || service == 8 ? 12 : fits ? 0 : 13,
             nwb_score(1, 4, 4000000, spoilt, len, series, QUARTERS, &place, &grains, &fen));
    }
    calls[0] = (struct call){1, 1, 0, 0, 1, 0, 44640, 0, 0, 0}; /* a deep window of the whole month, and reserve beside it */
    calls[1] = (struct call){1, 2, 0, 1, 1, 0, 44640, 299999, 0, 0};
    len = put_book(spoilt, 1, 2026, 1, calls, 2);
    WANT(0, nwb_score(1, 1, 300001, spoilt, len, series, QUARTERS, &place, &grains, &fen));
    calls[1] = (struct call){1, 0, 1, 1, 1, 0, 0, 0, 0, 0};
    len = put_book(spoilt, 1, 2026, 1, calls, 2);
    WANT(14, nwb_score(1, 1, 300001, spoilt, len, series, QUARTERS, &place, &grains, &fen));
    WANT(11, nwb_score(1, 1, 300001, spoilt, len, series, QUARTERS - 1, &place, &grains, &fen));
    series[QUARTERS - 1] = 5000001;
    WANT(11, nwb_score(1, 1, 300001, spoilt, len, series, QUARTERS, &place, &grains, &fen));
    WANT(10, nwb_score(1, 1, 4000001, spoilt, len, series, QUARTERS, &place, &grains, &fen));
}

/* The longest moves at an index that does not come out even; then each fault in the last action. */
static void ramp(void)
{
    static const struct { uint8_t at; uint32_t value; } faults[] = {{0, 5000001}, {4, 5000001}, {8, 5000001}, {8, 0}, {12, 301}, {16, 1000001}, {20, 0}, {20, 999982}};
    struct action hour[ACTIONS + 1];
    for (uint32_t i = 0; i <= ACTIONS; i++)
        hour[i] = (struct action){0, 5000000 - i, 5000000, i, 999999 - i, 999983};
    put_actions(actions, hour, ACTIONS + 1);
    for (size_t n = 0; n <= ACTIONS; n++)
        for (uint32_t rated = 1; rated <= 4000000; rated = 3 * rated + 1)
            WANT(0, nwb_ramp(1, (uint8_t)(1 + n % 3), rated, actions, 24 * n, &place, &grains));
    WANT(10, nwb_ramp(1, 1, 4000000, actions, 24 * (ACTIONS + 1), &place, &grains));
    WANT(1, nwb_ramp(1, 1, 4000000, actions, 24 * ACTIONS - 1, &place, &grains));
    WANT(10, nwb_ramp(0, 1, 4000000, actions, 24 * ACTIONS, &place, &grains));
    WANT(12, nwb_ramp(1, 4, 4000000, actions, 24 * ACTIONS, &place, &grains));
    for (size_t i = 0; i < sizeof faults / sizeof *faults; i++) {
        put_actions(actions, hour, ACTIONS);
        put_bytes(actions + 24 * (ACTIONS - 1) + faults[i].at, faults[i].value, 4);
        WANT(10, nwb_ramp(1, 1, 4000000, actions, 24 * ACTIONS, &place, &grains));
    }
    WANT(307445734561826, nwb_fen(UINT64_MAX));
}

/* ---- sharing ---- */

/* 64 lines: energies that are all different, or all equal; what is shared is paid out, collected, or nothing. */
static size_t fill_lines(uint32_t step, uint64_t compensation, uint32_t assessment)
{
    struct line l[LINES + 1];
    for (uint32_t i = 0; i <= LINES; i++)
        l[i] = (struct line){(uint16_t)(i + 1), (uint8_t)(i % 3), 5000000 - step * i, compensation - i * step, assessment};
    return put_lines(lines, l, LINES + 1) - 24;
}

static void share(void)
{
    for (uint32_t step = 0; step <= 3; step++) {
        WANT(0, nwb_share(10000, lines, fill_lines(step, 1500000007, 0), out, sizeof out, &place, &gap));
        WANT(0, nwb_share(3333, lines, fill_lines(step, 1000, 9999991), out, 16 * LINES + 16, &place, &gap));
        WANT(0, nwb_share(10000, lines, fill_lines(step, 7000000, 7000000), out, sizeof out, &place, &gap));
    }
    size_t len = fill_lines(1, 1500000007, 0);
    WANT(9, nwb_share(10000, lines, len, out, 16 * LINES + 15, &place, &gap));
    WANT(10, nwb_share(10000, lines, len + 24, out, sizeof out, &place, &gap));
    WANT(1, nwb_share(10000, lines, len - 1, out, sizeof out, &place, &gap));
    for (int i = 0; i < LINES; i++)
        put_bytes(lines + 24 * i + 4, 0, 4);
    WANT(16, nwb_share(10000, lines, len, out, sizeof out, &place, &gap));
    put_bytes(lines + 24 * (LINES - 1) + 8, 100000000000, 8);
    WANT(15, nwb_share(10000, lines, len, out, sizeof out, &place, &gap));
    lines[24 * (LINES - 1) + 23] = 1;
    WANT(10, nwb_share(10000, lines, len, out, sizeof out, &place, &gap));
    WANT(10, nwb_share(10001, lines, len, out, sizeof out, &place, &gap));
    WANT(9, nwb_share(10000, NULL, 0, NULL, 0, &place, &gap));
    WANT(0, nwb_share(10000, NULL, 0, out, 16, &place, &gap));
}

int main(void)
{
    on_touched_guard(touched);
    for (int i = 0; i < QUARTERS; i++)
        series[i] = (uint32_t)(i * 97 % 300000);
    fill_books();
    books();
    two_books();
    pages();
    score();
    ramp();
    share();
    return failed;
}
