/* The archive against the reference, both in this one program and called through the same pointers.
 *
 *     bench                        checks that both give the same answers, and prints each row's times: row, ns of the archive, ns of the reference
 *     bench --table COUNTS TIMES   prints the table: instructions as bench/count-instructions prints them, times of several such runs (TIMES may be -)
 *     bench --calls SIDE ROW N     only makes N calls of one row, SIDE 0 the archive, 1 the reference; for bench/count-instructions
 *     bench --names                the names of the rows, a line each
 *     bench --inputs               how many inputs each row has, a line each
 *
 * Before anything is timed, both sides must give the same answer on every row, and where a row has several inputs on each of them. */
#define _DEFAULT_SOURCE
#include "../tests/memory-and-books.h"
#include "../tests/reference.h"
#include "nwb.h"

#include <inttypes.h>
#include <time.h>

struct side {
    uint32_t (*check)(const uint8_t *, size_t, uint64_t *);
    uint32_t (*join)(const uint8_t *, size_t, const uint8_t *, size_t, uint8_t *, size_t, uint64_t *, uint64_t *, uint64_t *);
    uint32_t (*find)(const uint8_t *, size_t, const uint8_t *, size_t, uint16_t, uint32_t, uint64_t *);
    uint32_t (*score)(uint16_t, uint8_t, uint32_t, const uint8_t *, size_t, const uint32_t *, size_t, uint64_t *, uint64_t *, uint64_t *);
    uint32_t (*share)(uint32_t, const uint8_t *, size_t, uint8_t *, size_t, uint64_t *, int64_t *);
    uint32_t (*ramp)(uint16_t, uint8_t, uint32_t, const uint8_t *, size_t, uint64_t *, uint64_t *);
    uint32_t (*tabs)(const uint8_t *, size_t, uint8_t *, size_t, uint64_t *);
    uint32_t (*join_tabs)(const uint8_t *, size_t, const uint8_t *, size_t, const uint8_t *, size_t, uint8_t *, size_t, uint8_t *, size_t, uint64_t *, uint64_t *, uint64_t *);
};
static const struct side sides[2] = {{nwb_check, nwb_join, nwb_find, nwb_score, nwb_share, nwb_ramp, nwb_tabs, nwb_join_tabs},
                                     {ref_check, ref_join, ref_find, ref_score, ref_share, ref_ramp, ref_tabs, ref_join_tabs}};

/* ---- inputs ---- */

struct book { uint8_t bytes[BOOK_MOST]; size_t len; };

/* Books of one version: a full one, its keys again revised and with a fault in the last byte, every other call and the others, all but the last call and the last, events, start-stops. */
struct shelf { struct book full, revised, bad, even, odd, most, single, events, stops; };
static struct shelf one, two; /* of version 1, 512 records; of version 2, 2,000 */
static struct book window;
static uint8_t full_tabs[NWB_TABS], even_tabs[NWB_TABS], most_tabs[NWB_TABS]; /* the pages of two.full, two.even and two.most */
static uint32_t series[2976];
static uint8_t lines[64 * 24], equal_lines[64 * 24], actions[60 * 24];

/* One input again and again lets a processor learn the way through it; of these the next call gets the next, and one in a thousand
 * comes back. Books of 64 records, so that all of them stay near the processor. */
enum { TURNS = 1024, FEW = 64, FEW_BYTES = 16 + 32 * FEW };
enum { MOST_COUNTED = 300 }; /* as many calls as bench/count-instructions makes of a row */
static uint8_t random_books[TURNS][FEW_BYTES], random_first[TURNS][FEW_BYTES], random_second[TURNS][FEW_BYTES];
static uint8_t random_lines[TURNS][64 * 24], random_equal[TURNS][64 * 24];

static uint8_t out[BOOK_MOST], page[NWB_TABS];
static uint64_t place, length, taken, grains, fen;
static int64_t gap;

/* One sound call of each service in turn; eight calls to a participant. */
static struct call mixed(uint32_t i)
{
    struct call c = {(uint16_t)(1 + i / 8), (uint8_t)(1 + i % 10), 0, i, 3, 0, 0, 0, 0, 0};
    if (c.service <= 4)
        c.start = (uint16_t)(15 * (i % 100)), c.minutes = 15;
    if (c.service == 2)
        c.a = 300000;
    if (c.service >= 6 && c.service <= 9)
        c.b = 9900;
    if (c.service == 8)
        c.start = (uint16_t)i, c.a = (int32_t)i - 200, c.c = i % 2;
    return c;
}

/* The same numbers on every run. */
static uint32_t below(uint32_t limit)
{
    static uint64_t state = 88172645463325252u;
    state ^= state << 13;
    state ^= state >> 7;
    state ^= state << 17;
    return (uint32_t)((state >> 32) % limit);
}

/* A sound call of a random service; one in eight is withdrawn or contested. */
static struct call random_call(uint16_t participant, uint32_t number)
{
    uint32_t state = below(16);
    if (state < 2)
        return (struct call){participant, 0, (uint8_t)(state + 1), number, 1 + below(9), 0, 0, 0, 0, 0};
    struct call c = mixed(below(10));
    c.participant = participant;
    c.number = number;
    c.revision = 1 + below(9);
    return c;
}

static void build_random(uint32_t turns)
{
    static struct call of_book[FEW], of_first[FEW], of_second[FEW];
    for (uint32_t t = 0; t < turns; t++) {
        uint32_t first = 0, second = 0;
        for (uint32_t i = 0; i < FEW; i++)
            of_book[i] = random_call((uint16_t)(1 + i), below(1000000));
        put_book(random_books[t], 7, 2025, 1, of_book, FEW);
        for (uint32_t key = 0; first < FEW || second < FEW; key++) { /* each key to a random one of two books: runs of any length */
            if (second == FEW || (first < FEW && below(2) == 0))
                of_first[first++] = random_call((uint16_t)(1 + key / 2), key);
            else
                of_second[second++] = random_call((uint16_t)(1 + key / 2), key);
        }
        put_book(random_first[t], 7, 2025, 1, of_first, FEW);
        put_book(random_second[t], 7, 2025, 1, of_second, FEW);

        struct line l[64];
        for (uint32_t i = 0; i < 64; i++)
            l[i] = (struct line){(uint16_t)(i + 1), (uint8_t)below(3), below(5000001), below(1000000001), below(10000001)};
        put_lines(random_lines[t], l, 64);
        uint32_t energy = 1 + below(5000000);
        for (uint32_t i = 0; i < 64; i++)
            l[i] = (struct line){(uint16_t)(i + 1), 0, energy, below(1000000001), 0};
        put_lines(random_equal[t], l, 64);
    }
}

/* Call i of a book of 2,000: 32 to a participant. */
static struct call large(uint32_t i)
{
    struct call c = mixed(i);
    c.participant = (uint16_t)(1 + i / 32);
    return c;
}

/* The same keys: equal, revised, withdrawn and contested with in turn. */
static void revise(struct call *calls, uint32_t n)
{
    for (uint32_t i = 0; i < n; i++) {
        if (i % 4 == 1)
            calls[i].revision = 4;
        if (i % 4 == 2)
            calls[i] = (struct call){calls[i].participant, 0, 2, i, 1, 0, 0, 0, 0, 0};
        if (i % 4 == 3)
            calls[i] = (struct call){calls[i].participant, 5, 0, i, 3, 0, 0, 0, 0, 0};
    }
}

static void put(struct book *b, uint32_t version, const struct call *calls, uint32_t n) { b->len = put_book_of(version, b->bytes, 7, 2025, 1, calls, n); }

/* The same book, and a fault in its last byte. */
static void put_bad(struct book *b, uint32_t version, const struct call *calls, uint32_t n)
{
    put(b, version, calls, n);
    b->bytes[b->len - 1] = 1;
}

/* Events of one member; and its start-stops, which meet, in the order of time. */
static void put_events(struct book *b, uint32_t version, struct call *calls, uint32_t n)
{
    for (uint32_t i = 0; i < n; i++)
        calls[i] = (struct call){1, 8, 0, i, 1, (uint16_t)i, 1, (int32_t)i * 1000 - 200000, 300000, i % 16 == 0};
    put(b, version, calls, n);
}

static void put_stops(struct book *b, uint32_t version, struct call *calls, uint32_t n)
{
    uint32_t minutes = 44640 / n;
    for (uint32_t i = 0; i < n; i++)
        calls[i] = (struct call){1, 3, 0, i, 1, (uint16_t)(i * minutes), (uint16_t)minutes, 0, 0, 0};
    put(b, version, calls, n);
}

/* A book's page, by the reference, so that nothing but the row's calls is made of the archive. */
static void put_tabs(uint8_t *tabs, const struct book *b)
{
    if (ref_tabs(b->bytes, b->len, tabs, NWB_TABS, &place) != 0) {
        fprintf(stderr, "bench: a book has no page\n");
        exit(1);
    }
}

/* The books of a version with n records in a full one, by the call of each number. */
static void build_shelf(struct shelf *s, uint32_t version, uint32_t n, struct call (*call)(uint32_t))
{
    static struct call calls[MOST_2];
    for (uint32_t i = 0; i < n; i++)
        calls[i] = call(i);
    put(&s->full, version, calls, n);
    put(&s->most, version, calls, n - 1);
    put(&s->single, version, calls + n - 1, 1);
    revise(calls, n);
    put(&s->revised, version, calls, n);
    put_bad(&s->bad, version, calls, n);
    for (uint32_t i = 0; i < n / 2; i++)
        calls[i] = call(2 * i);
    put(&s->even, version, calls, n / 2);
    for (uint32_t i = 0; i < n / 2; i++)
        calls[i] = call(2 * i + 1);
    put(&s->odd, version, calls, n / 2);
    put_events(&s->events, version, calls, n);
    put_stops(&s->stops, version, calls, n);
}

static void build(void)
{
    build_shelf(&one, 1, MOST_1, mixed);
    build_shelf(&two, 2, MOST_2, large);
    put_tabs(full_tabs, &two.full);
    put_tabs(even_tabs, &two.even);
    put_tabs(most_tabs, &two.most);

    struct call whole = {1, 1, 0, 1, 1, 0, 44640, 0, 0, 0};
    put(&window, 1, &whole, 1);
    for (uint32_t i = 0; i < 2976; i++) { /* a day's curve, below half of 300,001 by night and above by day */
        uint32_t quarter = i % 96, up = quarter < 48 ? quarter : 96 - quarter;
        series[i] = 90000 + 3000 * up + i * 7919 % 1000;
    }

    struct line l[64];
    for (uint32_t i = 0; i < 64; i++)
        l[i] = (struct line){(uint16_t)(i + 1), (uint8_t)(i % 3), 1000 + i * 7919u % 100000, 1000000 + i * 104729u, i * 31};
    put_lines(lines, l, 64);
    for (uint32_t i = 0; i < 64; i++) /* every remainder the same, half of them one fen up: ties to the lower numbers */
        l[i] = (struct line){(uint16_t)(i + 1), 0, 1000, i == 0 ? 6400032 : 0, 0};
    put_lines(equal_lines, l, 64);

    struct action hour[60];
    for (uint32_t i = 0; i < 60; i++) { /* up and down in turn, now beyond the command, now short of it; every sixth the wrong way */
        uint32_t start = 150000 + 97 * i, move = 9001 + 13 * i, end = i % 2 ? start - move : start + move;
        hour[i] = (struct action){start, end, i % 6 == 5 ? 2 * start - end : end + 700 - 61 * (i % 23), i * 7 % 301, 2500 + 41 * i, 3001};
    }
    put_actions(actions, hour, 60);
}

/* ---- rows ---- */

/* With room for a full book of version 1, or of version 2: so that 512 + 512 keys have to be counted beforehand, as 2,000 + 2,000 have. */
static uint32_t join(const struct side *s, const struct book *x, const struct book *y)
{
    return s->join(x->bytes, x->len, y->bytes, y->len, out, BOOK_MOST_1, &place, &length, &taken);
}
static uint32_t join_2(const struct side *s, const struct book *x, const struct book *y)
{
    return s->join(x->bytes, x->len, y->bytes, y->len, out, BOOK_MOST, &place, &length, &taken);
}

/* The same books, and the first one's page brought forward. */
static uint32_t join_tabs(const struct side *s, const struct book *x, const uint8_t *tabs, const struct book *y)
{
    return s->join_tabs(x->bytes, x->len, tabs, NWB_TABS, y->bytes, y->len, out, BOOK_MOST, page, sizeof page, &place, &length, &taken);
}

/* One key of a book that is lent twice. */
static uint32_t find(const struct side *s, const struct book *b, uint16_t participant, uint32_t number)
{
    return s->find(b->bytes, b->len, b->bytes, b->len, participant, number, &place);
}

/* The coal unit of participant 1. */
static uint32_t score(const struct side *s, const struct book *b)
{
    return s->score(1, 1, 300001, b->bytes, b->len, series, 2976, &place, &grains, &fen);
}

static uint32_t share(const struct side *s, uint32_t part, const uint8_t *l) { return s->share(part, l, 64 * 24, out, sizeof out, &place, &gap); }

static uint32_t join_equal(const struct side *s, uint32_t t) { (void)t; return join(s, &one.full, &one.revised); }
static uint32_t join_disjoint(const struct side *s, uint32_t t) { (void)t; return join(s, &one.even, &one.odd); }
static uint32_t join_one(const struct side *s, uint32_t t) { (void)t; return join(s, &one.most, &one.single); }
static uint32_t join_refused(const struct side *s, uint32_t t) { (void)t; return join(s, &one.full, &one.bad); }
static uint32_t join_random(const struct side *s, uint32_t t)
{
    return s->join(random_first[t], FEW_BYTES, random_second[t], FEW_BYTES, out, BOOK_MOST_1, &place, &length, &taken);
}
static uint32_t check_full(const struct side *s, uint32_t t) { (void)t; return s->check(one.full.bytes, one.full.len, &place); }
static uint32_t check_random(const struct side *s, uint32_t t) { return s->check(random_books[t], FEW_BYTES, &place); }
static uint32_t score_window(const struct side *s, uint32_t t) { (void)t; return score(s, &window); }
static uint32_t score_events(const struct side *s, uint32_t t) { (void)t; return score(s, &one.events); }
static uint32_t share_full(const struct side *s, uint32_t t) { (void)t; return share(s, 10000, lines); }
static uint32_t share_third(const struct side *s, uint32_t t) { (void)t; return share(s, 3333, lines); }
static uint32_t share_equal(const struct side *s, uint32_t t) { (void)t; return share(s, 10000, equal_lines); }
static uint32_t share_random(const struct side *s, uint32_t t) { return share(s, 10000, random_lines[t]); }
static uint32_t share_random_equal(const struct side *s, uint32_t t) { return share(s, 10000, random_equal[t]); }

static uint32_t ramp_full(const struct side *s, uint32_t t) { (void)t; return s->ramp(1, 1, 300001, actions, sizeof actions, &place, &grains); }

static uint32_t join_equal_2(const struct side *s, uint32_t t) { (void)t; return join_2(s, &two.full, &two.revised); }
static uint32_t join_disjoint_2(const struct side *s, uint32_t t) { (void)t; return join_2(s, &two.even, &two.odd); }
static uint32_t join_one_2(const struct side *s, uint32_t t) { (void)t; return join_2(s, &two.most, &two.single); }
static uint32_t join_refused_2(const struct side *s, uint32_t t) { (void)t; return join_2(s, &two.full, &two.bad); }
static uint32_t check_full_2(const struct side *s, uint32_t t) { (void)t; return s->check(two.full.bytes, two.full.len, &place); }
static uint32_t find_first(const struct side *s, uint32_t t) { (void)t; return find(s, &one.full, 1, 0); }
static uint32_t find_last(const struct side *s, uint32_t t) { (void)t; return find(s, &one.full, 64, 511); }
static uint32_t find_first_2(const struct side *s, uint32_t t) { (void)t; return find(s, &two.full, 1, 0); }
static uint32_t find_last_2(const struct side *s, uint32_t t) { (void)t; return find(s, &two.full, 63, 1999); }
static uint32_t score_events_2(const struct side *s, uint32_t t) { (void)t; return score(s, &two.events); }
static uint32_t score_stops(const struct side *s, uint32_t t) { (void)t; return score(s, &one.stops); }
static uint32_t score_stops_2(const struct side *s, uint32_t t) { (void)t; return score(s, &two.stops); }

static uint32_t tabs_full_2(const struct side *s, uint32_t t) { (void)t; return s->tabs(two.full.bytes, two.full.len, page, sizeof page, &place); }
static uint32_t join_tabs_equal(const struct side *s, uint32_t t) { (void)t; return join_tabs(s, &two.full, full_tabs, &two.revised); }
static uint32_t join_tabs_disjoint(const struct side *s, uint32_t t) { (void)t; return join_tabs(s, &two.even, even_tabs, &two.odd); }
static uint32_t join_tabs_one(const struct side *s, uint32_t t) { (void)t; return join_tabs(s, &two.most, most_tabs, &two.single); }

static const struct { const char *name; uint32_t (*call)(const struct side *, uint32_t turn); uint32_t no, turns; } rows[] = {
    {"join, 512 + 512 equal keys", join_equal, 0, 1},
    {"join, 256 + 256 disjoint, interleaved", join_disjoint, 0, 1},
    {"join, 511 + 1", join_one, 0, 1},
    {"join, refused at its last record", join_refused, 25, 1},
    {"join, 64 + 64 at random, 1,024 in turn", join_random, 0, TURNS},
    {"check, 512 records", check_full, 0, 1},
    {"check, 64 at random, 1,024 in turn", check_random, 0, TURNS},
    {"score, deep window of a whole month", score_window, 0, 1},
    {"score, 512 events", score_events, 0, 1},
    {"share, 64 lines", share_full, 0, 1},
    {"share, 64 lines, part 3333", share_third, 0, 1},
    {"share, 64 lines, 1,024 in turn", share_random, 0, TURNS},
    {"share, 64 lines of one energy", share_equal, 0, 1},
    {"share, one energy, 1,024 in turn", share_random_equal, 0, TURNS},
    {"ramp, 60 actions", ramp_full, 0, 1},
    {"join, 2,000 + 2,000 equal keys", join_equal_2, 0, 1},
    {"join, 1,000 + 1,000, interleaved", join_disjoint_2, 0, 1},
    {"join, 1,999 + 1", join_one_2, 0, 1},
    {"join, 2,000, refused at the last one", join_refused_2, 25, 1},
    {"check, 2,000 records", check_full_2, 0, 1},
    {"find, 512 + 512 equal keys, the first", find_first, 1, 1},
    {"find, 512 + 512 equal keys, the last", find_last, 1, 1},
    {"find, 2,000 + 2,000, the first", find_first_2, 1, 1},
    {"find, 2,000 + 2,000, the last", find_last_2, 1, 1},
    {"score, 2,000 events", score_events_2, 0, 1},
    {"score, 512 start-stops in order", score_stops, 0, 1},
    {"score, 2,000 start-stops in order", score_stops_2, 0, 1},
    {"tabs, 2,000 records", tabs_full_2, 0, 1},
    {"join with tabs, 2,000 + 2,000", join_tabs_equal, 0, 1},
    {"join with tabs, 1,000 + 1,000", join_tabs_disjoint, 0, 1},
    {"join with tabs, 1,999 + 1", join_tabs_one, 0, 1},
};
enum { ROWS = sizeof rows / sizeof *rows };

/* So many calls of one side, each on the next input of the row. */
static void calls_of(int row, int side, uint32_t calls)
{
    static uint32_t turn[ROWS][2];
    uint32_t t = turn[row][side], turns = rows[row].turns;
    for (uint32_t i = 0; i < calls; i++) {
        rows[row].call(&sides[side], t);
        t = t + 1 < turns ? t + 1 : 0;
    }
    turn[row][side] = t;
}

/* What a call leaves: all cells, and both outputs. */
static void answer_of(int row, int side, uint32_t turn, uint64_t cells[7])
{
    memset(out, 0xee, sizeof out);
    memset(page, 0xee, sizeof page);
    place = length = taken = grains = fen = 0x5555;
    gap = 0x5555;
    uint32_t no = rows[row].call(&sides[side], turn);
    uint64_t c[7] = {no, place, length, taken, grains, fen, (uint64_t)gap};
    memcpy(cells, c, sizeof c);
}

static void same_answers(void)
{
    static uint8_t first_out[BOOK_MOST], first_page[NWB_TABS];
    for (int r = 0; r < ROWS; r++)
        for (uint32_t t = 0; t < rows[r].turns; t++) {
            uint64_t cells[2][7];
            answer_of(r, 0, t, cells[0]);
            memcpy(first_out, out, sizeof out);
            memcpy(first_page, page, sizeof page);
            answer_of(r, 1, t, cells[1]);
            if (cells[0][0] != rows[r].no || memcmp(first_out, out, sizeof out) != 0 || memcmp(first_page, page, sizeof page) != 0 || memcmp(cells[0], cells[1], sizeof cells[0]) != 0) {
                fprintf(stderr, "bench: %s: the two sides do not give the same answer (input %u)\n", rows[r].name, (unsigned)t);
                exit(1);
            }
        }
}

/* ---- time ---- */

static double seconds(void)
{
    struct timespec t;
    clock_gettime(CLOCK_MONOTONIC, &t);
    return (double)t.tv_sec + 1e-9 * (double)t.tv_nsec;
}

static double batch(int row, int side, uint32_t calls)
{
    double from = seconds();
    calls_of(row, side, calls);
    return (seconds() - from) / calls;
}

static int ascending(const void *x, const void *y)
{
    double a = *(const double *)x, b = *(const double *)y;
    return (a > b) - (a < b);
}

/* Medians over many short batches (some 50 microseconds), the sides taking turns: short, so that on a machine with other work most
 * batches are not interrupted at all; in turns, so that a change of clock rate meets both. */
static void measure(int row, double median[2])
{
    enum { BATCHES = 501 };
    static double times[2][BATCHES];
    /* How many calls that is, by the best of several tries: one interruption must not leave batches of a single cold call. */
    uint32_t calls = 1;
    for (double best = 0; best < 50e-6; calls *= 2) {
        best = 1;
        for (int i = 0; i < 9; i++) {
            double all = batch(row, 1, calls) * calls;
            best = all < best ? all : best;
        }
    }
    for (int i = 0; i < BATCHES; i++)
        for (int s = 0; s < 2; s++)
            times[s ^ (i & 1)][i] = batch(row, s ^ (i & 1), calls);
    for (int s = 0; s < 2; s++) {
        qsort(times[s], BATCHES, sizeof(double), ascending);
        median[s] = times[s][BATCHES / 2];
    }
}

static void print_times(void)
{
    for (int r = 0; r < ROWS; r++) {
        double t[2];
        measure(r, t);
        printf("%d %.1f %.1f\n", r, 1e9 * t[0], 1e9 * t[1]);
        fflush(stdout);
    }
}

/* ---- the table ---- */

enum { MOST_RUNS = 16 };

static FILE *opened(const char *path)
{
    FILE *f = fopen(path, "r");
    if (!f) {
        perror(path);
        exit(1);
    }
    return f;
}

static double middle_of(double *values, int n)
{
    qsort(values, (size_t)n, sizeof *values, ascending);
    return n % 2 ? values[n / 2] : (values[n / 2 - 1] + values[n / 2]) / 2;
}

/* The middle of several runs' times, and of their ratios, with the lowest and the highest. */
static void print_row_times(double times[2][MOST_RUNS], int n)
{
    double ratios[MOST_RUNS];
    for (int i = 0; i < n; i++)
        ratios[i] = times[0][i] / times[1][i];
    double ratio = middle_of(ratios, n);
    printf(" %10.0f | %12.0f | %4.2f (%4.2f to %4.2f) |", middle_of(times[0], n), middle_of(times[1], n), ratio, ratios[0], ratios[n - 1]);
}

static void print_table(const char *counts_path, const char *times_path)
{
    static double counts[2][ROWS], times[ROWS][2][MOST_RUNS];
    static int runs[ROWS];
    int side, row;
    double a, b;
    FILE *f = opened(counts_path); /* lines of side, row, instructions for one call */
    while (fscanf(f, "%d %d %lf", &side, &row, &a) == 3)
        if (side >= 0 && side < 2 && row >= 0 && row < ROWS)
            counts[side][row] = a;
    fclose(f);
    if (strcmp(times_path, "-") != 0) { /* lines of row, ns of the archive, ns of the reference */
        f = opened(times_path);
        while (fscanf(f, "%d %lf %lf", &row, &a, &b) == 3)
            if (row >= 0 && row < ROWS && runs[row] < MOST_RUNS) {
                times[row][0][runs[row]] = a;
                times[row][1][runs[row]++] = b;
            }
        fclose(f);
    }
    printf("| %-38s | archive ns | reference ns | time ratio          | archive insns | reference insns | insn ratio |\n", "row");
    printf("|%s|-----------:|-------------:|---------------------|--------------:|----------------:|-----------:|\n", "----------------------------------------");
    for (int r = 0; r < ROWS; r++) {
        printf("| %-38s |", rows[r].name);
        if (runs[r] > 0)
            print_row_times(times[r], runs[r]);
        else
            printf(" %10s | %12s | %19s |", "-", "-", "-");
        printf(" %13.0f | %15.0f | %10.2f |\n", counts[0][r], counts[1][r], counts[0][r] / counts[1][r]);
    }
}

/* So many calls of one row and side, with no more built than they need: for counting. */
static int only_calls(int side, int row, long n)
{
    if (side < 0 || side > 1 || row < 0 || row >= ROWS || n < 0) {
        fprintf(stderr, "bench: no such side or row\n");
        return 1;
    }
    build();
    if (rows[row].turns > 1)
        build_random(MOST_COUNTED);
    calls_of(row, side, (uint32_t)n);
    return 0;
}

int main(int argc, char **argv)
{
    if (argc == 2 && strcmp(argv[1], "--names") == 0) {
        for (int r = 0; r < ROWS; r++)
            printf("%s\n", rows[r].name);
        return 0;
    }
    if (argc == 2 && strcmp(argv[1], "--inputs") == 0) {
        for (int r = 0; r < ROWS; r++)
            printf("%u\n", (unsigned)rows[r].turns);
        return 0;
    }
    if (argc == 5 && strcmp(argv[1], "--calls") == 0)
        return only_calls(atoi(argv[2]), atoi(argv[3]), atol(argv[4]));
    if (argc == 4 && strcmp(argv[1], "--table") == 0) {
        print_table(argv[2], argv[3]);
        return 0;
    }
    if (argc != 1) {
        fprintf(stderr, "usage: bench | --table COUNTS TIMES | --calls SIDE ROW N | --names | --inputs\n");
        return 1;
    }
    build();
    build_random(TURNS);
    same_answers();
    print_times();
    return 0;
}
