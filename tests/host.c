/* A host program for the archive, as a plant's tool would be: through include/nwb.h only. Every expected answer below is the
 * paper's or worked out by hand from it; nothing here computes one with code that could share a mistake with the archive.
 *
 * Every single call is made at several addresses (against a guard page behind, against one before, at an odd address), with
 * garbage in its cells and canaries around cells and buffers; see memory-and-books.h. One line per group, and a last one for all.
 *
 * With NWB_VERSIONS=1 in the environment: books of version 1 alone, and no join of more than 512 keys, so that a library from before
 * version 2 passes too. */
#define _DEFAULT_SOURCE
#include "memory-and-books.h"
#include "nwb.h"

#include <inttypes.h>

/* ---- counting ---- */

static unsigned checks, failed, group_checks, group_failed;
static int line_now;            /* of the check, for the message and for a touched guard page */
static int row = -1;            /* in the table that a check is made from, if any */
static const char *call_now;
static enum placement placed_now;
static int good;
static uint32_t versions = 2;   /* books of versions 1 to this */

static void group(const char *name)
{
    printf("host: %-58s %4u checks%s\n", name, checks - group_checks, failed != group_failed ? ", FAILED" : "");
    fflush(stdout);
    group_checks = checks;
    group_failed = failed;
    row = -1;
}

static void complain(const char *what, uint64_t got, uint64_t wanted)
{
    static const char *const at[] = {"against the guard behind", "against the guard before", "at an odd address", "aligned"};
    if (good) {
        printf("host: FAILED tests/host.c:%d", line_now);
        if (row >= 0)
            printf(" row %d", row);
        printf(": %s: %s is %" PRId64 ", not %" PRId64 " (%s)\n", call_now, what, (int64_t)got, (int64_t)wanted, at[placed_now]);
    }
    good = 0;
}

static void want(const char *what, uint64_t got, uint64_t wanted)
{
    if (got != wanted)
        complain(what, got, wanted);
}

static void touched(int sig)
{
    printf("host: FAILED tests/host.c:%d row %d: %s: signal %d, a guard page was touched or the call gave up\n", line_now, row, call_now, sig);
    fflush(stdout);
    _exit(1);
}

static void begin(int line, const char *call)
{
    line_now = line;
    call_now = call;
    good = 1;
}

static void end(void)
{
    checks++;
    failed += !good;
}

/* ---- the cells: each stands between two others that must stay ---- */

static uint64_t cells[7];
static const uint64_t garbage = 0x9e3779b97f4a7c15u;

static void soil_cells(void)
{
    for (size_t i = 0; i < 7; i++)
        cells[i] = garbage * (i + 1);
}

static void want_cells_kept(size_t used)
{
    for (size_t i = 0; i < 7; i++)
        if (i % 2 == 0 || i > 2 * used)
            want("a cell's neighbour", cells[i], garbage * (i + 1));
}

#define CELL(k) (&cells[2 * (k) + 1])

/* ---- one function each: the call at every placement, and all that must hold after it ---- */

enum { MUCH = 70000, PAGE = 640 }; /* more than any answer takes; a page of tabs */

static struct area in1, in2, in_series, in_tabs, lent, lent_tabs;

static const uint8_t *lay(struct area *a, enum placement where, const void *bytes, size_t len)
{
    return area_lend(a, where, bytes, len, 0x51);
}

static void want_input_kept(const struct area *a, const void *bytes, size_t len)
{
    want("input kept", (uint64_t)area_holds(a, bytes, len, 0x51), 1);
}

#define FOR_PLACEMENTS for (placed_now = END; placed_now <= ODD; placed_now = (enum placement)(placed_now + 1))

static void expect_check(int line, const uint8_t *book, size_t len, uint32_t no, uint64_t place)
{
    begin(line, "check");
    FOR_PLACEMENTS {
        const uint8_t *b = lay(&in1, placed_now, book, len);
        soil_cells();
        want("number", nwb_check(book ? b : NULL, len, CELL(0)), no);
        want("place", *CELL(0), place);
        want_cells_kept(1);
        want_input_kept(&in1, book, len);
    }
    end();
}

/* `bytes` is the book expected, of `len` bytes; on a refusal there is none. */
static void want_written(const uint8_t *bytes, size_t len)
{
    want("place", *CELL(0), 0);
    want("length", *CELL(1), len);
    want_cells_kept(2);
    want("bytes as promised and nothing else touched", (uint64_t)area_holds(&lent, bytes, len, 0xe7), 1);
}

static void expect_none(int line, uint8_t area, uint16_t year, uint8_t month, size_t out_len, uint32_t no)
{
    uint8_t book[16];
    put_book(book, area, year, month, NULL, 0);
    begin(line, "none");
    FOR_PLACEMENTS {
        uint8_t *out = area_lend(&lent, placed_now, NULL, out_len, 0xe7);
        soil_cells();
        want("number", nwb_none(area, year, month, out_len ? out : NULL, out_len, CELL(0), CELL(1)), no);
        want_written(book, no == 0 ? 16 : 0);
    }
    end();
}

static void expect_one(int line, uint8_t area, uint16_t year, uint8_t month, struct call c, size_t out_len, uint32_t no)
{
    uint8_t book[48];
    put_book(book, area, year, month, &c, 1);
    begin(line, "one");
    FOR_PLACEMENTS {
        uint8_t *out = area_lend(&lent, placed_now, NULL, out_len, 0xe7);
        soil_cells();
        want("number", nwb_one(area, year, month, c.participant, c.service, c.state, c.number, c.revision, c.start, c.minutes,
                               c.a, c.b, c.c, out_len ? out : NULL, out_len, CELL(0), CELL(1)), no);
        want_written(book, no == 0 ? 48 : 0);
    }
    end();
}

static void expect_join(int line, const uint8_t *first, size_t first_len, const uint8_t *second, size_t second_len, size_t out_len,
                        uint32_t no, uint64_t place, const uint8_t *joined, size_t joined_len)
{
    begin(line, "join");
    FOR_PLACEMENTS {
        const uint8_t *x = lay(&in1, placed_now, first, first_len), *y = lay(&in2, placed_now, second, second_len);
        uint8_t *out = area_lend(&lent, placed_now, NULL, out_len, 0xe7);
        soil_cells();
        want("number", nwb_join(first ? x : NULL, first_len, second ? y : NULL, second_len, out_len ? out : NULL, out_len,
                                CELL(0), CELL(1), CELL(2)), no);
        want("place", *CELL(0), place);
        want("length", *CELL(1), no == 0 ? joined_len : 0);
        want("turns", *CELL(2), no == 0 ? (joined_len - 16) / 32 : 0);
        want_cells_kept(3);
        want("bytes as promised and nothing else touched",
             (uint64_t)area_holds(&lent, joined, no == 0 ? joined_len : 0, 0xe7), 1);
        want_input_kept(&in1, first, first_len);
        want_input_kept(&in2, second, second_len);
    }
    end();
}

/* `page` is the page expected; on a refusal there is none. */
static void expect_tabs(int line, const uint8_t *book, size_t len, size_t room, uint32_t no, uint64_t place, const uint8_t *page)
{
    begin(line, "tabs");
    FOR_PLACEMENTS {
        const uint8_t *b = lay(&in1, placed_now, book, len);
        uint8_t *out = area_lend(&lent_tabs, placed_now, NULL, room, 0xe7);
        soil_cells();
        want("number", nwb_tabs(book ? b : NULL, len, room ? out : NULL, room, CELL(0)), no);
        want("place", *CELL(0), place);
        want_cells_kept(1);
        want("page as promised and nothing else touched", (uint64_t)area_holds(&lent_tabs, page, no == 0 ? PAGE : 0, 0xe7), 1);
        want_input_kept(&in1, book, len);
    }
    end();
}

static void expect_find(int line, const uint8_t *first, size_t first_len, const uint8_t *second, size_t second_len,
                        uint16_t participant, uint32_t number, uint32_t answer, uint64_t offset)
{
    begin(line, "find");
    FOR_PLACEMENTS {
        const uint8_t *x = lay(&in1, placed_now, first, first_len), *y = lay(&in2, placed_now, second, second_len);
        soil_cells();
        want("answer", nwb_find(first ? x : NULL, first_len, second ? y : NULL, second_len, participant, number, CELL(0)), answer);
        want("offset", *CELL(0), offset);
        want_cells_kept(1);
        want_input_kept(&in1, first, first_len);
        want_input_kept(&in2, second, second_len);
    }
    end();
}

static void expect_score(int line, uint16_t participant, uint8_t kind, uint32_t rated, const uint8_t *book, size_t len,
                         const uint32_t *series, size_t series_len, uint32_t no, uint64_t place, uint64_t grains, uint64_t fen)
{
    begin(line, "score");
    FOR_PLACEMENTS {
        const uint8_t *b = lay(&in1, placed_now, book, len);
        const void *s = lay(&in_series, placed_now == ODD ? ALIGNED : placed_now, series, series_len * sizeof *series);
        soil_cells();
        want("number", nwb_score(participant, kind, rated, book ? b : NULL, len, series_len ? s : NULL, series_len,
                                 CELL(0), CELL(1), CELL(2)), no);
        want("place", *CELL(0), place);
        want("grains", *CELL(1), grains);
        want("fen", *CELL(2), fen);
        want_cells_kept(3);
        want_input_kept(&in1, book, len);
        want_input_kept(&in_series, series, series_len * sizeof *series);
    }
    end();
}

/* `outcome` is share and amount of each line in turn, 2 * n numbers, and behind them stands `user` twice; on a refusal there is none. */
static void expect_part_bytes(int line, uint32_t part, const uint8_t *lines, size_t len, size_t out_len, uint32_t no, uint64_t place,
                              int64_t gap, int64_t user, const int64_t *outcome)
{
    uint8_t bytes[65 * 16];
    size_t n = len / 24, written = no == 0 ? 16 * n + 16 : 0;
    for (size_t i = 0; no == 0 && i < 2 * n; i++)
        put_bytes(bytes + 8 * i, (uint64_t)outcome[i], 8);
    for (size_t i = 0; no == 0 && i < 2; i++)
        put_bytes(bytes + 16 * n + 8 * i, (uint64_t)user, 8);
    begin(line, "share");
    FOR_PLACEMENTS {
        const uint8_t *l = lay(&in1, placed_now, lines, len);
        uint8_t *out = area_lend(&lent, placed_now, NULL, out_len, 0xe7);
        soil_cells();
        want("number", nwb_share(part, lines ? l : NULL, len, out_len ? out : NULL, out_len, CELL(0), (int64_t *)CELL(1)), no);
        want("place", *CELL(0), place);
        want("gap", *CELL(1), (uint64_t)gap);
        want_cells_kept(2);
        want("bytes as promised and nothing else touched", (uint64_t)area_holds(&lent, bytes, written, 0xe7), 1);
        want_input_kept(&in1, lines, len);
    }
    end();
}

static void expect_part(int line, uint32_t part, const struct line *lines, size_t n, size_t out_len, uint32_t no, uint64_t place, int64_t gap,
                        int64_t user, const int64_t *outcome)
{
    uint8_t bytes[70 * 24];
    expect_part_bytes(line, part, bytes, put_lines(bytes, lines, n), out_len, no, place, gap, user, outcome);
}

/* With the whole part: what the lines get is what they get without one, and the user's amount is 0. `room` is without the user's 16 bytes. */
static void expect_share_bytes(int line, const uint8_t *lines, size_t len, size_t room, uint32_t no, uint64_t place, int64_t gap, const int64_t *outcome)
{
    expect_part_bytes(line, 10000, lines, len, room + 16, no, place, gap, 0, outcome);
}

static void expect_share(int line, const struct line *lines, size_t n, size_t room, uint32_t no, uint64_t place, int64_t gap, const int64_t *outcome)
{
    expect_part(line, 10000, lines, n, room + 16, no, place, gap, 0, outcome);
}

static void expect_ramp_bytes(int line, uint16_t participant, uint8_t kind, uint32_t rated, const uint8_t *actions, size_t len,
                              uint32_t no, uint64_t place, uint64_t grains)
{
    begin(line, "ramp");
    FOR_PLACEMENTS {
        const uint8_t *a = lay(&in1, placed_now, actions, len);
        soil_cells();
        want("number", nwb_ramp(participant, kind, rated, actions ? a : NULL, len, CELL(0), CELL(1)), no);
        want("place", *CELL(0), place);
        want("grains", *CELL(1), grains);
        want_cells_kept(2);
        want_input_kept(&in1, actions, len);
    }
    end();
}

/* An hour of participant 7. */
static void expect_ramp(int line, uint8_t kind, uint32_t rated, const struct action *actions, size_t n, uint32_t no, uint64_t place, uint64_t grains)
{
    uint8_t bytes[62 * 24];
    expect_ramp_bytes(line, 7, kind, rated, bytes, put_actions(bytes, actions, n), no, place, grains);
}

static void expect_fen(int line, uint64_t grains, uint64_t fen)
{
    begin(line, "fen");
    placed_now = ALIGNED;
    want("fen", nwb_fen(grains), fen);
    end();
}

#define RAMP(...) expect_ramp(__LINE__, __VA_ARGS__)
#define FEN(...) expect_fen(__LINE__, __VA_ARGS__)
#define CHECK(...) expect_check(__LINE__, __VA_ARGS__)
#define NONE(...) expect_none(__LINE__, __VA_ARGS__)
#define ONE(...) expect_one(__LINE__, __VA_ARGS__)
#define JOIN(...) expect_join(__LINE__, __VA_ARGS__)
#define TABS(...) expect_tabs(__LINE__, __VA_ARGS__)
#define FIND(...) expect_find(__LINE__, __VA_ARGS__)
#define SCORE(...) expect_score(__LINE__, __VA_ARGS__)
#define SHARE(...) expect_share(__LINE__, __VA_ARGS__)
#define PART(...) expect_part(__LINE__, __VA_ARGS__)
#define ROWS(t) (sizeof(t) / sizeof *(t))

/* ---- short forms ---- */

static struct call live(uint16_t participant, uint32_t number, uint32_t revision, uint8_t service, uint16_t start, uint16_t minutes,
                        int32_t a, uint32_t b, uint32_t c)
{
    struct call k = {participant, service, 0, number, revision, start, minutes, a, b, c};
    return k;
}

static struct call empty(uint16_t participant, uint32_t number, uint32_t revision, uint8_t state)
{
    struct call k = {participant, 0, state, number, revision, 0, 0, 0, 0, 0};
    return k;
}

static uint32_t series[2977]; /* January has 2,976 quarter hours; one more for a length that is wrong */

static void output(uint32_t p)
{
    for (size_t i = 0; i < 2977; i++)
        series[i] = p;
}

/* The score of participant 1 in January 2025 with these calls and the series as it stands. */
static void expect_pay(int line, uint8_t kind, uint32_t rated, const struct call *calls, size_t n, uint64_t grains, uint64_t fen)
{
    static uint8_t book[BOOK_MOST];
    size_t len = put_book(book, 7, 2025, 1, calls, n);
    expect_score(line, 1, kind, rated, book, len, series, 2976, 0, 0, grains, fen);
}

static void expect_pay_1(int line, uint8_t kind, uint32_t rated, struct call c, uint64_t grains)
{
    expect_pay(line, kind, rated, &c, 1, grains, grains / 60000 + (grains % 60000 >= 30000));
}

#define PAY(...) expect_pay(__LINE__, __VA_ARGS__)
#define PAY_1(...) expect_pay_1(__LINE__, __VA_ARGS__)

/* Joins two books of one record each, with one key, both ways round and in every pair of versions. */
static void expect_rule(int line, struct call x, struct call y, struct call stands)
{
    uint8_t first[48], second[48], joined[48];
    for (uint32_t v = 1; v <= versions; v++)
        for (uint32_t w = 1; w <= versions; w++) {
            put_book_of(v, first, 7, 2025, 1, &x, 1);
            put_book_of(w, second, 7, 2025, 1, &y, 1);
            put_book_of(v == 1 && w == 1 ? 1 : 2, joined, 7, 2025, 1, &stands, 1);
            expect_join(line, first, 48, second, 48, 48, 0, 0, joined, 48);
            expect_join(line, second, 48, first, 48, 60, 0, 0, joined, 48);
        }
}

/* The same with a page beside the first book. */
static void expect_rule_tabs(int line, struct call x, struct call y, struct call stands);

#define RULE(...) (expect_rule(__LINE__, __VA_ARGS__), expect_rule_tabs(__LINE__, __VA_ARGS__))

/* ---- the paper's worked sums ---- */

static void worked_sums(void)
{
    output(0);
    series[0] = 150000;
    struct call deep = live(1, 1, 1, 1, 0, 15, 0, 0, 0);
    PAY(1, 300001, &deep, 1, 225000, 4);

    struct call reserve = live(1, 1, 1, 2, 0, 15, 300000, 0, 0);
    series[0] = 209999;
    PAY_1(1, 300000, reserve, 4725052500);
    series[0] = 210000;
    PAY_1(1, 300000, reserve, 945000000); /* request 1 */
    series[0] = 210001;
    PAY_1(1, 300000, reserve, 944989500);

    PAY_1(1, 300000, live(1, 1, 1, 3, 0, 4320, 0, 0, 0), 3600000000000);
    PAY_1(1, 300000, live(1, 1, 1, 3, 0, 4321, 0, 0, 0), 0);
    PAY_1(3, 3000000, live(1, 1, 1, 5, 0, 0, 0, 0, 0), 1800000000000);
    PAY_1(3, 3000001, live(1, 1, 1, 5, 0, 0, 0, 0, 0), 1800000000000);

    PAY_1(4, 100000, live(1, 1, 1, 8, 0, 0, 0, 7999, 0), 0);
    PAY_1(4, 100000, live(1, 1, 1, 8, 0, 0, 0, 8000, 0), 300000000000);
    PAY_1(4, 100000, live(1, 1, 1, 8, 0, 0, 0, 8999, 0), 539760000000);
    PAY_1(4, 100000, live(1, 1, 1, 8, 0, 0, 0, 9000, 0), 540000000000);

    struct call events[] = {live(1, 1, 1, 8, 0, 0, -500, 400, 0), live(1, 2, 1, 8, 0, 0, 300, 400, 0)};
    PAY(1, 100000, events, 2, 0, 0);
    PAY_1(1, 100000, live(1, 1, 1, 8, 0, 0, 500, 400, 0), 48000000);

    RULE(empty(1, 1, 2, 2), live(1, 1, 7, 5, 0, 0, 0, 0, 0), empty(1, 1, 2, 2));
    struct call x = live(1, 1, 3, 5, 0, 0, 0, 0, 0), y = live(1, 1, 3, 10, 9, 0, 0, 0, 0), z = live(1, 1, 4, 4, 0, 60, 0, 0, 0);
    RULE(x, y, empty(1, 1, 3, 1));
    RULE(empty(1, 1, 3, 1), z, z); /* those two and a live at 4, grouped one way */
    RULE(x, z, z);                 /* and the others */
    RULE(y, z, z);

    /* AVC pays a grain at a time: one hundredth of a percent, one kW, one minute. */
    PAY(1, 29999, (struct call[]){live(1, 1, 1, 9, 0, 1, 0, 9901, 9800)}, 1, 29999, 0);
    PAY(1, 30000, (struct call[]){live(1, 1, 1, 9, 0, 1, 0, 9901, 9800)}, 1, 30000, 1);

    const struct line three[] = {{1, 0, 7, 100, 0}, {2, 0, 7, 0, 0}, {3, 0, 7, 0, 0}};
    SHARE(three, 3, 48, 0, 0, -100, (int64_t[]){-34, 66, -33, -33, -33, -33});
    const struct line statement[] = {{1, 0, 100, 300000, 0}, {2, 0, 200, 0, 1000}, {3, 2, 50, 0, 0}};
    SHARE(statement, 3, 48, 0, 0, -200000, (int64_t[]){-55556, 244444, -111111, -211111, -33333, -33333});
    group("the paper's worked sums");
}

/* ---- pay: every service, every kind, the edges of every band ---- */

static void pay_by_service(void)
{
    /* 1: 10P < 5N, an odd N not halved first; the window and nothing else; the last quarter hour of the month. */
    output(0);
    PAY_1(1, 1, live(1, 1, 1, 1, 0, 15, 0, 0, 0), 5 * 45000);
    PAY_1(1, 3, live(1, 1, 1, 1, 44625, 15, 0, 0, 0), 15 * 45000);
    PAY_1(1, 4000000, live(1, 1, 1, 1, 0, 44640, 0, 0, 0), 20000000ull * 45000 * 2976);
    series[3] = 1;
    PAY_1(1, 3, live(1, 1, 1, 1, 45, 15, 0, 0, 0), 5 * 45000);
    PAY_1(1, 2, live(1, 1, 1, 1, 45, 15, 0, 0, 0), 0); /* 10P = 5N exactly */
    PAY_1(1, 2, live(1, 1, 1, 1, 30, 45, 0, 0, 0), 2 * 10 * 45000);
    output(5000000);
    PAY_1(1, 4000000, live(1, 1, 1, 1, 0, 44640, 0, 0, 0), 0);

    /* 2, coal: above half, below a; 7N odd against tens, so that no P lies at exactly 70%. */
    output(0);
    series[1] = 150000;
    PAY_1(1, 300000, live(1, 1, 1, 2, 15, 15, 300000, 0, 0), 0); /* 5N = 10P */
    series[1] = 150001;
    PAY_1(1, 300000, live(1, 1, 1, 2, 15, 15, 300000, 0, 0), (3000000ull - 1500010) * 15 * 350);
    PAY_1(1, 300000, live(1, 1, 1, 2, 15, 15, 150001, 0, 0), 0); /* P = a */
    PAY_1(1, 300000, live(1, 1, 1, 2, 15, 15, 150002, 0, 0), 10 * 15 * 350);
    series[1] = 210000;
    PAY_1(1, 300001, live(1, 1, 1, 2, 15, 15, 300001, 0, 0), (3000010ull - 2100000) * 15 * 350);
    series[1] = 210001;
    PAY_1(1, 300001, live(1, 1, 1, 2, 15, 15, 300001, 0, 0), (3000010ull - 2100010) * 15 * 70);
    PAY_1(1, 300000, live(1, 1, 1, 2, 0, 15, 300000, 0, 0), 0); /* P = 0 is below half */
    PAY_1(1, 1, live(1, 1, 1, 2, 0, 15, 1, 0, 0), 0);
    /* 2, coal at exactly 70% (request 1): the upper band, still below a. */
    series[1] = 210000;
    PAY_1(1, 300000, live(1, 1, 1, 2, 15, 15, 210000, 0, 0), 0);
    PAY_1(1, 300000, live(1, 1, 1, 2, 15, 15, 210001, 0, 0), 10 * 15 * 70);
    series[1] = 7;
    PAY_1(1, 10, live(1, 1, 1, 2, 15, 15, 10, 0, 0), 30 * 15 * 70);
    series[1] = 210001;
    /* 2, gas and hydro: 10P < 7N. */
    PAY_1(2, 300000, live(1, 1, 1, 2, 0, 15, 0, 0, 0), 2100000ull * 150);
    PAY_1(3, 300001, live(1, 1, 1, 2, 0, 30, 0, 0, 0), 2100007ull * 150); /* 210,001 in the second quarter hour pays nothing */
    PAY_1(3, 300002, live(1, 1, 1, 2, 15, 15, 0, 0, 0), 4 * 150);
    series[1] = 210000;
    PAY_1(2, 300000, live(1, 1, 1, 2, 15, 15, 0, 0, 0), 0);
    PAY_1(2, 300001, live(1, 1, 1, 2, 15, 15, 0, 0, 0), 7 * 150);

    /* 3 */
    output(0);
    PAY_1(1, 3, live(1, 1, 1, 3, 7, 1, 0, 0, 0), 3 * 12000000);
    PAY_1(2, 3, live(1, 1, 1, 3, 7, 4321, 0, 0, 0), 3 * 6000000);
    PAY_1(3, 3, live(1, 1, 1, 3, 7, 44633, 0, 0, 0), 3 * 120000);

    /* 4: whole days, at most 7 */
    static const uint16_t standby[][2] = {{1, 0}, {1439, 0}, {1440, 1}, {2879, 1}, {2880, 2}, {10079, 6}, {10080, 7}, {11520, 7}, {44640, 7}};
    for (size_t i = 0; i < ROWS(standby); i++) {
        row = (int)i;
        PAY_1(1, 11, live(1, 1, 1, 4, 0, standby[i][0], 0, 0, 0), 11ull * 600000 * standby[i][1]);
    }

    /* 5: per kind, and the ceiling */
    for (uint8_t kind = 1; kind <= 8; kind++) {
        row = kind;
        uint64_t per_kw = kind == 3 || kind == 7 ? 600000 : 1200000;
        PAY_1(kind, 1, live(1, 1, 1, 5, 0, 0, 0, 0, 0), per_kw);
        PAY_1(kind, 1499999, live(1, 1, 1, 5, 0, 0, 0, 0, 0), 1499999 * per_kw);
        PAY_1(kind, 4000000, live(1, 1, 1, 5, 0, 0, 0, 0, 0), 1800000000000);
    }
    PAY_1(1, 1500001, live(1, 1, 1, 5, 0, 0, 0, 0, 0), 1800000000000);
    PAY_1(7, 2999999, live(1, 1, 1, 5, 0, 0, 0, 0, 0), 1799999400000);

    /* 6: hundredths of a percent above 98 (request 4); 7: straight, or whole percent above 90 */
    static const uint32_t rate6[][2] = {{0, 0}, {9799, 0}, {9800, 0}, {9801, 1}, {9899, 99}, {9900, 100}, {9999, 199}, {10000, 200}};
    static const uint32_t rate7[][2] = {{0, 0}, {8999, 0}, {9000, 0}, {9099, 0}, {9100, 1}, {9199, 1}, {9999, 9}, {10000, 10}};
    for (uint8_t kind = 1; kind <= 8; kind++)
        for (size_t i = 0; i < ROWS(rate6); i++) {
            row = kind * 10 + (int)i;
            if (kind != 4 && kind != 5)
                PAY_1(kind, 7, live(1, 1, 1, 6, 0, 0, 0, rate6[i][0], 0), 7ull * 6000 * rate6[i][1]);
            uint64_t straight = (kind == 3 || kind == 7 ? 30 : 180) * rate7[i][0];
            PAY_1(kind, 7, live(1, 1, 1, 7, 0, 0, 0, rate7[i][0], 0), 7 * (kind == 4 || kind == 5 ? 120000ull * rate7[i][1] : straight));
        }
    row = -1;
    PAY(1, 10000, (struct call[]){live(1, 1, 1, 6, 0, 0, 0, 9801, 0)}, 1, 60000000, 1000);
    PAY(1, 10000, (struct call[]){live(1, 1, 1, 6, 0, 0, 0, 9899, 0)}, 1, 5940000000, 99000);
    PAY(1, 10000, (struct call[]){live(1, 1, 1, 6, 0, 0, 0, 9900, 0)}, 1, 6000000000, 100000);
    PAY(4, 10000, (struct call[]){live(1, 1, 1, 7, 0, 0, 0, 9199, 0)}, 1, 1200000000, 20000);

    /* 8, wind and photovoltaic */
    for (uint8_t kind = 4; kind <= 5; kind++) {
        row = kind;
        PAY_1(kind, 3, live(1, 1, 1, 8, 5, 9, 0, 0, 0), 0);
        PAY_1(kind, 3, live(1, 1, 1, 8, 5, 9, 0, 8001, 0), 3 * 3002400);
        PAY_1(kind, 3, live(1, 1, 1, 8, 5, 9, 0, 10000, 0), 3 * 5400000);
        PAY_1(kind, 3, live(1, 1, 1, 8, 5, 9, 0, 10000, 1), 0);
        PAY(kind, 3, (struct call[]){live(1, 1, 1, 8, 5, 9, 0, 8000, 0), live(1, 2, 1, 8, 5, 9, 0, 9000, 0)}, 2, 3 * 8400000, 420);
    }
    /* 8, the others: the smaller of a and b; c = 1 counts 0 whatever the sign; the sum alone is clamped */
    for (uint8_t kind = 1; kind <= 8; kind++) {
        if (kind == 4 || kind == 5)
            continue;
        row = kind;
        PAY_1(kind, 3, live(1, 1, 1, 8, 0, 0, 300, 400, 0), 300 * 120000);
        PAY_1(kind, 3, live(1, 1, 1, 8, 0, 0, 500, 400, 1), 0);
        PAY_1(kind, 3, live(1, 1, 1, 8, 0, 0, -1, 1000000000, 0), 0);
        PAY_1(kind, 3, live(1, 1, 1, 8, 0, 0, 1000000000, 1000000000, 0), 120000000000000);
    }
    row = -1;
    PAY(1, 3, (struct call[]){live(1, 1, 1, 8, 0, 0, -500, 400, 1), live(1, 2, 1, 8, 0, 0, 300, 400, 0)}, 2, 36000000, 600);
    PAY(1, 3, (struct call[]){live(1, 1, 1, 8, 0, 0, -299, 0, 0), live(1, 2, 1, 8, 0, 0, 300, 400, 0)}, 2, 120000, 2);
    PAY(1, 3, (struct call[]){live(1, 1, 1, 8, 0, 0, -1000000000, 0, 0), live(1, 2, 1, 10, 0, 0, 0, 0, 0)}, 2, 7200000, 120);
    PAY(1, 3, (struct call[]){live(1, 1, 1, 8, 0, 0, -10, 0, 0), live(1, 2, 1, 10, 0, 0, 0, 0, 0)}, 2, 7200000, 120);
    PAY(1, 3, (struct call[]){live(1, 1, 1, 8, 0, 0, 0, 0, 0), live(1, 2, 1, 8, 0, 0, 7, 0, 0)}, 2, 0, 0);

    /* 9 */
    PAY_1(6, 3, live(1, 1, 1, 9, 0, 100, 0, 9899, 10000), 0);
    PAY_1(6, 3, live(1, 1, 1, 9, 0, 100, 0, 9900, 10000), 0);
    PAY_1(6, 3, live(1, 1, 1, 9, 0, 100, 0, 10000, 9799), 0);
    PAY_1(6, 3, live(1, 1, 1, 9, 0, 100, 0, 10000, 9800), 30000);
    PAY_1(6, 4000000, live(1, 1, 1, 9, 0, 44640, 0, 10000, 10000), 17856000000000);
    /* 10, as often as it comes */
    PAY_1(8, 3, live(1, 1, 1, 10, 44640, 0, 0, 0, 0), 7200000);
    PAY(8, 3, (struct call[]){live(1, 1, 1, 10, 5, 0, 0, 0, 0), live(1, 2, 1, 10, 5, 0, 0, 0, 0)}, 2, 14400000, 240);
    group("pay by service, kind and band");
}

/* ---- black start on both sides of January 2027 (request 9) ---- */

static void closing_month(void)
{
    static const struct { uint16_t year; uint8_t month; uint16_t quarters; int open; } months[] = {
        {2024, 1, 2976, 1}, {2024, 2, 2784, 1}, {2026, 1, 2976, 1}, {2026, 11, 2880, 1}, {2026, 12, 2976, 1},
        {2027, 1, 2976, 0}, {2027, 2, 2688, 0}, {2027, 12, 2976, 0}, {2028, 1, 2976, 0}, {2099, 12, 2976, 0}};
    static uint8_t book[BOOK_MOST], other[BOOK_MOST], joined[BOOK_MOST];
    const struct call start = live(1, 1, 1, 5, 0, 0, 0, 0, 0), again = live(1, 2, 1, 5, 0, 0, 0, 0, 0), trip = live(1, 0, 1, 10, 9, 0, 0, 0, 0);
    output(0);
    for (size_t i = 0; i < ROWS(months); i++) {
        uint16_t year = months[i].year;
        uint8_t month = months[i].month;
        size_t quarters = months[i].quarters;
        int open = months[i].open;
        for (uint8_t kind = 1; kind <= 8; kind++) {
            row = (int)i * 10 + kind;
            SCORE(1, kind, 3000000, book, put_book(book, 7, year, month, &start, 1), series, quarters,
                  open ? 0 : 12, 0, open ? 1800000000000 : 0, open ? 30000000 : 0);
            SCORE(1, kind, 3000000, book, put_book(book, 7, year, month, (struct call[]){start, again}, 2), series, quarters,
                  open ? 13 : 12, open, 0, 0);
            SCORE(1, kind, 3000000, book, put_book(book, 7, year, month, (struct call[]){trip, start}, 2), series, quarters,
                  open ? 0 : 12, open ? 0 : 1, open ? 9000000000000 : 0, open ? 150000000 : 0);
        }
        /* withdrawn, contested, another's: as ever */
        row = (int)i * 10;
        SCORE(1, 3, 3000000, book, put_book(book, 7, year, month, (struct call[]){empty(1, 1, 2, 2)}, 1), series, quarters, 0, 0, 0, 0);
        SCORE(1, 3, 3000000, book, put_book(book, 7, year, month, (struct call[]){empty(1, 1, 2, 1)}, 1), series, quarters, 14, 0, 0, 0);
        SCORE(2, 3, 3000000, book, put_book(book, 7, year, month, &start, 1), series, quarters, 0, 0, 0, 0);
        /* read, written, joined and looked up in any month */
        ONE(7, year, month, start, 48, 0);
        size_t len = put_book(book, 7, year, month, &start, 1), other_len = put_book(other, 7, year, month, &again, 1);
        CHECK(book, len, 0, 0);
        size_t joined_len = put_book(joined, 7, year, month, (struct call[]){start, again}, 2);
        JOIN(book, len, other, other_len, 80, 0, 0, joined, joined_len);
        FIND(book, len, other, other_len, 1, 2, 2, 16);
    }
    row = -1;
    group("black start on both sides of January 2027");
}

static void fen_once(void)
{
    static const uint64_t rows[][2] = {{29999, 0}, {30000, 1}, {59999, 1}, {60000, 1}, {89999, 1}, {90000, 2}, {90001, 2}};
    for (size_t i = 0; i < ROWS(rows); i++) {
        row = (int)i;
        PAY(1, (uint32_t)rows[i][0], (struct call[]){live(1, 1, 1, 9, 0, 1, 0, 9901, 9800)}, 1, rows[i][0], rows[i][1]);
    }
    row = -1;
    /* Two services of 21,000 grains each, 0 fen one by one, are one fen together; two of 31,500, one each, are one. */
    output(0);
    PAY(2, 1, (struct call[]){live(1, 1, 1, 2, 0, 300, 0, 0, 0), live(1, 2, 1, 9, 0, 210, 0, 10000, 10000)}, 2, 42000, 1);
    PAY(2, 1, (struct call[]){live(1, 1, 1, 2, 0, 450, 0, 0, 0), live(1, 2, 1, 9, 0, 315, 0, 10000, 10000)}, 2, 63000, 1);
    PAY(2, 1, (struct call[]){live(1, 1, 1, 2, 0, 300, 0, 0, 0), live(1, 2, 1, 2, 300, 300, 0, 0, 0)}, 2, 42000, 1);
    PAY(2, 1, NULL, 0, 0, 0);
    group("fen from the month's grains, once");
}

/* ---- the book ---- */

static const uint16_t ends[12] = {44640, 40320, 44640, 43200, 44640, 43200, 44640, 44640, 43200, 44640, 43200, 44640};

/* A record by itself, by writing it, and in a book as its first and as its second record. */
static void expect_record(int line, uint8_t month, struct call c, uint32_t no)
{
    uint8_t book[80];
    expect_one(line, 7, 2025, month, c, 48, no);
    expect_check(line, book, put_book(book, 7, 2025, month, &c, 1), no, 0);
    struct call two[] = {empty(1, 0, 1, 1), c};
    expect_check(line, book, put_book(book, 7, 2025, month, two, 2), no, no == 0 ? 0 : 1);
}

static void records(void)
{
    static const struct { struct call c; uint32_t no; } rows[] = {
        /* participant, state, number, revision: in all three states */
        {{1, 5, 0, 1, 1, 0, 0, 0, 0, 0}, 0}, {{64, 5, 0, 1, 1, 0, 0, 0, 0, 0}, 0}, {{0, 5, 0, 1, 1, 0, 0, 0, 0, 0}, 5},
        {{65, 5, 0, 1, 1, 0, 0, 0, 0, 0}, 5}, {{257, 5, 0, 1, 1, 0, 0, 0, 0, 0}, 5}, {{65535, 5, 0, 1, 1, 0, 0, 0, 0, 0}, 5},
        {{1, 5, 0, 0xffffffff, 0xffffffff, 0, 0, 0, 0, 0}, 0}, {{1, 5, 0, 1, 0, 0, 0, 0, 0, 0}, 5},
        {{1, 0, 1, 1, 1, 0, 0, 0, 0, 0}, 0}, {{1, 0, 2, 1, 1, 0, 0, 0, 0, 0}, 0}, {{1, 0, 3, 1, 1, 0, 0, 0, 0, 0}, 5},
        {{1, 5, 3, 1, 1, 0, 0, 0, 0, 0}, 5}, {{1, 0, 255, 1, 1, 0, 0, 0, 0, 0}, 5}, {{65, 0, 1, 1, 1, 0, 0, 0, 0, 0}, 5},
        {{0, 0, 2, 1, 1, 0, 0, 0, 0, 0}, 5}, {{1, 0, 1, 1, 0, 0, 0, 0, 0, 0}, 5}, {{1, 0, 2, 1, 0, 0, 0, 0, 0, 0}, 5},
        /* contested and withdrawn records carry nothing */
        {{1, 1, 1, 1, 1, 0, 0, 0, 0, 0}, 5}, {{1, 0, 1, 1, 1, 15, 0, 0, 0, 0}, 5}, {{1, 0, 1, 1, 1, 0, 15, 0, 0, 0}, 5},
        {{1, 0, 1, 1, 1, 0, 0, 1, 0, 0}, 5}, {{1, 0, 1, 1, 1, 0, 0, 0, 1, 0}, 5}, {{1, 0, 1, 1, 1, 0, 0, 0, 0, 1}, 5},
        {{1, 5, 2, 1, 1, 0, 0, 0, 0, 0}, 5}, {{1, 0, 2, 1, 1, 15, 0, 0, 0, 0}, 5}, {{1, 0, 2, 1, 1, 0, 15, 0, 0, 0}, 5},
        {{1, 0, 2, 1, 1, 0, 0, -1, 0, 0}, 5}, {{1, 0, 2, 1, 1, 0, 0, 0, 0x1000000, 0}, 5}, {{1, 0, 2, 1, 1, 0, 0, 0, 0, 0x80000000}, 5},
        /* no such service */
        {{1, 0, 0, 1, 1, 0, 0, 0, 0, 0}, 5}, {{1, 11, 0, 1, 1, 0, 0, 0, 0, 0}, 5}, {{1, 255, 0, 1, 1, 0, 0, 0, 0, 0}, 5},
        /* 1: multiples of 15, at least 15, a, b and c 0; up to the last minute and not past it, without wrapping */
        {{1, 1, 0, 1, 1, 0, 15, 0, 0, 0}, 0}, {{1, 1, 0, 1, 1, 0, 0, 0, 0, 0}, 5}, {{1, 1, 0, 1, 1, 0, 14, 0, 0, 0}, 5},
        {{1, 1, 0, 1, 1, 0, 16, 0, 0, 0}, 5}, {{1, 1, 0, 1, 1, 14, 15, 0, 0, 0}, 5}, {{1, 1, 0, 1, 1, 44625, 15, 0, 0, 0}, 0},
        {{1, 1, 0, 1, 1, 44625, 30, 0, 0, 0}, 5}, {{1, 1, 0, 1, 1, 44640, 15, 0, 0, 0}, 5}, {{1, 1, 0, 1, 1, 0, 44640, 0, 0, 0}, 0},
        {{1, 1, 0, 1, 1, 0, 44655, 0, 0, 0}, 5}, {{1, 1, 0, 1, 1, 65520, 30, 0, 0, 0}, 5}, {{1, 1, 0, 1, 1, 65520, 65520, 0, 0, 0}, 5},
        {{1, 1, 0, 1, 1, 0, 15, 1, 0, 0}, 5}, {{1, 1, 0, 1, 1, 0, 15, 0, 1, 0}, 5}, {{1, 1, 0, 1, 1, 0, 15, 0, 0, 1}, 5},
        /* 2: the same, and a */
        {{1, 2, 0, 1, 1, 15, 15, 0, 0, 0}, 0}, {{1, 2, 0, 1, 1, 15, 15, 4000000, 0, 0}, 0}, {{1, 2, 0, 1, 1, 15, 15, 4000001, 0, 0}, 5},
        {{1, 2, 0, 1, 1, 15, 15, -1, 0, 0}, 5}, {{1, 2, 0, 1, 1, 15, 15, INT32_MIN, 0, 0}, 5}, {{1, 2, 0, 1, 1, 15, 0, 0, 0, 0}, 5},
        {{1, 2, 0, 1, 1, 1, 15, 0, 0, 0}, 5}, {{1, 2, 0, 1, 1, 15, 29, 0, 0, 0}, 5}, {{1, 2, 0, 1, 1, 44625, 30, 0, 0, 0}, 5},
        {{1, 2, 0, 1, 1, 15, 15, 0, 1, 0}, 5}, {{1, 2, 0, 1, 1, 15, 15, 0, 0, 1}, 5},
        /* 3, 4: length at least 1, start free */
        {{1, 3, 0, 1, 1, 44639, 1, 0, 0, 0}, 0}, {{1, 3, 0, 1, 1, 7, 0, 0, 0, 0}, 5}, {{1, 3, 0, 1, 1, 44639, 2, 0, 0, 0}, 5},
        {{1, 3, 0, 1, 1, 44640, 1, 0, 0, 0}, 5}, {{1, 3, 0, 1, 1, 7, 1, 1, 0, 0}, 5}, {{1, 3, 0, 1, 1, 7, 1, 0, 1, 0}, 5},
        {{1, 3, 0, 1, 1, 7, 1, 0, 0, 1}, 5}, {{1, 4, 0, 1, 1, 0, 44640, 0, 0, 0}, 0}, {{1, 4, 0, 1, 1, 0, 44641, 0, 0, 0}, 5},
        {{1, 4, 0, 1, 1, 0, 0, 0, 0, 0}, 5}, {{1, 4, 0, 1, 1, 65535, 65535, 0, 0, 0}, 5}, {{1, 4, 0, 1, 1, 0, 1, 1, 0, 0}, 5},
        {{1, 4, 0, 1, 1, 0, 1, 0, 1, 0}, 5}, {{1, 4, 0, 1, 1, 0, 1, 0, 0, 1}, 5},
        /* 5, 6, 7: no time; a rate for 6 and 7 */
        {{1, 5, 0, 1, 1, 1, 0, 0, 0, 0}, 5}, {{1, 5, 0, 1, 1, 0, 1, 0, 0, 0}, 5}, {{1, 5, 0, 1, 1, 0, 0, 1, 0, 0}, 5},
        {{1, 5, 0, 1, 1, 0, 0, 0, 1, 0}, 5}, {{1, 5, 0, 1, 1, 0, 0, 0, 0, 1}, 5},
        {{1, 6, 0, 1, 1, 0, 0, 0, 0, 0}, 0}, {{1, 6, 0, 1, 1, 0, 0, 0, 10000, 0}, 0}, {{1, 6, 0, 1, 1, 0, 0, 0, 10001, 0}, 5},
        {{1, 6, 0, 1, 1, 1, 0, 0, 0, 0}, 5}, {{1, 6, 0, 1, 1, 0, 1, 0, 0, 0}, 5}, {{1, 6, 0, 1, 1, 0, 0, 1, 0, 0}, 5}, {{1, 6, 0, 1, 1, 0, 0, 0, 0, 1}, 5},
        {{1, 7, 0, 1, 1, 0, 0, 0, 10000, 0}, 0}, {{1, 7, 0, 1, 1, 0, 0, 0, 10001, 0}, 5}, {{1, 7, 0, 1, 1, 0, 0, 0, 0xffffffff, 0}, 5},
        {{1, 7, 0, 1, 1, 1, 0, 0, 0, 0}, 5}, {{1, 7, 0, 1, 1, 0, 1, 0, 0, 0}, 5}, {{1, 7, 0, 1, 1, 0, 0, 1, 0, 0}, 5}, {{1, 7, 0, 1, 1, 0, 0, 0, 0, 1}, 5},
        /* 8: any time within the month, its last minute included */
        {{1, 8, 0, 1, 1, 44640, 0, 0, 0, 0}, 0}, {{1, 8, 0, 1, 1, 44641, 0, 0, 0, 0}, 5}, {{1, 8, 0, 1, 1, 44640, 1, 0, 0, 0}, 5},
        {{1, 8, 0, 1, 1, 7, 44633, 0, 0, 0}, 0}, {{1, 8, 0, 1, 1, 7, 44634, 0, 0, 0}, 5}, {{1, 8, 0, 1, 1, 65535, 1, 0, 0, 0}, 5},
        {{1, 8, 0, 1, 1, 0, 0, 1000000000, 0, 0}, 0}, {{1, 8, 0, 1, 1, 0, 0, -1000000000, 0, 0}, 0}, {{1, 8, 0, 1, 1, 0, 0, 1000000001, 0, 0}, 5},
        {{1, 8, 0, 1, 1, 0, 0, -1000000001, 0, 0}, 5}, {{1, 8, 0, 1, 1, 0, 0, INT32_MIN, 0, 0}, 5}, {{1, 8, 0, 1, 1, 0, 0, INT32_MAX, 0, 0}, 5},
        {{1, 8, 0, 1, 1, 0, 0, 0, 1000000000, 0}, 0}, {{1, 8, 0, 1, 1, 0, 0, 0, 1000000001, 0}, 5}, {{1, 8, 0, 1, 1, 0, 0, 0, 0xffffffff, 0}, 5},
        {{1, 8, 0, 1, 1, 0, 0, 0, 0, 1}, 0}, {{1, 8, 0, 1, 1, 0, 0, 0, 0, 2}, 5},
        /* 9: minutes in use from 0 */
        {{1, 9, 0, 1, 1, 0, 0, 0, 0, 0}, 0}, {{1, 9, 0, 1, 1, 0, 44640, 0, 10000, 10000}, 0}, {{1, 9, 0, 1, 1, 0, 44641, 0, 0, 0}, 5},
        {{1, 9, 0, 1, 1, 1, 1, 0, 0, 0}, 5}, {{1, 9, 0, 1, 1, 0, 1, 1, 0, 0}, 5}, {{1, 9, 0, 1, 1, 0, 1, 0, 10001, 0}, 5}, {{1, 9, 0, 1, 1, 0, 1, 0, 0, 10001}, 5},
        /* 10: length 0 */
        {{1, 10, 0, 1, 1, 44640, 0, 0, 0, 0}, 0}, {{1, 10, 0, 1, 1, 44641, 0, 0, 0, 0}, 5}, {{1, 10, 0, 1, 1, 0, 1, 0, 0, 0}, 5},
        {{1, 10, 0, 1, 1, 0, 0, 1, 0, 0}, 5}, {{1, 10, 0, 1, 1, 0, 0, 0, 1, 0}, 5}, {{1, 10, 0, 1, 1, 0, 0, 0, 0, 1}, 5},
    };
    for (size_t i = 0; i < ROWS(rows); i++) {
        row = (int)i;
        expect_record(__LINE__, 1, rows[i].c, rows[i].no);
    }
    /* Each of the four last bytes, in each state. */
    for (uint8_t state = 0; state <= 2; state++)
        for (size_t at = 28; at < 32; at++) {
            struct call c = state == 0 ? live(1, 1, 1, 5, 0, 0, 0, 0, 0) : empty(1, 1, 1, state);
            uint8_t book[48];
            put_book(book, 7, 2025, 1, &c, 1);
            book[16 + at] = 0x80;
            row = state * 100 + (int)at;
            CHECK(book, 48, 5, 0);
        }
    group("a record's fields at their edges: 5");
}

static void headers(void)
{
    uint8_t book[17];
    static const struct { uint8_t area; uint16_t year; uint8_t month; uint32_t no; } rows[] = {
        {1, 2024, 1, 0}, {99, 2099, 12, 0}, {0, 2024, 1, 4}, {100, 2024, 1, 4}, {255, 2024, 1, 4}, {1, 2023, 1, 4}, {1, 2100, 1, 4},
        {1, 0, 1, 4}, {1, 65535, 1, 4}, {1, 2024 + 256, 1, 4}, {1, 2024, 0, 4}, {1, 2024, 13, 4}, {1, 2024, 255, 4}};
    for (size_t i = 0; i < ROWS(rows); i++) {
        row = (int)i;
        put_book(book, rows[i].area, rows[i].year, rows[i].month, NULL, 0);
        CHECK(book, 16, rows[i].no, 0);
        NONE(rows[i].area, rows[i].year, rows[i].month, 16, rows[i].no);
        ONE(rows[i].area, rows[i].year, rows[i].month, empty(1, 1, 1, 1), 48, rows[i].no);
    }
    /* Every bit of the header wrong alone. Area, year and month may still be sound then; a count is not as the length says, or above
     * its version's limit. A book of none whose count has bit 9 says 512, and is too short; those from bit 10 on are above 512, those
     * from bit 11 on above 2,000. No bit makes one version of the other. */
    for (uint32_t v = 1; v <= versions; v++)
        for (size_t bit = 0; bit < 128; bit++) {
            size_t byte = bit / 8, above = 80 + (v == 1 ? 10 : 11);
            put_book_of(v, book, 7, 2025, 1, NULL, 0);
            book[byte] ^= (uint8_t)(1u << bit % 8);
            uint32_t year = book[6] | (uint32_t)book[7] << 8;
            uint32_t no = byte < 3 ? 2 : byte == 4 || byte == 5 ? 3 : byte == 9 || byte > 11 ? 4 : bit >= above ? 4 : byte >= 10 ? 1
                        : byte == 3 ? (book[3] < 1 || book[3] > 99 ? 4 : 0) : byte == 8 ? (book[8] < 1 || book[8] > 12 ? 4 : 0)
                        : year < 2024 || year > 2099 ? 4 : 0;
            row = (int)(1000 * v + bit);
            CHECK(book, 16, no, 0);
        }
    row = -1;
    put_book(book, 7, 2025, 1, NULL, 0);
    for (size_t len = 0; len < 16; len++) {
        row = (int)len;
        CHECK(book, len, 1, 0);
    }
    row = -1;
    book[16] = 0;
    CHECK(book, 17, 1, 0);
    book[10] = 1; /* one record, none there; 513 is 4 before the length is looked at */
    CHECK(book, 16, 1, 0);
    book[11] = 2;
    CHECK(book, 16, 4, 0);
    group("header fields: 1, 2, 3, 4");
}

static void months(void)
{
    static uint8_t book[48];
    output(0);
    for (uint16_t year = 2024; year <= 2099; year++)
        for (uint8_t month = 1; month <= 12; month++) {
            uint32_t minutes = ends[month - 1] + (month == 2 && year % 4 == 0 ? 1440u : 0u); /* 2100 is out of range */
            row = year * 100 + month;
            ONE(3, year, month, live(1, 1, 1, 10, (uint16_t)minutes, 0, 0, 0, 0), 48, 0);
            ONE(3, year, month, live(1, 1, 1, 10, (uint16_t)(minutes + 1), 0, 0, 0, 0), 48, 5);
            if (year > 2025 && year < 2096)
                continue;
            struct call last = live(1, 1, 1, 4, (uint16_t)(minutes - 1440), 1440, 0, 0, 0);
            put_book(book, 3, year, month, &last, 1);
            SCORE(1, 1, 1, book, 48, series, minutes / 15, 0, 0, 600000, 10);
            SCORE(1, 1, 1, book, 48, series, minutes / 15 + 1, 11, 65535, 0, 0);
            SCORE(1, 1, 1, book, 48, series, minutes / 15 - 1, 11, 65535, 0, 0);
        }
    group("the minutes of every month, leap years");
}

/* ---- faults that meet ----
 * Each fault alone, then with every later one: the earlier is the answer. The later is made first, so that a fault that
 * cuts the book does not hide the making of another. */

struct book_fault { uint32_t no; uint64_t place; void (*make)(uint8_t *book, size_t *len); };

static uint8_t *rec(uint8_t *book, size_t i) { return book + 16 + 32 * i; }
static void f_short(uint8_t *b, size_t *len) { (void)b; *len = 15; }
static void f_mark(uint8_t *b, size_t *len) { (void)len; b[1] = 'w'; }
static void f_version(uint8_t *b, size_t *len) { (void)len; b[5] = 1; }
static void f_header(uint8_t *b, size_t *len) { (void)len; b[15] = 1; }
static void f_length(uint8_t *b, size_t *len) { (void)b; *len -= 1; }
static void f_5_0(uint8_t *b, size_t *len) { (void)len; rec(b, 0)[31] = 1; }
static void f_5_1(uint8_t *b, size_t *len) { (void)len; put_bytes(rec(b, 1) + 8, 0, 4); }
static void f_6_1(uint8_t *b, size_t *len) { (void)len; memcpy(rec(b, 1) + 4, rec(b, 0) + 4, 4); }
static void f_5_2(uint8_t *b, size_t *len) { (void)len; rec(b, 2)[3] = 3; }
static void f_6_2(uint8_t *b, size_t *len) { (void)len; put_bytes(rec(b, 2) + 4, 5, 4); }
static void f_5_3(uint8_t *b, size_t *len) { (void)len; rec(b, 3)[2] = 11; }
static void f_6_3(uint8_t *b, size_t *len) { (void)len; rec(b, 3)[0] = 2; }

static const struct book_fault book_faults[] = {
    {1, 0, f_short}, {2, 0, f_mark}, {3, 0, f_version}, {4, 0, f_header}, {1, 0, f_length}, {5, 0, f_5_0}, {5, 1, f_5_1}, {6, 1, f_6_1},
    {5, 2, f_5_2}, {6, 2, f_6_2}, {5, 3, f_5_3}, {6, 3, f_6_3}};
enum { BOOK_FAULTS = sizeof book_faults / sizeof *book_faults };

/* n start-stop calls of participant 3, numbered 10, 20, 30 and so on, or 15, 25, 35: disjoint from the former. 2,001 of them fit the month. */
static size_t tens_of(uint32_t version, uint8_t *book, uint32_t from, size_t n)
{
    static struct call calls[MOST_2 + 1];
    for (size_t i = 0; i < n; i++)
        calls[i] = live(3, from + 10 * (uint32_t)i, 1, 3, (uint16_t)(22 * i), 22, 0, 0, 0);
    return put_book_of(version, book, 7, 2025, 1, calls, n);
}

static size_t tens(uint8_t *book, uint32_t from, size_t n) { return tens_of(1, book, from, n); }

static void check_order(void)
{
    uint8_t book[16 + 32 * 4];
    for (uint32_t v = 1; v <= versions; v++)
        for (int i = 0; i < BOOK_FAULTS; i++)
            for (int j = i; j < BOOK_FAULTS; j++) {
                size_t len = tens_of(v, book, 10, 4);
                book_faults[j].make(book, &len);
                if (i != j)
                    book_faults[i].make(book, &len);
                row = (int)v * 10000 + i * 100 + j;
                CHECK(book, len, book_faults[i].no, book_faults[i].place);
            }
    row = -1;
    /* A count of 513 in a book of version 1, against length, mark and version. */
    static uint8_t full[BOOK_MOST + 32];
    size_t len = tens(full, 1, 512);
    CHECK(full, len, 0, 0);
    full[len - 1] = 1;
    CHECK(full, len, 5, 511);
    full[len - 1] = 0;
    memcpy(rec(full, 511), rec(full, 510), 32);
    CHECK(full, len, 6, 511);
    put_bytes(full + 10, 513, 2);
    CHECK(full, len + 32, 4, 0);
    CHECK(full, len, 4, 0);
    full[4] = 0;
    CHECK(full, len, 3, 0);
    full[2] = 0;
    CHECK(full, len, 2, 0);
    CHECK(full, 15, 1, 0);
    /* Participants rise before numbers do; a participant's two bytes and a number's four are no strings of bytes. */
    struct call two[] = {live(1, 0xffffffff, 1, 5, 0, 0, 0, 0, 0), live(2, 0, 1, 5, 0, 0, 0, 0, 0)};
    CHECK(full, put_book(full, 7, 2025, 1, two, 2), 0, 0);
    two[1].participant = 1;
    CHECK(full, put_book(full, 7, 2025, 1, two, 2), 6, 1);
    two[0].number = 0x00ff, two[1].number = 0x0100;
    CHECK(full, put_book(full, 7, 2025, 1, two, 2), 0, 0);
    two[0].number = 0x7fffffff, two[1].number = 0x80000000;
    CHECK(full, put_book(full, 7, 2025, 1, two, 2), 0, 0);
    group("check: every number alone, and the order of two");
}

/* The numbers of nwb.h. */
static void constants(void)
{
    begin(__LINE__, "nwb.h");
    want("edition", NWB_EDITION, 4);
    want("most records of version 1", NWB_MOST_RECORDS_1, MOST_1);
    want("most records of version 2", NWB_MOST_RECORDS_2, MOST_2);
    want("longest book", NWB_MOST_BOOK, BOOK_MOST);
    want("page of tabs", NWB_TABS, PAGE);
    end();
}

/* The versions there are, and each one's limit. */
static void check_versions(void)
{
    static uint8_t book[BOOK_MOST + 32];
    static const size_t counts[] = {0, 1, 511, 512};
    for (size_t i = 0; i < ROWS(counts); i++) {
        row = (int)i;
        for (uint32_t v = 1; v <= versions; v++)
            CHECK(book, tens_of(v, book, 10, counts[i]), 0, 0);
    }
    row = -1;
    /* 513 records are 4 in version 1, whatever the length is. */
    size_t len = tens_of(1, book, 10, 513);
    CHECK(book, len, 4, 0);
    CHECK(book, len - 32, 4, 0);
    CHECK(book, len - 1, 4, 0);
    CHECK(book, 16, 4, 0);
    CHECK(book, tens_of(1, book, 10, 2000), 4, 0);
    CHECK(book, tens_of(1, book, 10, 2001), 4, 0);
    /* No other version: 3, before the count is asked. */
    static const uint32_t none_such[] = {0, 3, 4, 255, 256, 257, 258, 512, 513, 0x8001, 0x8002, 65535};
    static const size_t with_counts[] = {0, 3, 512, 513, 2000, 2001};
    for (size_t i = 0; i < ROWS(none_such); i++)
        for (size_t k = 0; k < ROWS(with_counts); k++) {
            row = (int)(i * 10 + k);
            CHECK(book, tens_of(none_such[i], book, 10, with_counts[k]), 3, 0);
        }
    row = -1;
    if (versions == 2) {
        CHECK(book, tens_of(2, book, 10, 513), 0, 0);
        CHECK(book, tens_of(2, book, 10, 1999), 0, 0);
        len = tens_of(2, book, 10, 2000);
        CHECK(book, len, 0, 0);
        CHECK(book, 64015, 1, 0);
        CHECK(book, 64017, 1, 0);
        CHECK(book, 16, 1, 0);
        book[64015] = 1;
        CHECK(book, len, 5, 1999);
        book[64015] = 0;
        memcpy(rec(book, 1999), rec(book, 1998), 32);
        CHECK(book, len, 6, 1999);
        memcpy(rec(book, 512), rec(book, 511), 32);
        CHECK(book, len, 6, 512);
        rec(book, 512)[31] = 1;
        CHECK(book, len, 5, 512);
        book[4] = 1; /* the same bytes as version 1, and as none */
        CHECK(book, len, 4, 0);
        book[4] = 3;
        CHECK(book, len, 3, 0);
        /* 2,001 are 4, before the length is asked and before any record. */
        len = tens_of(2, book, 10, 2001);
        CHECK(book, len, 4, 0);
        CHECK(book, len - 32, 4, 0);
        CHECK(book, 16, 4, 0);
        rec(book, 0)[31] = 1;
        CHECK(book, len, 4, 0);
        put_bytes(book + 10, 65535, 2);
        CHECK(book, len, 4, 0);
    }
    group("check: the versions, and the limit of each: 3, 4");
}

static void writers(void)
{
    for (size_t out_len = 0; out_len <= 50; out_len++) {
        row = (int)out_len;
        NONE(7, 2025, 1, out_len, out_len < 16 ? 9 : 0);
        ONE(7, 2025, 1, live(3, 0xfedcba98, 0x89abcdef, 8, 0x1234, 0x0567, -500, 0x01020304, 1), out_len, out_len < 48 ? 9 : 0);
        ONE(7, 2025, 1, empty(64, 0, 1, 2), out_len, out_len < 48 ? 9 : 0);
    }
    row = -1;
    NONE(7, 2025, 1, MUCH, 0);
    ONE(7, 2025, 1, live(1, 2, 3, 8, 0, 0, -1000000000, 5, 0), MUCH, 0);
    /* 4 before 5 before 9 */
    NONE(0, 2025, 1, 0, 4);
    ONE(0, 2025, 1, empty(0, 1, 1, 1), 0, 4);
    ONE(0, 2025, 1, empty(1, 1, 1, 1), 0, 4);
    ONE(7, 2025, 13, live(1, 1, 1, 10, 60000, 0, 0, 0, 0), 48, 4);
    ONE(7, 2025, 1, empty(0, 1, 1, 1), 0, 5);
    ONE(7, 2025, 1, empty(1, 1, 0, 1), 47, 5);
    /* The very bytes, once by hand. */
    static const uint8_t by_hand[48] = {'N', 'W', 'B', 42, 1, 0, 0xf7, 7, 12, 0, 1, 0, 0, 0, 0, 0,
                                        33, 0, 8, 0, 0x44, 0x33, 0x22, 0x11, 0x88, 0x77, 0x66, 0x55, 0xaa, 0x99, 2, 1,
                                        0x0c, 0xfe, 0xff, 0xff, 0x00, 0xca, 0x9a, 0x3b, 1, 0, 0, 0, 0, 0, 0, 0};
    uint8_t out[48];
    begin(__LINE__, "one");
    placed_now = ODD;
    soil_cells();
    want("number", nwb_one(42, 2039, 12, 33, 8, 0, 0x11223344, 0x55667788, 0x99aa, 0x0102, -500, 1000000000, 1, out, 48, CELL(0), CELL(1)), 0);
    want("bytes", (uint64_t)(memcmp(out, by_hand, 48) == 0), 1);
    end();
    group("writing a book of none and of one: 4, 5, 9");
}

/* ---- joining ---- */

static uint8_t book1[BOOK_MOST + 64], book2[BOOK_MOST + 64], joined[BOOK_MOST + 64];
static uint8_t given[PAGE + 64], page[PAGE]; /* book1's page, which may be longer or shorter, and the joined book's */

/* book1 with its page and book2, of these lengths, into these rooms: `joined` and `page` are expected, or on a refusal none. */
static void expect_join_tabs(int line, size_t len1, size_t given_len, size_t len2, size_t room, size_t page_room, uint32_t no, uint64_t place, size_t joined_len)
{
    begin(line, "join_tabs");
    FOR_PLACEMENTS {
        const uint8_t *x = lay(&in1, placed_now, book1, len1), *t = lay(&in_tabs, placed_now, given, given_len), *y = lay(&in2, placed_now, book2, len2);
        uint8_t *out = area_lend(&lent, placed_now, NULL, room, 0xe7), *out_tabs = area_lend(&lent_tabs, placed_now, NULL, page_room, 0x3b);
        soil_cells();
        want("number", nwb_join_tabs(len1 ? x : NULL, len1, given_len ? t : NULL, given_len, len2 ? y : NULL, len2, room ? out : NULL, room,
                                     page_room ? out_tabs : NULL, page_room, CELL(0), CELL(1), CELL(2)), no);
        want("place", *CELL(0), place);
        want("length", *CELL(1), no == 0 ? joined_len : 0);
        want("turns", *CELL(2), no == 0 ? (joined_len - 16) / 32 : 0);
        want_cells_kept(3);
        want("bytes as promised and nothing else touched", (uint64_t)area_holds(&lent, joined, no == 0 ? joined_len : 0, 0xe7), 1);
        want("page as promised and nothing else touched", (uint64_t)area_holds(&lent_tabs, page, no == 0 ? PAGE : 0, 0x3b), 1);
        want_input_kept(&in1, book1, len1);
        want_input_kept(&in_tabs, given, given_len);
        want_input_kept(&in2, book2, len2);
    }
    end();
}

#define JOIN_TABS(...) expect_join_tabs(__LINE__, __VA_ARGS__)

/* A page of a book of `all` records: the tabs of members as told, every other one with `all` for its index and no record. */
struct tab { uint16_t member, index, count, live, contested, withdrawn; };

static void put_page(uint8_t *p, uint32_t all, const struct tab *tabs, size_t n)
{
    memset(p, 0, PAGE);
    for (size_t m = 0; m < 64; m++)
        put_bytes(p + 10 * m, all, 2);
    for (size_t i = 0; i < n; i++) {
        const uint16_t fields[] = {tabs[i].index, tabs[i].count, tabs[i].live, tabs[i].contested, tabs[i].withdrawn};
        for (size_t k = 0; k < 5; k++)
            put_bytes(p + 10 * (tabs[i].member - 1) + 2 * k, fields[k], 2);
    }
}

/* The page of a book of one record, or of one member's live calls. */
static void put_page_of_one(uint8_t *p, uint16_t member, uint8_t state)
{
    put_page(p, 1, &(struct tab){member, 0, 1, state == 0, state == 1, state == 2}, 1);
}

static void put_page_of_live(uint8_t *p, uint16_t member, uint32_t n)
{
    put_page(p, n, &(struct tab){member, 0, (uint16_t)n, (uint16_t)n, 0, 0}, 1);
}

/* The rule once more with a page: which states stood and stand is all that it tells. */
static void expect_rule_tabs(int line, struct call x, struct call y, struct call stands)
{
    for (int turn = 0; turn < 2; turn++) {
        put_book(book1, 7, 2025, 1, turn ? &y : &x, 1);
        put_book(book2, 7, 2025, 1, turn ? &x : &y, 1);
        put_book(joined, 7, 2025, 1, &stands, 1);
        put_page_of_one(given, x.participant, turn ? y.state : x.state);
        put_page_of_one(page, x.participant, stands.state);
        expect_join_tabs(line, 48, PAGE, 48, 48, PAGE, 0, 0, 48);
    }
}


static void join_rule(void)
{
    struct call x = live(9, 5, 3, 8, 10, 20, -7, 8, 0);
    RULE(x, x, x);
    /* Unequal in any one field, at one revision. */
    struct call others[] = {x, x, x, x, x, x};
    others[0].service = 10, others[0].minutes = 0, others[0].a = 0, others[0].b = 0;
    others[1].start = 11;
    others[2].minutes = 21;
    others[3].a = -8;
    others[4].b = 0x1000008;
    others[5].c = 1;
    for (size_t i = 0; i < ROWS(others); i++) {
        row = (int)i;
        RULE(x, others[i], empty(9, 5, 3, 1));
        others[i].revision = 4;
        RULE(x, others[i], others[i]);
        others[i].revision = 2;
        RULE(x, others[i], x);
        others[i].revision = 0xffffffff; /* revisions have no sign */
        RULE(x, others[i], others[i]);
    }
    row = -1;
    struct call y = x;
    y.revision = 4; /* the same content at a higher revision */
    RULE(x, y, y);
    RULE(x, empty(9, 5, 3, 1), empty(9, 5, 3, 1));
    RULE(x, empty(9, 5, 2, 1), x);
    RULE(x, empty(9, 5, 4, 1), empty(9, 5, 4, 1));
    RULE(empty(9, 5, 4, 1), empty(9, 5, 4, 1), empty(9, 5, 4, 1));
    RULE(empty(9, 5, 3, 1), empty(9, 5, 4, 1), empty(9, 5, 4, 1));
    for (uint32_t revision = 1; revision <= 5; revision++) {
        row = (int)revision;
        RULE(empty(9, 5, 3, 2), live(9, 5, revision, 5, 0, 0, 0, 0, 0), empty(9, 5, 3, 2));
        RULE(empty(9, 5, 3, 2), empty(9, 5, revision, 1), empty(9, 5, 3, 2));
        RULE(empty(9, 5, 3, 2), empty(9, 5, revision, 2), empty(9, 5, revision > 3 ? revision : 3, 2));
    }
    RULE(empty(9, 5, 1, 2), live(9, 5, 0xffffffff, 5, 0, 0, 0, 0, 0), empty(9, 5, 1, 2));
    RULE(empty(9, 5, 0x7fffffff, 2), empty(9, 5, 0x80000000, 2), empty(9, 5, 0x80000000, 2));
    row = -1;

    /* Several keys: before, between, behind, in both. */
    struct call a[] = {live(1, 7, 1, 5, 0, 0, 0, 0, 0), live(2, 3, 1, 6, 0, 0, 0, 99, 0), empty(2, 4, 2, 2), live(64, 0xffffffff, 1, 7, 0, 0, 0, 1, 0)};
    struct call b[] = {live(1, 8, 1, 9, 0, 1, 0, 2, 3), live(2, 3, 1, 6, 0, 0, 0, 98, 0), live(2, 4, 9, 1, 0, 15, 0, 0, 0), empty(3, 0, 1, 1)};
    struct call u[] = {a[0], b[0], empty(2, 3, 1, 1), a[2], b[3], a[3]};
    for (uint32_t v = 1; v <= versions; v++) {
        size_t la = put_book_of(v, book1, 99, 2099, 12, a, 4), lb = put_book_of(v, book2, 99, 2099, 12, b, 4);
        size_t lu = put_book_of(v, joined, 99, 2099, 12, u, 6);
        row = (int)v;
        JOIN(book1, la, book2, lb, lu, 0, 0, joined, lu);
        JOIN(book2, lb, book1, la, lu + 1, 0, 0, joined, lu);
        JOIN(book1, la, book1, la, la, 0, 0, book1, la);
        put_book(book2, 99, 2099, 12, NULL, 0);
        JOIN(book1, la, book2, 16, la, 0, 0, book1, la);
        JOIN(book2, 16, book1, la, la + 31, 0, 0, book1, la);
        JOIN(book2, 16, book2, 16, 16, 0, 0, book2, 16);
    }
    row = -1;
    group("the joining rule");
}

/* n calls, numbered from `from` on: books of these have the keys in common that both have numbers for. */
static size_t numbered(uint32_t version, uint8_t *book, uint32_t from, size_t n)
{
    static struct call calls[MOST_2 + 1];
    for (uint32_t k = 0; k < n; k++)
        calls[k] = live(5, from + k, 1, 10, 0, 0, 0, 0, 0);
    return put_book_of(version, book, 7, 2025, 1, calls, n);
}

static void join_limits(void)
{
    /* n keys here and m there, `common` of them in both; the number, and the version where both books are of version 1. In every other
     * pair of versions, as far as the counts allow it, it is 2. */
    static const struct { uint32_t n, m, common, no, version; } rows[] = {
        {0, 0, 0, 0, 1}, {3, 3, 3, 0, 1}, {512, 512, 512, 0, 1}, {512, 0, 0, 0, 1}, {0, 512, 0, 0, 1}, {511, 1, 0, 0, 1}, {256, 256, 0, 0, 1},
        {257, 256, 1, 0, 1}, {512, 1, 1, 0, 1}, {510, 2, 0, 0, 1}, {510, 3, 1, 0, 1}, {300, 300, 88, 0, 1},
        {512, 1, 0, 0, 2}, {1, 512, 0, 0, 2}, {257, 256, 0, 0, 2}, {512, 512, 511, 0, 2}, {512, 512, 0, 0, 2}, {510, 3, 0, 0, 2}, {300, 300, 87, 0, 2},
        {513, 0, 0, 0, 2}, {513, 513, 513, 0, 2}, {1000, 1000, 0, 0, 2}, {1999, 1, 0, 0, 2}, {2000, 0, 0, 0, 2}, {2000, 1, 1, 0, 2}, {1488, 512, 0, 0, 2},
        {2000, 2000, 2000, 0, 2}, {1001, 1000, 0, 8, 2}, {2000, 1, 0, 8, 2}, {1, 2000, 0, 8, 2}, {1489, 512, 0, 8, 2}, {2000, 2000, 1999, 8, 2},
        {2000, 2000, 0, 8, 2}};
    for (size_t i = 0; i < ROWS(rows); i++)
        for (uint32_t v = rows[i].n > 512 ? 2 : 1; v <= versions; v++)
            for (uint32_t w = rows[i].m > 512 ? 2 : 1; w <= versions; w++) {
                uint32_t version = v == 1 && w == 1 ? rows[i].version : 2, take = rows[i].n - rows[i].common;
                size_t l1 = numbered(v, book1, 0, rows[i].n), l2 = numbered(w, book2, take, rows[i].m), l;
                row = (int)i * 100 + (int)(10 * v + w);
                if (version > versions)
                    continue;
                put_page_of_live(given, 5, rows[i].n);
                if (rows[i].no == 8) {
                    JOIN_TABS(l1, PAGE, l2, MUCH, PAGE, 8, 0, 0);
                    JOIN_TABS(l1, PAGE, l2, 0, 0, 8, 0, 0);
                    JOIN(book1, l1, book2, l2, MUCH, 8, 0, NULL, 0);
                    JOIN(book1, l1, book2, l2, 0, 8, 0, NULL, 0);
                    JOIN(book2, l2, book1, l1, 16 + 32 * 2000, 8, 0, NULL, 0);
                    continue;
                }
                l = numbered(version, joined, 0, take + rows[i].m);
                put_page_of_live(page, 5, take + rows[i].m);
                JOIN_TABS(l1, PAGE, l2, l, PAGE, 0, 0, l);
                JOIN_TABS(l1, PAGE, l2, l - 1, PAGE, 9, 0, 0);
                JOIN(book1, l1, book2, l2, l, 0, 0, joined, l);
                JOIN(book2, l2, book1, l1, l + 77, 0, 0, joined, l);
                JOIN(book1, l1, book2, l2, l - 1, 9, 0, NULL, 0);
                JOIN(book1, l1, book2, l2, 16, l == 16 ? 0 : 9, 0, joined, 16);
                JOIN(book2, l2, book1, l1, 0, 9, 0, NULL, 0);
                if (l > 16400) /* room for a full book of version 1 */
                    JOIN(book2, l2, book1, l1, 16400, 9, 0, NULL, 0);
            }
    row = -1;
    group("512 and 2,000 keys, versions and room: 8, 9");
}

/* Joins these books two at a time in every order and grouping: each tree must come to `expected`, or stop in `no`. */
static void every_tree(int line, const uint8_t *const books[], const size_t lens[], size_t n, uint32_t no,
                       const uint8_t *expected, size_t expected_len)
{
    enum { MOST = 5 };
    static uint8_t out[MOST + 1][BOOK_MOST];
    const uint8_t *left[MOST];
    size_t left_len[MOST];
    if (n == 1) {
        begin(line, "a tree of joins");
        want("number", 0, no);
        want("length", lens[0], expected_len);
        want("turns of the last join", *CELL(2), (expected_len - 16) / 32);
        want("bytes", (uint64_t)(lens[0] == expected_len && memcmp(books[0], expected, expected_len) == 0), 1);
        end();
        return;
    }
    for (size_t i = 0; i < n; i++)
        for (size_t j = 0; j < n; j++) {
            if (i == j)
                continue;
            uint32_t got = nwb_join(books[i], lens[i], books[j], lens[j], out[n], BOOK_MOST, CELL(0), CELL(1), CELL(2));
            if (got != 0) {
                begin(line, "a tree of joins");
                want("number", got, no);
                want("turns", *CELL(2), 0);
                end();
                continue;
            }
            size_t m = 0;
            for (size_t k = 0; k < n; k++)
                if (k != i && k != j)
                    left[m] = books[k], left_len[m++] = lens[k];
            left[m] = out[n], left_len[m++] = (size_t)*CELL(1);
            every_tree(line, left, left_len, m, no, expected, expected_len);
        }
}

/* The version is the same in every grouping. */
static void join_trees(void)
{
    static uint8_t books[5][BOOK_MOST];
    const uint8_t *list[5] = {books[0], books[1], books[2], books[3], books[4]};
    size_t lens[5], l;
    placed_now = ALIGNED;

    /* 512 calls, and one more of them or a new one, and all of them again. */
    lens[0] = lens[2] = numbered(1, books[0], 0, 512);
    memcpy(books[2], books[0], lens[0]);
    lens[1] = numbered(1, books[1], 511, 1);
    l = numbered(1, joined, 0, 512);
    every_tree(__LINE__, list, lens, 3, 0, joined, l);
    if (versions == 2) {
        lens[1] = numbered(1, books[1], 512, 1);
        l = numbered(2, joined, 0, 513);
        every_tree(__LINE__, list, lens, 3, 0, joined, l);
        /* An empty book of version 2 among books of version 1, and one more that is full. */
        lens[0] = numbered(1, books[0], 0, 2), lens[1] = numbered(2, books[1], 0, 0);
        lens[2] = numbered(1, books[2], 1, 3), lens[3] = numbered(1, books[3], 3, 1);
        l = numbered(2, joined, 0, 4);
        every_tree(__LINE__, list, lens, 4, 0, joined, l);
        lens[3] = numbered(2, books[3], 2, 2000);
        every_tree(__LINE__, list, lens, 4, 8, NULL, 0);
        /* Four books of 500; and one call more, in any of them or in a fifth. */
        for (uint32_t k = 0; k < 4; k++)
            lens[k] = numbered(1, books[k], 500 * k, 500);
        l = numbered(2, joined, 0, 2000);
        every_tree(__LINE__, list, lens, 4, 0, joined, l);
        lens[4] = numbered(1, books[4], 1999, 1);
        every_tree(__LINE__, list, lens, 5, 0, joined, l);
        lens[4] = numbered(1, books[4], 2000, 1);
        every_tree(__LINE__, list, lens, 5, 8, NULL, 0);
        lens[3] = numbered(1, books[3], 1500, 501);
        every_tree(__LINE__, list, lens, 4, 8, NULL, 0);
    }
    group("every tree of joins over a list: one version, or 8");
}

/* Two books joined: number, length and turns as told, each worked out by hand. */
static void expect_turns(int line, const uint8_t *first, size_t first_len, const uint8_t *second, size_t second_len, size_t out_len,
                         uint32_t no, uint64_t length, uint64_t turns)
{
    begin(line, "turns");
    FOR_PLACEMENTS {
        const uint8_t *x = lay(&in1, placed_now, first, first_len), *y = lay(&in2, placed_now, second, second_len);
        uint8_t *out = area_lend(&lent, placed_now, NULL, out_len, 0xe7);
        soil_cells();
        want("number", nwb_join(x, first_len, y, second_len, out, out_len, CELL(0), CELL(1), CELL(2)), no);
        want("length", *CELL(1), length);
        want("turns", *CELL(2), turns);
        want_cells_kept(3);
        if (no != 0)
            want("output as lent", (uint64_t)area_holds(&lent, NULL, 0, 0xe7), 1);
    }
    end();
}

/* Book after book joined with what those before it gave, from a book on: the turns of each join, what they come to, and the bound from the books' counts, the sum over all joins of the
 * smaller of 2,000 and the counts up to there. The first `joins` of them are accepted; the next, if there is one, is refused with 8, takes no turn, and ends the chain. */
static void expect_chain(int line, const uint8_t *from, size_t from_len, const uint8_t *const books[], const size_t lens[], size_t n, size_t joins, const uint64_t turns[], uint64_t all,
                         uint64_t bound)
{
    static uint8_t so_far[2][BOOK_MOST];
    size_t len = from_len;
    uint64_t sum = 0;
    memcpy(so_far[0], from, from_len);
    placed_now = ALIGNED;
    begin(line, "a chain of joins");
    for (size_t i = 0; i < n; i++) {
        soil_cells();
        uint32_t no = nwb_join(so_far[i % 2], len, books[i], lens[i], so_far[(i + 1) % 2], BOOK_MOST, CELL(0), CELL(1), CELL(2));
        want("number", no, i < joins ? 0 : 8);
        want("turns", *CELL(2), i < joins ? turns[i] : 0);
        sum += *CELL(2);
        if (no != 0 || *CELL(1) > BOOK_MOST)
            break;
        len = (size_t)*CELL(1);
    }
    want("all turns", sum, all);
    want("all turns within the bound", (uint64_t)(sum <= bound), 1);
    end();
}

/* A book of calls by their keys, participant and number. */
static size_t keyed(uint8_t *book, const uint32_t (*keys)[2], size_t n)
{
    struct call calls[8];
    for (size_t i = 0; i < n; i++)
        calls[i] = live((uint16_t)keys[i][0], keys[i][1], 1, 10, 0, 0, 0, 0, 0);
    return put_book(book, 7, 2025, 1, calls, n);
}

static void join_turns(void)
{
    /* The numbers 0 to n - 1, and m from `from` on. */
    static const struct { uint32_t n, from, m; size_t room; uint32_t no; uint64_t length, turns; } rows[] = {
        {2, 1, 3, MUCH, 0, 144, 4}, {2, 2, 3, MUCH, 0, 176, 5}, {2, 1, 3, 143, 9, 0, 0}, {0, 0, 0, 16, 0, 16, 0}, {512, 0, 512, MUCH, 0, 16400, 512},
        {512, 0, 511, 16400, 0, 16400, 512}, {0, 0, 2000, MUCH, 0, 64016, 2000}, {2000, 0, 0, 64016, 0, 64016, 2000}, {2000, 0, 2000, 64016, 0, 64016, 2000},
        {2000, 2000, 1, MUCH, 8, 0, 0}, {1000, 1000, 1000, 64015, 9, 0, 0}};
    static uint8_t books[6][BOOK_MOST];
    const uint8_t *list[6] = {books[0], books[1], books[2], books[3], books[4], books[5]};
    size_t lens[6];
    uint8_t none[16];
    put_book(none, 7, 2025, 1, NULL, 0);
    for (size_t i = 0; i < ROWS(rows); i++) {
        uint32_t v = rows[i].n > 512 ? 2 : 1, w = rows[i].m > 512 ? 2 : 1;
        row = (int)i;
        if (v > versions || w > versions)
            continue;
        size_t l1 = numbered(v, book1, 0, rows[i].n), l2 = numbered(w, book2, rows[i].from, rows[i].m);
        expect_turns(__LINE__, book1, l1, book2, l2, rows[i].room, rows[i].no, rows[i].length, rows[i].turns);
    }
    row = -1;
    /* A struck key, and a withdrawn one against a live one: a turn each. */
    struct call c = live(3, 1, 1, 3, 600, 300, 0, 0, 0), d = live(3, 1, 1, 3, 600, 240, 0, 0, 0), gone = empty(3, 1, 1, 2);
    lens[0] = put_book(books[0], 7, 2025, 1, &c, 1), lens[1] = put_book(books[1], 7, 2025, 1, &d, 1), lens[2] = put_book(books[2], 7, 2025, 1, &gone, 1);
    expect_turns(__LINE__, books[0], lens[0], books[1], lens[1], 48, 0, 48, 1);
    expect_turns(__LINE__, books[2], lens[2], books[1], lens[1], 48, 0, 48, 1);
    expect_turns(__LINE__, books[0], lens[0], books[2], lens[2], 48, 0, 48, 1);
    /* 2, 3 and 1 calls, the last one known. */
    lens[0] = numbered(1, books[0], 0, 2), lens[1] = numbered(1, books[1], 2, 3), lens[2] = numbered(1, books[2], 3, 1);
    expect_chain(__LINE__, none, 16, list, lens, 3, 3, (const uint64_t[]){2, 5, 5}, 12, 13);
    /* The keys of the example month, book by book in the order of their names: from an empty book, and from the first one. */
    lens[0] = keyed(books[0], (const uint32_t[][2]){{1, 1}, {1, 2}, {1, 3}, {1, 4}, {1, 9}}, 5);
    lens[1] = keyed(books[1], (const uint32_t[][2]){{3, 4}, {4, 7}}, 2);
    lens[2] = keyed(books[2], (const uint32_t[][2]){{2, 1}, {2, 2}, {2, 3}, {3, 1}, {3, 2}, {3, 3}}, 6);
    lens[3] = keyed(books[3], (const uint32_t[][2]){{1, 9}, {1, 10}, {4, 7}}, 3);
    lens[4] = keyed(books[4], (const uint32_t[][2]){{1, 9}}, 1);
    lens[5] = keyed(books[5], (const uint32_t[][2]){{4, 7}, {4, 8}, {5, 1}, {5, 2}}, 4);
    expect_chain(__LINE__, none, 16, list, lens, 6, 6, (const uint64_t[]){5, 7, 13, 14, 14, 17}, 70, 79);
    expect_chain(__LINE__, books[0], lens[0], list + 1, lens + 1, 5, 5, (const uint64_t[]){7, 13, 14, 14, 17}, 65, 74);
    if (versions == 2) {
        /* 1,000 even numbers and 1,000 odd ones, interleaved. */
        static struct call calls[2][1000];
        for (uint32_t k = 0; k < 2000; k++)
            calls[k % 2][k / 2] = live(5, k, 1, 10, 0, 0, 0, 0, 0);
        lens[0] = put_book_of(2, books[0], 7, 2025, 1, calls[0], 1000), lens[1] = put_book_of(2, books[1], 7, 2025, 1, calls[1], 1000);
        expect_turns(__LINE__, books[0], lens[0], books[1], lens[1], 64016, 0, 64016, 2000);
        expect_turns(__LINE__, books[1], lens[1], books[0], lens[0], MUCH, 0, 64016, 2000);
        /* Four books of 600 calls: the fourth is one too many. */
        for (uint32_t k = 0; k < 4; k++)
            lens[k] = numbered(2, books[k], 600 * k, 600);
        expect_chain(__LINE__, none, 16, list, lens, 4, 3, (const uint64_t[]){600, 1200, 1800}, 3600, 5600);
    }
    group("turns of a join and of a chain");
}

static void join_order(void)
{
    enum { SEVEN = 2 * BOOK_FAULTS, EIGHT, NINE, ALL };
    for (uint32_t pair = 0; pair < versions * versions; pair++)
        for (int i = 0; i < ALL; i++)
            for (int j = i; j < ALL; j++) {
                int eight = i == EIGHT || j == EIGHT, nine = i == NINE || j == NINE, seven = i == SEVEN || j == SEVEN;
                uint32_t v = 1 + pair / 2, w = 1 + pair % 2;
                if (eight && v == 1 && w == 1) /* these have at most 1,024 keys together */
                    continue;
                size_t l1 = tens_of(v, book1, 10, !eight ? 4 : v == 1 ? 512 : w == 1 ? 1489 : 1001);
                size_t l2 = tens_of(w, book2, 15, !eight ? 4 : w == 1 ? 512 : v == 1 ? 1489 : 1000);
                size_t room = nine ? 100 : eight ? MUCH : 1000;
                if (seven)
                    book2[3]++;
                if (j < SEVEN && j >= BOOK_FAULTS)
                    book_faults[j - BOOK_FAULTS].make(book2, &l2);
                if (i < SEVEN && i >= BOOK_FAULTS && i != j)
                    book_faults[i - BOOK_FAULTS].make(book2, &l2);
                if (j < BOOK_FAULTS)
                    book_faults[j].make(book1, &l1);
                if (i < BOOK_FAULTS && i != j)
                    book_faults[i].make(book1, &l1);
                row = (int)pair * 10000 + i * 100 + j;
                if (i < BOOK_FAULTS)
                    JOIN(book1, l1, book2, l2, room, book_faults[i].no, book_faults[i].place, NULL, 0);
                else if (i < SEVEN)
                    JOIN(book1, l1, book2, l2, room, book_faults[i - BOOK_FAULTS].no + 20, book_faults[i - BOOK_FAULTS].place, NULL, 0);
                else
                    JOIN(book1, l1, book2, l2, room, i == SEVEN ? 7 : i == EIGHT ? 8 : 9, 0, NULL, 0);
            }
    row = -1;
    /* A count above its version's limit, a version that is none: as in a book alone, and 20 more in the second. */
    for (uint32_t v = 0; v <= 3; v++) {
        if (v == 2 && versions == 1)
            continue;
        size_t l1 = tens_of(v, book1, 10, v == 1 ? 513 : 2001), l2 = tens(book2, 10, 4);
        row = (int)v;
        JOIN(book1, l1, book2, l2, MUCH, v == 1 || v == 2 ? 4 : 3, 0, NULL, 0);
        JOIN(book2, l2, book1, l1, MUCH, v == 1 || v == 2 ? 24 : 23, 0, NULL, 0);
        FIND(book1, l1, book2, l2, 3, 10, 0, 0);
        FIND(book2, l2, book1, l1, 3, 10, 0, 0);
    }
    row = -1;
    /* 7 for each of the three alone; books that differ join nowhere, empty or not. */
    put_book(book1, 7, 2025, 1, NULL, 0);
    put_book(book2, 8, 2025, 1, NULL, 0);
    JOIN(book1, 16, book2, 16, 100, 7, 0, NULL, 0);
    put_book(book2, 7, 2026, 1, NULL, 0);
    JOIN(book1, 16, book2, 16, 100, 7, 0, NULL, 0);
    put_book(book2, 7, 2025, 3, NULL, 0);
    JOIN(book1, 16, book2, 16, 100, 7, 0, NULL, 0);
    put_book(book2, 7, 2025 + 16, 1, NULL, 0);
    JOIN(book1, 16, book2, 16, 0, 7, 0, NULL, 0);
    if (versions == 2) { /* no version mends that */
        put_book_of(2, book2, 7, 2025, 3, NULL, 0);
        JOIN(book1, 16, book2, 16, 100, 7, 0, NULL, 0);
        JOIN(book2, 16, book1, 16, 100, 7, 0, NULL, 0);
    }
    group("join: every number alone, and the order of two");
}

/* ---- pages of tabs ---- */

/* A book of member 7, call 1 withdrawn and call 2 live; what comes in; and the joined one. */
static const struct tab of_seven = {7, 0, 2, 1, 0, 1};

static size_t seven(uint32_t version, uint8_t *book)
{
    struct call calls[] = {empty(7, 1, 1, 2), live(7, 2, 1, 5, 0, 0, 0, 0, 0)};
    return put_book_of(version, book, 12, 2026, 2, calls, 2);
}

static size_t against_seven(uint32_t version, uint8_t *book)
{
    struct call calls[] = {live(7, 1, 2, 5, 0, 0, 0, 0, 0), live(7, 2, 1, 10, 0, 0, 0, 0, 0), live(9, 1, 1, 10, 0, 0, 0, 0, 0)};
    return put_book_of(version, book, 12, 2026, 2, calls, 3);
}

static size_t seven_joined(uint32_t version, uint8_t *book)
{
    struct call calls[] = {empty(7, 1, 1, 2), empty(7, 2, 1, 1), live(9, 1, 1, 10, 0, 0, 0, 0, 0)};
    return put_book_of(version, book, 12, 2026, 2, calls, 3);
}

/* n calls of each member from `low` to `high`, in turn live, contested and withdrawn. */
static size_t by_members(uint8_t *book, uint16_t low, uint16_t high, size_t n)
{
    static struct call calls[MOST_2];
    size_t all = 0;
    for (uint16_t m = low; m <= high; m++)
        for (uint32_t k = 0; k < n; k++)
            calls[all++] = k % 3 == 0 ? live(m, k, 1, 10, 0, 0, 0, 0, 0) : empty(m, k, 1, (uint8_t)(k % 3));
    return put_book_of(all > MOST_1 ? 2 : 1, book, 7, 2025, 1, calls, all);
}

static void tabs_afresh(void)
{
    size_t len;
    for (uint32_t v = 1; v <= versions; v++) { /* the version makes no difference */
        row = (int)v;
        len = put_book_of(v, book1, 7, 2025, 1, NULL, 0);
        memset(page, 0, PAGE);
        TABS(book1, len, PAGE, 0, 0, page);
        len = seven(v, book1);
        put_page(page, 2, &of_seven, 1);
        TABS(book1, len, PAGE, 0, 0, page);
        len = against_seven(v, book1);
        put_page(page, 3, (const struct tab[]){{7, 0, 2, 2, 0, 0}, {9, 2, 1, 1, 0, 0}}, 2);
        TABS(book1, len, PAGE, 0, 0, page);
        len = seven_joined(v, book1);
        put_page(page, 3, (const struct tab[]){{7, 0, 2, 0, 1, 1}, {9, 2, 1, 1, 0, 0}}, 2);
        TABS(book1, len, PAGE, 0, 0, page);
        /* The bytes themselves: member 7's lie from 60 on, 8's and 9's behind them. */
        static const uint8_t bytes[] = {0, 0, 2, 0, 0, 0, 1, 0, 1, 0, 3, 0, 0, 0, 0, 0, 0, 0, 0, 0, 2, 0, 1, 0, 1, 0, 0, 0, 0, 0};
        memcpy(page + 60, bytes, sizeof bytes);
        TABS(book1, len, PAGE + 1, 0, 0, page);
    }
    row = -1;
    /* Each state alone, of the first and the last member and one between. */
    for (uint16_t m = 1; m <= 64; m = (uint16_t)(m + 21))
        for (uint8_t state = 0; state <= 2; state++) {
            struct call c = state ? empty(m, 9, 1, state) : live(m, 9, 1, 5, 0, 0, 0, 0, 0);
            row = m * 10 + state;
            put_page_of_one(page, m, state);
            TABS(book1, put_book(book1, 7, 2025, 1, &c, 1), PAGE, 0, 0, page);
        }
    row = -1;
    /* Three calls of each member, one of each state; and of every member but the first, but the last. */
    static struct tab tabs[64];
    for (uint16_t low = 1; low <= 2; low++)
        for (uint16_t high = 63; high <= 64; high++) {
            uint16_t n = 0;
            for (uint16_t m = low; m <= high; m++, n++)
                tabs[n] = (struct tab){m, (uint16_t)(3 * n), 3, 1, 1, 1};
            row = low * 100 + high;
            put_page(page, 3u * n, tabs, n);
            TABS(book1, by_members(book1, low, high, 3), PAGE, 0, 0, page);
        }
    row = -1;
    /* One member's calls only, as many as a book may have: 171 live, 171 contested, 170 withdrawn; 667, 667, 666. */
    put_page(page, 512, &(struct tab){64, 0, 512, 171, 171, 170}, 1);
    TABS(book1, by_members(book1, 64, 64, 512), PAGE, 0, 0, page);
    if (versions == 2) {
        put_page(page, 2000, &(struct tab){64, 0, 2000, 667, 667, 666}, 1);
        TABS(book1, by_members(book1, 64, 64, 2000), PAGE, 0, 0, page);
        put_page(page, 2000, &(struct tab){1, 0, 2000, 667, 667, 666}, 1);
        TABS(book1, by_members(book1, 1, 1, 2000), PAGE, 0, 0, page);
        len = numbered(2, book1, 0, 2000);
        put_page_of_live(page, 5, 2000);
        TABS(book1, len, PAGE, 0, 0, page);
        for (uint16_t m = 1; m <= 64; m++) /* 31 of each, 11 live, 10 contested, 10 withdrawn */
            tabs[m - 1] = (struct tab){m, (uint16_t)(31 * (m - 1)), 31, 11, 10, 10};
        put_page(page, 31 * 64, tabs, 64);
        TABS(book1, by_members(book1, 1, 64, 31), PAGE, 0, 0, page);
    }

    /* 9: every length up to the one needed; bytes behind the page stay. */
    len = seven(1, book1);
    put_page(page, 2, &of_seven, 1);
    for (size_t room = 0; room < PAGE; room++) {
        row = (int)room;
        TABS(book1, len, room, 9, 0, NULL);
    }
    row = -1;
    TABS(book1, len, PAGE + 1, 0, 0, page);
    TABS(book1, len, PAGE + 99, 0, 0, page);
    TABS(book1, len, MUCH, 0, 0, page);
    /* The book's refusals, two at a time, and 9 behind them. */
    for (uint32_t v = 1; v <= versions; v++)
        for (int i = 0; i < BOOK_FAULTS; i++)
            for (int j = i; j <= BOOK_FAULTS; j++) {
                len = tens_of(v, book1, 10, 4);
                if (j < BOOK_FAULTS)
                    book_faults[j].make(book1, &len);
                if (i != j)
                    book_faults[i].make(book1, &len);
                row = (int)v * 10000 + i * 100 + j;
                TABS(book1, len, j == BOOK_FAULTS ? PAGE - 1 : PAGE, book_faults[i].no, book_faults[i].place, NULL);
            }
    row = -1;
    len = tens_of(1, book1, 10, 513);
    TABS(book1, len, PAGE, 4, 0, NULL);
    len = tens_of(3, book1, 10, 4);
    TABS(book1, len, PAGE, 3, 0, NULL);
    group("tabs: a page afresh, its refusals, the order of two");
}

/* What a field of the given page is set to, of the book of `seven`: its page fits at every other. */
static void expect_unfit(int line, uint16_t member, int field, uint32_t value, uint32_t no)
{
    size_t l1 = seven(1, book1), l2 = against_seven(1, book2), l = seven_joined(1, joined);
    put_page(given, 2, &of_seven, 1);
    put_page(page, 3, (const struct tab[]){{7, 0, 2, 0, 1, 1}, {9, 2, 1, 1, 0, 0}}, 2);
    put_bytes(given + 10 * (member - 1) + 2 * field, value, 2);
    expect_join_tabs(line, l1, PAGE, l2, l, PAGE, no, no == 0 ? 0 : member, l);
}

#define UNFIT(...) expect_unfit(__LINE__, __VA_ARGS__)

static void join_tabs_cases(void)
{
    size_t l1, l2, l;
    for (uint32_t v = 1; v <= versions; v++)
        for (uint32_t w = 1; w <= versions; w++) {
            row = (int)(10 * v + w);
            l1 = seven(v, book1), l2 = against_seven(w, book2), l = seven_joined(v == 1 && w == 1 ? 1 : 2, joined);
            put_page(given, 2, &of_seven, 1);
            put_page(page, 3, (const struct tab[]){{7, 0, 2, 0, 1, 1}, {9, 2, 1, 1, 0, 0}}, 2);
            JOIN_TABS(l1, PAGE, l2, 112, PAGE, 0, 0, 112);
            JOIN_TABS(l1, PAGE, l2, MUCH, MUCH, 0, 0, l);
            JOIN_TABS(l1, PAGE, l2, 111, PAGE, 9, 0, 0);
            JOIN_TABS(l1, PAGE, l2, 112, PAGE - 1, 9, 0, 0);
            JOIN_TABS(l1, PAGE, l2, 111, PAGE - 1, 9, 0, 0);
            JOIN_TABS(l1, 70, l2, 112, PAGE, 10, 8, 0);
            JOIN_TABS(l1, 69, l2, 112, PAGE, 10, 7, 0);
            put_bytes(given + 10 * 7, 0, 2); /* the index of member 8, which has none, as 0 */
            JOIN_TABS(l1, PAGE, l2, 112, PAGE, 10, 8, 0);
            put_page(given, 2, &of_seven, 1);
            book2[3]++; /* another area */
            JOIN_TABS(l1, 25, l2, 112, PAGE, 10, 3, 0);
            JOIN_TABS(l1, PAGE, l2, 112, PAGE, 7, 0, 0);
        }
    row = -1;
    /* A member between two others: the counts of neither change, and the second one's index does. */
    struct call first[] = {live(3, 1, 1, 5, 0, 0, 0, 0, 0), live(3, 2, 1, 10, 0, 0, 0, 0, 0), live(9, 1, 1, 10, 0, 0, 0, 0, 0)};
    struct call second = live(5, 1, 1, 10, 0, 0, 0, 0, 0), all[] = {first[0], first[1], second, first[2]};
    l1 = put_book(book1, 7, 2025, 1, first, 3), l2 = put_book(book2, 7, 2025, 1, &second, 1), l = put_book(joined, 7, 2025, 1, all, 4);
    put_page(given, 3, (const struct tab[]){{3, 0, 2, 2, 0, 0}, {9, 2, 1, 1, 0, 0}}, 2);
    put_page(page, 4, (const struct tab[]){{3, 0, 2, 2, 0, 0}, {5, 2, 1, 1, 0, 0}, {9, 3, 1, 1, 0, 0}}, 3);
    JOIN_TABS(l1, PAGE, l2, l, PAGE, 0, 0, l);
    /* The other way round: the page is the one call's. */
    memcpy(book1, book2, l2), l1 = l2, l2 = put_book(book2, 7, 2025, 1, first, 3);
    put_page_of_one(given, 5, 0);
    JOIN_TABS(l1, PAGE, l2, l, PAGE, 0, 0, l);

    /* Empty books. */
    l1 = put_book(book1, 7, 2025, 1, NULL, 0), l2 = put_book(book2, 7, 2025, 1, NULL, 0), l = put_book(joined, 7, 2025, 1, NULL, 0);
    memset(given, 0, PAGE), memset(page, 0, PAGE);
    JOIN_TABS(l1, PAGE, l2, 16, PAGE, 0, 0, 16);
    JOIN_TABS(l1, PAGE, l2, 15, PAGE, 9, 0, 0);
    l2 = seven_joined(1, book2), l1 = put_book(book1, 12, 2026, 2, NULL, 0), l = seven_joined(1, joined);
    put_page(page, 3, (const struct tab[]){{7, 0, 2, 0, 1, 1}, {9, 2, 1, 1, 0, 0}}, 2);
    JOIN_TABS(l1, PAGE, l2, l, PAGE, 0, 0, l);
    l1 = seven_joined(1, book1), l2 = put_book(book2, 12, 2026, 2, NULL, 0), memcpy(given, page, PAGE);
    JOIN_TABS(l1, PAGE, l2, l, PAGE, 0, 0, l);
    l2 = seven_joined(1, book2); /* and a book with itself */
    JOIN_TABS(l1, PAGE, l2, l, PAGE, 0, 0, l);

    /* Three calls of each member against three of each that are live at a higher revision: the withdrawn one stays. */
    static struct call calls[3 * 64], stand[3 * 64];
    static struct tab before[64], after[64];
    for (uint16_t m = 1; m <= 64; m++)
        for (uint32_t k = 0; k < 3; k++) {
            calls[3 * (m - 1u) + k] = live(m, k, 2, 10, 0, 0, 0, 0, 0);
            stand[3 * (m - 1u) + k] = k == 2 ? empty(m, k, 1, 2) : calls[3 * (m - 1u) + k];
            before[m - 1] = (struct tab){m, (uint16_t)(3 * (m - 1)), 3, 1, 1, 1};
            after[m - 1] = (struct tab){m, (uint16_t)(3 * (m - 1)), 3, 2, 0, 1};
        }
    l1 = by_members(book1, 1, 64, 3), l2 = put_book(book2, 7, 2025, 1, calls, 3 * 64), l = put_book(joined, 7, 2025, 1, stand, 3 * 64);
    put_page(given, 3 * 64, before, 64), put_page(page, 3 * 64, after, 64);
    JOIN_TABS(l1, PAGE, l2, l, PAGE, 0, 0, l);
    /* One of the members alone comes in, each in turn: of it alone the counts change. */
    for (uint16_t m = 1; m <= 64; m++) {
        row = m;
        l2 = put_book(book2, 7, 2025, 1, calls + 3 * (m - 1), 3), l = by_members(joined, 1, 64, 3);
        for (size_t k = 0; k < 3; k++)
            put_call(rec(joined, 3 * (m - 1u) + k), &stand[3 * (m - 1u) + k]);
        put_page(page, 3 * 64, before, 64), put_bytes(page + 10 * (m - 1) + 4, 2, 2), put_bytes(page + 10 * (m - 1) + 6, 0, 2);
        JOIN_TABS(l1, PAGE, l2, l, PAGE, 0, 0, l);
    }
    row = -1;
    if (versions == 2) {
        /* 2,000 calls of member 64, and one of them or one of member 1 more. */
        l1 = by_members(book1, 64, 64, 2000), l2 = by_members(book2, 64, 64, 1), l = by_members(joined, 64, 64, 2000);
        put_page(given, 2000, &(struct tab){64, 0, 2000, 667, 667, 666}, 1), memcpy(page, given, PAGE);
        JOIN_TABS(l1, PAGE, l2, l, PAGE, 0, 0, l);
        l2 = by_members(book2, 1, 1, 1);
        JOIN_TABS(l1, PAGE, l2, MUCH, PAGE, 8, 0, 0);
        JOIN_TABS(l1, PAGE, l2, 0, 0, 8, 0, 0);
        l1 = by_members(book1, 64, 64, 1999), l = by_members(joined, 1, 1, 1);
        memcpy(joined + l, book1 + 16, 32 * 1999), put_bytes(joined + 10, 2000, 2), joined[4] = 2, l = BOOK_MOST;
        put_page(given, 1999, &(struct tab){64, 0, 1999, 667, 666, 666}, 1);
        put_page(page, 2000, (const struct tab[]){{1, 0, 1, 1, 0, 0}, {64, 1, 1999, 667, 666, 666}}, 2);
        JOIN_TABS(l1, PAGE, l2, l, PAGE, 0, 0, l);
        /* 1,000 even numbers and 1,000 odd ones of one member. */
        static struct call mixed[2][1000];
        for (uint32_t k = 0; k < 2000; k++)
            mixed[k % 2][k / 2] = live(5, k, 1, 10, 0, 0, 0, 0, 0);
        l1 = put_book_of(2, book1, 7, 2025, 1, mixed[0], 1000), l2 = put_book_of(2, book2, 7, 2025, 1, mixed[1], 1000), l = numbered(2, joined, 0, 2000);
        put_page_of_live(given, 5, 1000), put_page_of_live(page, 5, 2000);
        JOIN_TABS(l1, PAGE, l2, l, PAGE, 0, 0, l);
    }
    group("join_tabs: the cases");
}

/* 10, and at which member. */
static void join_tabs_fit(void)
{
    size_t l1 = seven(1, book1), l2 = against_seven(1, book2), l = seven_joined(1, joined);
    put_page(given, 2, &of_seven, 1);
    put_page(page, 3, (const struct tab[]){{7, 0, 2, 0, 1, 1}, {9, 2, 1, 1, 0, 0}}, 2);
    memset(given + PAGE, 0xcc, 64);
    /* A page of any length; what lies behind 640 bytes is not looked at. */
    for (size_t n = 0; n <= PAGE + 64; n++) {
        row = (int)n;
        JOIN_TABS(l1, n, l2, l, PAGE, n < PAGE ? 10 : 0, n < PAGE ? n / 10 + 1 : 0, l);
    }
    /* Any byte another, by a little and by much. */
    for (size_t i = 0; i < PAGE; i++)
        for (int by = 1; by <= 3; by++) {
            row = (int)i * 10 + by;
            given[i] ^= (uint8_t)(by == 1 ? 1 : by == 2 ? 0x80 : 0xff);
            JOIN_TABS(l1, PAGE, l2, l, PAGE, 10, i / 10 + 1, 0);
            given[i] ^= (uint8_t)(by == 1 ? 1 : by == 2 ? 0x80 : 0xff);
        }
    row = -1;
    JOIN_TABS(l1, PAGE, l2, l, PAGE, 0, 0, l);
    /* A field at a time, of members with and without records, also such as another reckoning might have. */
    enum { INDEX, COUNT, LIVE, CONTESTED, WITHDRAWN };
    UNFIT(7, INDEX, 0, 0);
    UNFIT(7, INDEX, 1, 10);
    UNFIT(7, INDEX, 2, 10);
    UNFIT(7, INDEX, 16, 10);
    UNFIT(7, COUNT, 1, 10);
    UNFIT(7, COUNT, 3, 10);
    UNFIT(7, LIVE, 2, 10);
    UNFIT(7, CONTESTED, 1, 10);
    UNFIT(7, WITHDRAWN, 0, 10);
    UNFIT(7, WITHDRAWN, 2, 10);
    for (uint16_t m = 1; m <= 64; m++) {
        row = m;
        if (m == 7)
            continue;
        UNFIT(m, INDEX, 2, 0);
        UNFIT(m, INDEX, 0, 10);
        UNFIT(m, INDEX, 3, 10);
        UNFIT(m, INDEX, 2 + 256, 10);
        for (int field = COUNT; field <= WITHDRAWN; field++) {
            UNFIT(m, field, 1, 10);
            UNFIT(m, field, 65535, 10);
        }
    }
    row = -1;
    /* Fields that would still add up: a live one told as contested, one told twice. */
    l1 = seven(1, book1), l2 = against_seven(1, book2);
    put_page(given, 2, &(struct tab){7, 0, 2, 0, 1, 1}, 1);
    JOIN_TABS(l1, PAGE, l2, l, PAGE, 10, 7, 0);
    put_page(given, 2, &(struct tab){7, 0, 2, 1, 1, 0}, 1);
    JOIN_TABS(l1, PAGE, l2, l, PAGE, 10, 7, 0);
    put_page(given, 3, &(struct tab){7, 0, 3, 2, 0, 1}, 1);
    JOIN_TABS(l1, PAGE, l2, l, PAGE, 10, 1, 0);
    /* The page of the incoming book, of the joined one, of an empty one, of a book with the same counts for another member. */
    put_page(given, 3, (const struct tab[]){{7, 0, 2, 2, 0, 0}, {9, 2, 1, 1, 0, 0}}, 2);
    JOIN_TABS(l1, PAGE, l2, l, PAGE, 10, 1, 0);
    put_page(given, 3, (const struct tab[]){{7, 0, 2, 0, 1, 1}, {9, 2, 1, 1, 0, 0}}, 2);
    JOIN_TABS(l1, PAGE, l2, l, PAGE, 10, 1, 0);
    memset(given, 0, PAGE);
    JOIN_TABS(l1, PAGE, l2, l, PAGE, 10, 1, 0);
    put_page(given, 2, &(struct tab){8, 0, 2, 1, 0, 1}, 1);
    JOIN_TABS(l1, PAGE, l2, l, PAGE, 10, 7, 0);
    put_page(given, 2, &(struct tab){6, 0, 2, 1, 0, 1}, 1);
    JOIN_TABS(l1, PAGE, l2, l, PAGE, 10, 6, 0);
    /* Nor is a page of an empty book fitting that has anything but zeros. */
    l1 = put_book(book1, 12, 2026, 2, NULL, 0);
    JOIN_TABS(l1, PAGE, l2, l, PAGE, 10, 1, 0);
    /* Two members, or a member and the length: the lowest. */
    l1 = seven(1, book1);
    for (uint16_t m = 1; m <= 64; m++)
        for (uint16_t n = m; n <= 64; n = (uint16_t)(n + 9)) {
            row = m * 100 + n;
            put_page(given, 2, &of_seven, 1);
            given[10 * (n - 1) + 8]++, given[10 * (m - 1)]++;
            JOIN_TABS(l1, PAGE, l2, l, PAGE, 10, m, 0);
            put_page(given, 2, &of_seven, 1);
            given[10 * (m - 1) + 3]++;
            JOIN_TABS(l1, 10 * (size_t)n - 1, l2, l, PAGE, 10, m, 0);
            put_page(given, 2, &of_seven, 1);
            given[10 * (n - 1) + 9]++;
            JOIN_TABS(l1, 10 * (size_t)m - 1, l2, l, PAGE, 10, m, 0);
        }
    row = -1;
    group("join_tabs: a page of any length, wrong in any byte: 10");
}

static void join_tabs_order(void)
{
    enum { TEN = 2 * BOOK_FAULTS, TEN_SHORT, SEVEN, EIGHT, NINE, NINE_TABS, ALL };
    for (uint32_t pair = 0; pair < versions * versions; pair++)
        for (int i = 0; i < ALL; i++)
            for (int j = i; j < ALL; j++) {
#define MADE(f) (i == (f) || j == (f))
                uint32_t v = 1 + pair / 2, w = 1 + pair % 2;
                if (MADE(EIGHT) && v == 1 && w == 1) /* these have at most 1,024 keys together */
                    continue;
                uint32_t n = !MADE(EIGHT) ? 4 : v == 1 ? 512 : w == 1 ? 1489 : 1001;
                size_t l1 = tens_of(v, book1, 10, n), l2 = tens_of(w, book2, 15, !MADE(EIGHT) ? 4 : w == 1 ? 512 : v == 1 ? 1489 : 1000);
                put_page_of_live(given, 3, n);
                if (MADE(TEN))
                    given[10 * 40 + 9] = 1; /* member 41's withdrawn */
                if (MADE(SEVEN))
                    book2[3]++;
                if (j < TEN && j >= BOOK_FAULTS)
                    book_faults[j - BOOK_FAULTS].make(book2, &l2);
                if (i < TEN && i >= BOOK_FAULTS && i != j)
                    book_faults[i - BOOK_FAULTS].make(book2, &l2);
                if (j < BOOK_FAULTS)
                    book_faults[j].make(book1, &l1);
                if (i < BOOK_FAULTS && i != j)
                    book_faults[i].make(book1, &l1);
                row = (int)pair * 10000 + i * 100 + j;
                const struct book_fault *fault = i < TEN ? &book_faults[i % BOOK_FAULTS] : NULL;
                JOIN_TABS(l1, MADE(TEN_SHORT) ? 500 : PAGE, l2, MADE(NINE) ? 100 : MADE(EIGHT) ? MUCH : 1000, MADE(NINE_TABS) ? PAGE - 1 : PAGE,
                          fault ? fault->no + (i < BOOK_FAULTS ? 0 : 20) : i <= TEN_SHORT ? 10 : i == SEVEN ? 7 : i == EIGHT ? 8 : 9,
                          fault ? fault->place : i == TEN ? 41 : i == TEN_SHORT ? 51 : 0, 0);
#undef MADE
            }
    row = -1;
    /* Both rooms around their ends: either one that is too short is 9. */
    static const size_t rooms[] = {0, 1, 15, 16, 48, 111, 112, 113, 200}, page_rooms[] = {0, 1, 10, 320, 630, 638, 639, 640, 641, 700};
    size_t l1 = seven(1, book1), l2 = against_seven(1, book2), l = seven_joined(1, joined);
    put_page(given, 2, &of_seven, 1);
    put_page(page, 3, (const struct tab[]){{7, 0, 2, 0, 1, 1}, {9, 2, 1, 1, 0, 0}}, 2);
    for (size_t i = 0; i < ROWS(rooms); i++)
        for (size_t j = 0; j < ROWS(page_rooms); j++) {
            row = (int)(i * 100 + j);
            JOIN_TABS(l1, PAGE, l2, rooms[i], page_rooms[j], rooms[i] < 112 || page_rooms[j] < PAGE ? 9 : 0, 0, l);
        }
    for (size_t room = 0; room < PAGE; room++) {
        row = (int)room;
        JOIN_TABS(l1, PAGE, l2, l, room, 9, 0, 0);
    }
    row = -1;
    /* 7 for each of the three alone, behind 10 and before 9. */
    static const uint8_t at[] = {3, 6, 8};
    for (size_t i = 0; i < ROWS(at); i++) {
        row = (int)i;
        l2 = against_seven(1, book2);
        book2[at[i]]++;
        JOIN_TABS(l1, PAGE, l2, l, PAGE, 7, 0, 0);
        JOIN_TABS(l1, PAGE, l2, 0, 0, 7, 0, 0);
        JOIN_TABS(l1, PAGE - 1, l2, l, PAGE, 10, 64, 0);
        JOIN_TABS(l1, 0, l2, 0, 0, 10, 1, 0);
    }
    row = -1;
    /* Nothing is asked of a page of the second book: it has none, and one that fits it is of no use. */
    l1 = against_seven(1, book1), l2 = seven(1, book2), l = seven_joined(1, joined);
    JOIN_TABS(l1, PAGE, l2, l, PAGE, 10, 1, 0);
    put_page(given, 3, (const struct tab[]){{7, 0, 2, 2, 0, 0}, {9, 2, 1, 1, 0, 0}}, 2);
    JOIN_TABS(l1, PAGE, l2, l, PAGE, 0, 0, l);
    group("join_tabs: every number, the order of two, both rooms");
}

/* A book and its page, joined two at a time in every order and grouping: each node's page is its book's own, made afresh, and the last one is `page`. */
struct paged { const uint8_t *book, *tabs; size_t len; };

static void every_paged_tree(int line, const struct paged *items, size_t n)
{
    enum { MOST = 4 };
    static uint8_t out[MOST + 1][16 + 32 * 64], out_tabs[MOST + 1][PAGE], fresh[PAGE];
    struct paged left[MOST];
    if (n == 1) {
        begin(line, "a tree of joins with pages");
        want("the last page", (uint64_t)(memcmp(items[0].tabs, page, PAGE) == 0), 1);
        end();
        return;
    }
    for (size_t i = 0; i < n; i++)
        for (size_t j = 0; j < n; j++) {
            if (i == j)
                continue;
            begin(line, "a node of a tree with pages");
            want("number", nwb_join_tabs(items[i].book, items[i].len, items[i].tabs, PAGE, items[j].book, items[j].len, out[n], sizeof out[n],
                                         out_tabs[n], PAGE, CELL(0), CELL(1), CELL(2)), 0);
            size_t len = (size_t)*CELL(1), m = 0;
            want("length", (uint64_t)(len <= sizeof out[n]), 1);
            if (good) {
                want("number of the page afresh", nwb_tabs(out[n], len, fresh, PAGE, CELL(0)), 0);
                want("a page that is the one made afresh", (uint64_t)(memcmp(out_tabs[n], fresh, PAGE) == 0), 1);
            }
            end();
            if (!good)
                continue;
            for (size_t k = 0; k < n; k++)
                if (k != i && k != j)
                    left[m++] = items[k];
            left[m++] = (struct paged){out[n], out_tabs[n], len};
            every_paged_tree(line, left, m);
        }
}

/* Pages through chains and trees of joins. */
static void join_tabs_trees(void)
{
    static uint8_t books[6][16 + 32 * 8], pages[6][PAGE];
    struct paged items[4];
    placed_now = ALIGNED;
    /* Four books over members 1, 7, 8 and 64, every state and a struck key among them; each page worked out by hand. */
    struct call a[] = {live(1, 1, 1, 5, 0, 0, 0, 0, 0), live(7, 1, 1, 10, 0, 0, 0, 0, 0), empty(64, 3, 1, 1)};
    struct call b[] = {live(7, 1, 1, 10, 5, 0, 0, 0, 0), live(7, 2, 4, 10, 0, 0, 0, 0, 0), live(64, 3, 2, 10, 0, 0, 0, 0, 0)};
    struct call c[] = {empty(1, 1, 1, 2), empty(7, 2, 3, 1), live(8, 1, 1, 10, 0, 0, 0, 0, 0)};
    struct call d[] = {live(1, 1, 9, 10, 0, 0, 0, 0, 0), live(1, 2, 1, 10, 0, 0, 0, 0, 0), empty(64, 3, 1, 1), empty(64, 4, 1, 2)};
    items[0] = (struct paged){books[0], pages[0], put_book(books[0], 7, 2025, 1, a, 3)};
    put_page(pages[0], 3, (const struct tab[]){{1, 0, 1, 1, 0, 0}, {7, 1, 1, 1, 0, 0}, {64, 2, 1, 0, 1, 0}}, 3);
    items[1] = (struct paged){books[1], pages[1], put_book(books[1], 7, 2025, 1, b, 3)};
    put_page(pages[1], 3, (const struct tab[]){{7, 0, 2, 2, 0, 0}, {64, 2, 1, 1, 0, 0}}, 2);
    items[2] = (struct paged){books[2], pages[2], put_book(books[2], 7, 2025, 1, c, 3)};
    put_page(pages[2], 3, (const struct tab[]){{1, 0, 1, 0, 0, 1}, {7, 1, 1, 0, 1, 0}, {8, 2, 1, 1, 0, 0}}, 3);
    items[3] = (struct paged){books[3], pages[3], put_book(books[3], 7, 2025, 1, d, 4)};
    put_page(pages[3], 4, (const struct tab[]){{1, 0, 2, 2, 0, 0}, {64, 2, 2, 0, 1, 1}}, 2);
    /* 1: call 1 withdrawn, 2 live. 7: call 1 struck, 2 live at 4. 8: one. 64: call 3 live at 2, 4 withdrawn. */
    put_page(page, 7, (const struct tab[]){{1, 0, 2, 1, 0, 1}, {7, 2, 2, 1, 1, 0}, {8, 4, 1, 1, 0, 0}, {64, 5, 2, 1, 0, 1}}, 4);
    every_paged_tree(__LINE__, items, 4);
    put_page(page, 5, (const struct tab[]){{1, 0, 1, 0, 0, 1}, {7, 1, 2, 1, 1, 0}, {8, 3, 1, 1, 0, 0}, {64, 4, 1, 1, 0, 0}}, 4);
    every_paged_tree(__LINE__, items, 3);

    /* The example month, book by book in the order of their names, from the first one on: each page as it is brought forward. */
    static const struct { size_t n; struct call calls[6]; } month[] = {
        {5, {{1, 1, 0, 1, 1, 0, 360, 0, 0, 0}, {1, 1, 0, 2, 1, 1440, 360, 0, 0, 0}, {1, 1, 0, 3, 1, 2880, 360, 0, 0, 0}, {1, 2, 0, 4, 1, 4080, 240, 290000, 0, 0},
             {1, 3, 0, 9, 2, 21600, 2880, 0, 0, 0}}},
        {2, {{3, 10, 0, 4, 1, 20000, 0, 0, 0, 0}, {4, 8, 0, 7, 1, 18000, 2, 0, 8800, 0}}},
        {6, {{2, 3, 0, 1, 1, 7200, 900, 0, 0, 0}, {2, 2, 0, 2, 1, 9000, 480, 0, 0, 0}, {2, 6, 0, 3, 1, 0, 0, 0, 9950, 0}, {3, 5, 0, 1, 1, 0, 0, 0, 0, 0},
             {3, 8, 0, 2, 1, 12345, 1, 250000, 400000, 0}, {3, 8, 0, 3, 1, 15000, 1, -90000, 400000, 0}}},
        {3, {{1, 0, 2, 9, 2, 0, 0, 0, 0, 0}, {1, 4, 0, 10, 1, 23040, 4400, 0, 0, 0}, {4, 8, 0, 7, 2, 18000, 2, 0, 8960, 0}}},
        {1, {{1, 3, 0, 9, 1, 21600, 2700, 0, 0, 0}}},
        {4, {{4, 8, 0, 7, 1, 18000, 2, 0, 9120, 0}, {4, 8, 0, 8, 1, 30000, 2, 0, 8450, 0}, {5, 7, 0, 1, 1, 0, 0, 0, 6400, 0}, {5, 9, 0, 2, 1, 0, 40000, 0, 9960, 9900}}}};
    static const struct { uint16_t all; size_t n; struct tab tabs[5]; } after[] = {
        {5, 1, {{1, 0, 5, 5, 0, 0}}},
        {7, 3, {{1, 0, 5, 5, 0, 0}, {3, 5, 1, 1, 0, 0}, {4, 6, 1, 1, 0, 0}}},
        {13, 4, {{1, 0, 5, 5, 0, 0}, {2, 5, 3, 3, 0, 0}, {3, 8, 4, 4, 0, 0}, {4, 12, 1, 1, 0, 0}}},
        {14, 4, {{1, 0, 6, 5, 0, 1}, {2, 6, 3, 3, 0, 0}, {3, 9, 4, 4, 0, 0}, {4, 13, 1, 1, 0, 0}}},
        {14, 4, {{1, 0, 6, 5, 0, 1}, {2, 6, 3, 3, 0, 0}, {3, 9, 4, 4, 0, 0}, {4, 13, 1, 1, 0, 0}}},
        {17, 5, {{1, 0, 6, 5, 0, 1}, {2, 6, 3, 3, 0, 0}, {3, 9, 4, 4, 0, 0}, {4, 13, 2, 2, 0, 0}, {5, 15, 2, 2, 0, 0}}}};
    size_t len = put_book(book1, 12, 2026, 2, month[0].calls, month[0].n);
    put_page(page, after[0].all, after[0].tabs, after[0].n);
    TABS(book1, len, PAGE, 0, 0, page);
    memcpy(given, page, PAGE);
    placed_now = ALIGNED;
    for (size_t i = 1; i < ROWS(month); i++) {
        size_t l2 = put_book(book2, 12, 2026, 2, month[i].calls, month[i].n);
        uint8_t out_tabs[PAGE];
        row = (int)i;
        put_page(page, after[i].all, after[i].tabs, after[i].n);
        begin(__LINE__, "the example month with its page");
        want("number", nwb_join_tabs(book1, len, given, PAGE, book2, l2, joined, sizeof joined, out_tabs, PAGE, CELL(0), CELL(1), CELL(2)), 0);
        want("turns", *CELL(2), after[i].all);
        want("page", (uint64_t)(memcmp(out_tabs, page, PAGE) == 0), 1);
        end();
        len = 16 + 32 * (size_t)after[i].all;
        memcpy(book1, joined, len);
        memcpy(given, page, PAGE);
    }
    row = -1;
    TABS(book1, len, PAGE, 0, 0, page);
    group("pages through chains and trees of joins");
}

/* ---- asking for a key ---- */

static void find(void)
{
    /* (participant, number) and what stands of it */
    struct call a[] = {live(1, 1, 1, 5, 0, 0, 0, 0, 0), live(2, 1, 3, 6, 0, 0, 0, 5, 0), live(2, 2, 3, 6, 0, 0, 0, 5, 0),
                       live(2, 3, 3, 6, 0, 0, 0, 5, 0), live(2, 4, 4, 6, 0, 0, 0, 5, 0), live(2, 5, 9, 6, 0, 0, 0, 5, 0),
                       empty(2, 6, 1, 2), empty(2, 7, 2, 2), empty(2, 8, 3, 2), empty(2, 9, 3, 1), live(2, 10, 3, 10, 0, 0, 0, 0, 0),
                       empty(2, 11, 3, 1), live(64, 0xffffffff, 1, 5, 0, 0, 0, 0, 0)};
    struct call b[] = {live(1, 2, 1, 5, 0, 0, 0, 0, 0), live(2, 1, 3, 6, 0, 0, 0, 5, 0), live(2, 2, 3, 6, 0, 0, 0, 6, 0),
                       live(2, 3, 4, 6, 0, 0, 0, 5, 0), live(2, 4, 3, 6, 0, 0, 0, 6, 0), empty(2, 5, 1, 2),
                       live(2, 6, 9, 6, 0, 0, 0, 5, 0), empty(2, 7, 3, 2), empty(2, 8, 3, 2), live(2, 9, 3, 10, 0, 0, 0, 0, 0), empty(2, 10, 3, 1),
                       empty(2, 11, 3, 1)};
    static const struct { uint16_t participant; uint32_t number, answer; uint64_t record; } rows[] = {
        {1, 1, 1, 0},            /* in the first only */
        {1, 2, 2, 0},            /* in the second only */
        {2, 1, 1, 1},            /* equal: the first */
        {2, 2, 0, 0},            /* unequal at one revision: in neither */
        {2, 3, 2, 3}, {2, 4, 1, 4}, {2, 5, 2, 5}, {2, 6, 1, 6}, {2, 7, 2, 7}, {2, 8, 1, 8},
        {2, 9, 1, 9}, {2, 10, 2, 10}, {2, 11, 1, 11}, /* the contested one, from the book that has it */
        {64, 0xffffffff, 1, 12}, {1, 3, 0, 0}, {1, 0, 0, 0}, {3, 1, 0, 0}, {64, 0xfffffffe, 0, 0},
        {0, 1, 0, 0}, {65, 1, 0, 0}, {257, 1, 0, 0}, {65535, 0xffffffff, 0, 0}};
    size_t la = 0, lb;
    for (uint32_t v = 1; v <= versions; v++)
        for (uint32_t w = 1; w <= versions; w++)
            for (size_t i = 0; i < ROWS(rows); i++) {
                la = put_book_of(v, book1, 7, 2025, 1, a, ROWS(a)), lb = put_book_of(w, book2, 7, 2025, 1, b, ROWS(b));
                row = (int)(v * 1000 + w * 100 + i);
                FIND(book1, la, book2, lb, rows[i].participant, rows[i].number, rows[i].answer, rows[i].answer ? 16 + 32 * rows[i].record : 0);
            }
    row = -1;
    put_book(joined, 7, 2025, 1, NULL, 0);
    FIND(book1, la, joined, 16, 2, 11, 1, 16 + 32 * 11);
    FIND(joined, 16, book1, la, 2, 11, 2, 16 + 32 * 11);
    FIND(joined, 16, joined, 16, 2, 11, 0, 0);
    FIND(book1, la, book1, la, 2, 2, 1, 16 + 32 * 2);

    /* Where joining would refuse with 1 to 7 or 21 to 26: nothing is found, though the key lies before the fault. */
    for (int i = 0; i < BOOK_FAULTS; i++) {
        row = i;
        size_t l1 = tens(book1, 10, 5), l2 = tens(book2, 10, 5);
        FIND(book1, l1, book2, l2, 3, 50, 1, 16 + 32 * 4);
        book_faults[i].make(book1, &l1);
        FIND(book1, l1, book2, l2, 3, 50, 0, 0);
        FIND(book1, l1, book2, l2, 3, 10, 0, 0);
        FIND(book2, l2, book1, l1, 3, 50, 0, 0);
        FIND(book2, l2, book1, l1, 3, 10, 0, 0);
    }
    row = -1;
    size_t l1 = tens(book1, 10, 2), l2 = tens(book2, 10, 2);
    book2[3]++;
    FIND(book1, l1, book2, l2, 3, 10, 0, 0);
    book2[3]--, book2[6]++;
    FIND(book1, l1, book2, l2, 3, 10, 0, 0);
    book2[6]--, book2[8]++;
    FIND(book1, l1, book2, l2, 3, 10, 0, 0);
    /* 8 plays no part. */
    l1 = tens(book1, 10, 512), l2 = tens(book2, 15, 512);
    FIND(book1, l1, book2, l2, 3, 10 + 10 * 511, 1, 16 + 32 * 511);
    FIND(book1, l1, book2, l2, 3, 15 + 10 * 511, 2, 16 + 32 * 511);
    FIND(book1, l1, book2, l2, 3, 15, 2, 16);
    FIND(book1, l1, book2, l2, 3, 16, 0, 0);
    if (versions == 2) {
        l1 = tens_of(2, book1, 10, 2000), l2 = tens_of(2, book2, 15, 2000);
        FIND(book1, l1, book2, l2, 3, 10, 1, 16);
        FIND(book1, l1, book2, l2, 3, 10 + 10 * 1999, 1, 16 + 32 * 1999);
        FIND(book1, l1, book2, l2, 3, 15 + 10 * 1999, 2, 16 + 32 * 1999);
        FIND(book1, l1, book2, l2, 3, 10 + 10 * 1000, 1, 16 + 32 * 1000);
        FIND(book1, l1, book2, l2, 3, 10 + 10 * 2000, 0, 0);
        l1 = tens_of(1, book1, 10, 512); /* beside a book of version 1: 2,512 keys */
        FIND(book1, l1, book2, l2, 3, 10 + 10 * 511, 1, 16 + 32 * 511);
        FIND(book2, l2, book1, l1, 3, 10 + 10 * 511, 2, 16 + 32 * 511);
        FIND(book2, l2, book1, l1, 3, 15 + 10 * 1999, 1, 16 + 32 * 1999);
        FIND(book2, l2, book1, l1, 3, 10 + 10 * 512, 0, 0);
        FIND(book2, l2, book2, l2, 3, 15 + 10 * 1999, 1, 16 + 32 * 1999);
    }
    group("asking for one key in two books");
}

/* ---- scoring: refusals ---- */

static void expect_number(int line, uint8_t kind, uint32_t rated, const struct call *calls, size_t n, uint32_t no, uint64_t place)
{
    size_t len = put_book(book1, 7, 2025, 1, calls, n);
    expect_score(line, 1, kind, rated, book1, len, series, 2976, no, place, 0, 0);
}
#define NUMBER(...) expect_number(__LINE__, __VA_ARGS__)

static void score_refusals(void)
{
    output(0);
    size_t len = put_book(book1, 7, 2025, 1, NULL, 0);
    static const struct { uint16_t participant; uint8_t kind; uint32_t rated, no; } lines[] = {
        {1, 1, 1, 0}, {64, 8, 4000000, 0}, {0, 1, 1, 10}, {65, 1, 1, 10}, {257, 1, 1, 10}, {1, 0, 1, 10}, {1, 9, 1, 10}, {1, 255, 1, 10},
        {1, 1, 0, 10}, {1, 1, 4000001, 10}, {1, 1, 0xffffffff, 10}};
    for (size_t i = 0; i < ROWS(lines); i++) {
        row = (int)i;
        SCORE(lines[i].participant, lines[i].kind, lines[i].rated, book1, len, series, 2976, lines[i].no, 0, 0, 0);
    }
    row = -1;
    SCORE(1, 1, 1, book1, len, series, 0, 11, 65535, 0, 0);
    SCORE(1, 1, 1, book1, len, series, 1, 11, 65535, 0, 0);
    series[2975] = 5000000;
    SCORE(1, 1, 1, book1, len, series, 2976, 0, 0, 0, 0);
    series[2975] = 5000001;
    SCORE(1, 1, 1, book1, len, series, 2976, 11, 2975, 0, 0);
    series[1000] = 0xffffffff;
    SCORE(1, 1, 1, book1, len, series, 2976, 11, 1000, 0, 0);
    series[0] = 0x80000000;
    SCORE(1, 1, 1, book1, len, series, 2976, 11, 0, 0, 0);
    SCORE(1, 1, 1, book1, len, series, 2977, 11, 65535, 0, 0);
    output(0);

    /* 12: which service is open to which kind; rows are services 1 to 10, columns kinds 1 to 8. */
    static const char *const open[] = {"1.......", "1.......", "123.....", "1.......", "12345678", "123..678", "12345678", "12345678", "12345678", "12345678"};
    for (uint8_t service = 1; service <= 10; service++)
        for (uint8_t kind = 1; kind <= 8; kind++) {
            struct call c = live(1, 1, 1, service, 0, 0, 0, 0, 0);
            if (service <= 4)
                c.minutes = 15;
            if (service == 2)
                c.a = 1;
            if (service == 10)
                c.start = 9;
            row = service * 10 + kind;
            if (open[service - 1][kind - 1] == '.')
                NUMBER(kind, 10, &c, 1, 12, 0);
            else { /* whatever it pays, it is no refusal: with a contested call behind, that one is reached */
                struct call two[] = {c, empty(1, 2, 1, 1)};
                NUMBER(kind, 10, two, 2, 14, 1);
            }
        }
    row = -1;
    static const struct { uint8_t kind; int32_t a; uint32_t no; } reserve[] = {
        {1, 0, 12}, {1, 1, 14}, {1, 10, 14}, {1, 11, 12}, {1, 4000000, 12}, {2, 0, 14}, {2, 1, 12}, {3, 0, 14}, {3, 10, 12}, {4, 0, 12}, {8, 0, 12}};
    for (size_t i = 0; i < ROWS(reserve); i++) {
        struct call two[] = {live(1, 1, 1, 2, 0, 15, reserve[i].a, 0, 0), empty(1, 2, 1, 1)};
        row = (int)i;
        NUMBER(reserve[i].kind, 10, two, 2, reserve[i].no, reserve[i].no == 12 ? 0 : 1);
    }
    static const struct { int32_t a; uint32_t b, no; } event[] = {{0, 10000, 14}, {0, 10001, 12}, {1, 0, 12}, {-1, 0, 12}, {0, 0, 14}};
    for (size_t i = 0; i < ROWS(event); i++) {
        struct call two[] = {live(1, 1, 1, 8, 0, 15, event[i].a, event[i].b, 1), empty(1, 2, 1, 1)};
        row = (int)i;
        NUMBER(4, 10, two, 2, event[i].no, event[i].no == 12 ? 0 : 1);
        NUMBER(5, 10, two, 2, event[i].no, event[i].no == 12 ? 0 : 1);
        NUMBER(6, 10, two, 2, 14, 1);
    }
    row = -1;

    /* 13: overlap with any earlier one, whatever lies between; meeting is none, on either side. */
    static const struct { uint16_t start, minutes; int overlaps; } windows[] = {
        {300, 60, 1}, {240, 60, 0}, {360, 60, 0}, {255, 60, 1}, {345, 15, 1}, {315, 15, 1}, {0, 44640, 1}, {225, 15, 0}, {0, 15, 0}, {240, 75, 1}};
    for (uint8_t service = 1; service <= 4; service++)
        for (size_t i = 0; i < ROWS(windows); i++) {
            int32_t a = service == 2 ? 5 : 0;
            struct call four[] = {live(1, 1, 1, service, 300, 60, a, 0, 0), live(1, 2, 1, service, 15000, 15, a, 0, 0),
                                  live(1, 3, 1, service, windows[i].start, windows[i].minutes, a, 0, 0), empty(1, 4, 1, 1)};
            row = service * 100 + (int)i;
            NUMBER(1, 10, four, 4, windows[i].overlaps ? 13 : 14, windows[i].overlaps ? 2 : 3);
            four[2].participant = 2; /* another member's does not count, nor does another service's */
            four[3] = empty(1, 3, 1, 1);
            struct call others[] = {four[0], four[1], four[3], four[2]};
            NUMBER(1, 10, others, 4, 14, 2);
            four[2].participant = 1;
            four[2].service = service == 1 ? 3 : service == 3 ? 4 : 1;
            four[2].a = 0;
            four[3] = empty(1, 4, 1, 1);
            NUMBER(1, 10, four, 4, 14, 3);
        }
    /* The later of two earlier ones comes first: what starts behind the other's end may still meet it. */
    static const struct { uint16_t start; int overlaps; } late[] = {{15045, 1}, {15000, 1}, {14985, 1}, {15060, 0}, {14970, 0}, {360, 0}, {345, 1}};
    for (uint8_t service = 1; service <= 4; service++)
        for (size_t i = 0; i < ROWS(late); i++) {
            int32_t a = service == 2 ? 5 : 0;
            struct call four[] = {live(1, 1, 1, service, 15000, 60, a, 0, 0), live(1, 2, 1, service, 300, 60, a, 0, 0),
                                  live(1, 3, 1, service, late[i].start, 30, a, 0, 0), empty(1, 4, 1, 1)};
            row = service * 100 + (int)i;
            NUMBER(1, 10, four, 4, late[i].overlaps ? 13 : 14, late[i].overlaps ? 2 : 3);
        }
    for (uint8_t service = 5; service <= 10; service++) {
        struct call three[] = {live(1, 1, 1, service, 0, 0, 0, 0, 0), live(1, 2, 1, service, 0, 0, 0, 0, 0), empty(1, 3, 1, 1)};
        int once = service != 8 && service != 10;
        row = service;
        NUMBER(1, 10, three, 3, once ? 13 : 14, once ? 1 : 2);
        three[0] = empty(1, 1, 1, 2); /* a withdrawn one does not count */
        NUMBER(1, 10, three, 3, 14, 2);
    }
    row = -1;

    /* 14, 12, 13 in turn: by record first; in one record 12 before 13 (a contested one has no service to meet with). */
    struct call turn[] = {live(1, 1, 1, 2, 0, 30, 5, 0, 0), live(1, 2, 1, 2, 15, 30, 0, 0, 0), empty(1, 3, 1, 1)};
    NUMBER(1, 10, turn, 3, 12, 1);
    turn[1].a = 5;
    NUMBER(1, 10, turn, 3, 13, 1);
    turn[1] = empty(1, 2, 9, 2);
    NUMBER(1, 10, turn, 3, 14, 2);
    turn[0] = empty(1, 1, 1, 1);
    NUMBER(1, 10, turn, 3, 14, 0);
    /* A call not paid still stands in the way. */
    struct call zero[] = {live(1, 1, 1, 3, 0, 5000, 0, 0, 0), live(1, 2, 1, 3, 4999, 1, 0, 0, 0)};
    NUMBER(1, 10, zero, 2, 13, 1);

    /* Others' records are skipped, contested ones too, and places count in the whole book. */
    struct call mixed[] = {empty(1, 1, 1, 1), live(1, 2, 1, 1, 0, 15, 0, 0, 0), live(1, 3, 1, 1, 0, 15, 0, 0, 0),
                           live(2, 1, 1, 10, 0, 0, 0, 0, 0), empty(2, 2, 1, 2), live(3, 1, 1, 5, 0, 0, 0, 0, 0), live(3, 9, 1, 5, 0, 0, 0, 0, 0)};
    len = put_book(book1, 7, 2025, 1, mixed, 7);
    SCORE(2, 4, 10, book1, len, series, 2976, 0, 0, 24000000, 400);
    SCORE(3, 4, 10, book1, len, series, 2976, 13, 6, 0, 0);
    SCORE(1, 4, 10, book1, len, series, 2976, 14, 0, 0, 0);
    SCORE(64, 4, 10, book1, len, series, 2976, 0, 0, 0, 0);
    group("scoring: 10 to 14 by field, kind and place");
}

static void score_order(void)
{
    enum { TEN, BOOK, LENGTH = BOOK + BOOK_FAULTS, VALUE_5, VALUE_7, R14_0, R12_1, R13_2, R14_3, ALL };
    for (int i = 0; i < ALL; i++)
        for (int j = i; j < ALL; j++) {
            uint32_t v = versions == 2 ? 1 + (uint32_t)(i + j) % 2 : 1; /* of either version in turn */
            struct call calls[] = {live(3, 10, 1, 1, 0, 60, 0, 0, 0), live(3, 20, 1, 5, 0, 0, 0, 0, 0), live(3, 30, 1, 10, 0, 0, 0, 0, 0),
                                   live(3, 40, 1, 4, 0, 60, 0, 0, 0)};
#define MADE(f) (i == (f) || j == (f))
            if (MADE(R14_0))
                calls[0] = empty(3, 10, 1, 1);
            if (MADE(R12_1))
                calls[1] = live(3, 20, 1, 2, 0, 15, 0, 0, 0);
            if (MADE(R13_2))
                calls[2] = live(3, 30, 1, 1, 45, 30, 0, 0, 0);
            if (MADE(R14_3))
                calls[3] = empty(3, 40, 1, 1);
            size_t len = put_book_of(v, book1, 7, 2025, 1, calls, 4);
            if (j >= BOOK && j < LENGTH)
                book_faults[j - BOOK].make(book1, &len);
            if (i >= BOOK && i < LENGTH && i != j)
                book_faults[i - BOOK].make(book1, &len);
            output(0);
            if (MADE(VALUE_5))
                series[5] = 5000001;
            if (MADE(VALUE_7))
                series[7] = 5000001;
            uint32_t no = i == TEN ? 10 : i < LENGTH ? book_faults[i - BOOK].no : i <= VALUE_7 ? 11 : i == R12_1 ? 12 : i == R13_2 ? 13 : 14;
            uint64_t place = i == TEN ? 0 : i < LENGTH ? book_faults[i - BOOK].place : i == LENGTH ? 65535 : i == VALUE_5 ? 5 : i == VALUE_7 ? 7
                           : (uint64_t)(i - R14_0);
            row = i * 100 + j;
            for (int how = 0; how < (i == TEN ? 3 : 1); how++)
                SCORE(i == TEN && how == 0 ? 65 : 3, i == TEN && how == 1 ? 0 : 1, i == TEN && how == 2 ? 4000001 : 1000, book1, len, series,
                      MADE(LENGTH) ? 2975 : 2976, no, place, 0, 0);
#undef MADE
        }
    group("score: every number alone, and the order of two");
}

static void score_512(void)
{
    static struct call calls[512];
    for (uint32_t i = 0; i < 512; i++)
        calls[i] = live(1, i, 1, 8, (uint16_t)i, 3, 1000000000, 1000000000, 0);
    PAY(7, 1, calls, 512, 61440000000000000, 1024000000000); /* the most that energy can bring: 512 * 10^9 Wh * 120,000 */
    for (uint32_t i = 0; i < 512; i++)
        calls[i].a = i % 2 ? -1000000000 : 999999999;
    PAY(7, 1, calls, 512, 0, 0);
    for (uint32_t i = 0; i < 512; i++)
        calls[i] = live(1, i, 1, 3, (uint16_t)(87 * (511 - i)), 87, 0, 0, 0); /* all meet, latest first */
    PAY(1, 4000000, calls, 512, 24576000000000000, 409600000000);
    calls[511].minutes = 88;
    NUMBER(1, 4000000, calls, 512, 13, 511);
    group("scoring 512 records");
}

/* Scores participant 1 in January of this year over a book of version 2. */
static void expect_score_2(int line, uint16_t year, uint8_t kind, uint32_t rated, const struct call *calls, size_t n,
                           uint32_t no, uint64_t place, uint64_t grains, uint64_t fen)
{
    expect_score(line, 1, kind, rated, book1, put_book_of(2, book1, 7, year, 1, calls, n), series, 2976, no, place, grains, fen);
}
#define SCORE_2(...) expect_score_2(__LINE__, __VA_ARGS__)

static void score_2000(void)
{
    static struct call calls[2000];
    output(0);
    for (uint32_t i = 0; i < 2000; i++)
        calls[i] = live(1, i, 1, 8, (uint16_t)i, 3, 1000000000, 1000000000, 0);
    SCORE_2(2025, 8, 1, calls, 2000, 0, 0, 240000000000000000, 4000000000000); /* 2,000 * 10^9 Wh * 120,000 */
    SCORE_2(2025, 8, 1, calls, 3, 0, 0, 360000000000000, 6000000000);
    SCORE_2(2025, 8, 1, NULL, 0, 0, 0, 0, 0);
    for (uint32_t i = 0; i < 2000; i++)
        calls[i] = live(1, i, 1, 3, (uint16_t)(22 * i), 22, 0, 0, 0); /* all meet, in the order of time and against it */
    SCORE_2(2025, 1, 4000000, calls, 2000, 0, 0, 96000000000000000, 1600000000000);
    calls[1999].start = 22 * 1999 - 1;
    SCORE_2(2025, 1, 4000000, calls, 2000, 13, 1999, 0, 0);
    calls[1999].start = 0;
    SCORE_2(2025, 1, 4000000, calls, 2000, 13, 1999, 0, 0);
    for (uint32_t i = 0; i < 2000; i++)
        calls[i].start = (uint16_t)(22 * (1999 - i));
    SCORE_2(2025, 1, 4000000, calls, 2000, 0, 0, 96000000000000000, 1600000000000);
    calls[1999].minutes = 23;
    SCORE_2(2025, 1, 4000000, calls, 2000, 13, 1999, 0, 0);
    calls[1999] = live(1, 1999, 1, 6, 0, 0, 0, 10000, 0);
    SCORE_2(2025, 2, 1, calls, 2000, 0, 0, 1999ull * 6000000 + 1200000, 199920);
    SCORE_2(2025, 6, 1, calls, 2000, 12, 0, 0, 0);
    calls[1999] = empty(1, 1999, 1, 1);
    SCORE_2(2025, 1, 4000000, calls, 2000, 14, 1999, 0, 0);
    /* A black start, 1,998 trips and a second one: the last record is 13, and after the closing month the first is 12. */
    for (uint32_t i = 0; i < 2000; i++)
        calls[i] = i % 1999 == 0 ? live(1, i, 1, 5, 0, 0, 0, 0, 0) : live(1, i, 1, 10, (uint16_t)i, 0, 0, 0, 0);
    SCORE_2(2025, 8, 1, calls, 2000, 13, 1999, 0, 0);
    SCORE_2(2026, 8, 1, calls, 2000, 13, 1999, 0, 0);
    SCORE_2(2027, 8, 1, calls, 2000, 12, 0, 0, 0);
    SCORE_2(2025, 8, 1, calls, 1999, 0, 0, 1998ull * 2400000 + 1200000, 79940);
    group("scoring 2,000 records");
}

/* ---- sharing ---- */

static void share_sums(void)
{
    SHARE(NULL, 0, 0, 0, 0, 0, NULL);
    SHARE(NULL, 0, 100, 0, 0, 0, NULL);
    /* R above 0: 3 thousandths of a point are 300 fen; status 2 weighs 10, as A is not below C. */
    const struct line above[] = {{1, 0, 1, 0, 3}, {5, 1, 1, 0, 0}, {64, 2, 1, 0, 0}};
    SHARE(above, 3, 60, 0, 0, 300, (int64_t[]){120, -180, 60, 60, 120, 120});
    /* R below 0: weights 10, 5, 12 */
    const struct line below[] = {{1, 0, 1, 270, 0}, {5, 1, 1, 0, 0}, {64, 2, 1, 0, 0}};
    SHARE(below, 3, 48, 0, 0, -270, (int64_t[]){-100, 170, -50, -50, -120, -120});
    /* R = 0 */
    const struct line even[] = {{2, 0, 5, 100, 0}, {3, 2, 5, 0, 1}};
    SHARE(even, 2, 32, 0, 0, 0, (int64_t[]){0, 100, 0, -100});
    const struct line idle[] = {{2, 0, 0, 100, 0}, {3, 2, 0, 0, 1}};
    SHARE(idle, 2, 32, 0, 0, 0, (int64_t[]){0, 100, 0, -100});
    /* Ties go to the lower number, not to the larger weight: remainders 1/2 each of weights 10 and 30 at R = -2. */
    const struct line tie[] = {{1, 0, 1, 2, 0}, {2, 0, 3, 0, 0}};
    SHARE(tie, 2, 32, 0, 0, -2, (int64_t[]){-1, 1, -1, -1});
    const struct line tie2[] = {{1, 0, 3, 2, 0}, {2, 0, 1, 0, 0}};
    SHARE(tie2, 2, 32, 0, 0, -2, (int64_t[]){-2, 0, 0, 0});
    /* The largest remainders first: weights 20, 30, 50 of 100 at R = -3 leave 60, 90, 50 and two fen. */
    const struct line three[] = {{1, 0, 2, 3, 0}, {2, 0, 3, 0, 0}, {3, 0, 5, 0, 0}};
    SHARE(three, 3, 48, 0, 0, -3, (int64_t[]){-1, 2, -1, -1, -1, -1});
    /* A line of no weight gets nothing. */
    const struct line bare[] = {{1, 0, 0, 0, 0}, {2, 0, 1, 1, 0}, {3, 0, 1, 0, 0}, {4, 0, 1, 0, 0}};
    SHARE(bare, 4, 64, 0, 0, -1, (int64_t[]){0, 0, -1, 0, 0, 0, 0, 0});

    /* The extremes: 64 lines of the largest energies. A = 64 * 10^9 fen; and C = 10^11, all of it on one line. */
    struct line most[64];
    int64_t outcome[128];
    for (int i = 0; i < 64; i++) {
        most[i] = (struct line){(uint16_t)(i + 1), 0, 5000000, 0, 10000000};
        outcome[2 * i] = 1000000000;
        outcome[2 * i + 1] = 0;
    }
    SHARE(most, 64, 1024, 0, 0, 64000000000, outcome);
    for (int i = 0; i < 64; i++) {
        most[i] = (struct line){(uint16_t)(i + 1), 2, 5000000, i == 63 ? 100000000000 : 0, 0};
        outcome[2 * i] = -1562500000;
        outcome[2 * i + 1] = i == 63 ? 98437500000 : -1562500000;
    }
    SHARE(most, 64, 1024, 0, 0, -100000000000, outcome);
    /* One fen over 64 equal lines, and 63. */
    for (int fen = 1; fen <= 63; fen += 62) {
        for (int i = 0; i < 64; i++) {
            most[i] = (struct line){(uint16_t)(i + 1), 1, 5000000, i == 0 ? (uint64_t)fen : 0, 0};
            outcome[2 * i] = i < fen ? -1 : 0;
            outcome[2 * i + 1] = outcome[2 * i] + (i == 0 ? fen : 0);
        }
        SHARE(most, 64, 1030, 0, 0, -fen, outcome);
    }
    const struct line alone[] = {{64, 2, 5000000, 100000000000, 0}};
    SHARE(alone, 1, 16, 0, 0, -100000000000, (int64_t[]){-100000000000, 0});
    group("sharing: sums, a negative R, ties, extremes");
}

static void share_refusals(void)
{
    const struct line sound[] = {{1, 0, 1, 5, 1}, {3, 1, 2, 6, 2}, {7, 2, 3, 7, 3}, {64, 0, 4, 8, 4}};
    uint8_t bytes[70 * 24];
    size_t len = put_lines(bytes, sound, 4);
    for (size_t cut = 1; cut < 24; cut++) {
        row = (int)cut;
        expect_share_bytes(__LINE__, bytes, len - cut, 64, 1, 0, 0, NULL);
        expect_share_bytes(__LINE__, bytes, cut, 64, 1, 0, 0, NULL);
    }
    row = -1;
    /* 10: every field at and past its edge, on the third line. */
    static const struct { struct line l; uint32_t no; } rows[] = {
        {{4, 0, 0, 0, 0}, 0}, {{63, 2, 5000000, 0, 0}, 0}, {{3, 0, 0, 0, 0}, 10}, {{2, 0, 0, 0, 0}, 10}, {{0, 0, 0, 0, 0}, 10},
        {{65, 0, 0, 0, 0}, 10}, {{260, 0, 0, 0, 0}, 10}, {{4, 3, 0, 0, 0}, 10}, {{4, 255, 0, 0, 0}, 10}, {{4, 0, 5000001, 0, 0}, 10},
        {{4, 0, 0xffffffff, 0, 0}, 10}, {{4, 0, 0, 100000000001, 0}, 10}, {{4, 0, 0, 0xffffffffffffffff, 0}, 10}, {{4, 0, 0, (uint64_t)1 << 63, 0}, 10},
        {{4, 0, 0, 0, 10000001}, 10}, {{4, 0, 0, 0, 0xffffffff}, 10}};
    for (size_t i = 0; i < ROWS(rows); i++) {
        struct line l[] = {{1, 0, 0, 0, 0}, {3, 0, 0, 0, 0}, rows[i].l, {64, 0, 0, 0, 0}};
        row = (int)i;
        SHARE(l, 4, 64, rows[i].no, rows[i].no ? 2 : 0, 0, (int64_t[8]){0});
    }
    /* Reserved bytes, each alone, on each line. */
    static const size_t reserved[] = {3, 20, 21, 22, 23};
    for (size_t i = 0; i < 4; i++)
        for (size_t k = 0; k < ROWS(reserved); k++) {
            put_lines(bytes, sound, 4);
            bytes[24 * i + reserved[k]] = 0x80;
            row = (int)(i * 10 + k);
            expect_share_bytes(__LINE__, bytes, len, 64, 10, i, 0, NULL);
        }
    row = -1;
    /* The edges of compensation and assessment, sound. */
    SHARE((struct line[]){{1, 0, 1, 100000000000, 10000000}}, 1, 16, 0, 0, -99000000000, (int64_t[]){-99000000000, 0});
    /* A 65th line, a 66th; an earlier bad line wins. */
    struct line many[66];
    for (int i = 0; i < 66; i++)
        many[i] = (struct line){(uint16_t)(i + 1), 0, 1, 0, 0};
    SHARE(many, 65, 2000, 10, 64, 0, NULL);
    SHARE(many, 66, 2000, 10, 64, 0, NULL);
    many[64].number = 64;
    SHARE(many, 65, 2000, 10, 64, 0, NULL);
    many[64].number = 0;
    SHARE(many, 65, 0, 10, 64, 0, NULL);
    many[10].status = 3;
    SHARE(many, 66, 2000, 10, 10, 0, NULL);
    /* 15: 10^11 in all is sound, one more is not. */
    struct line over[] = {{1, 0, 1, 60000000000, 0}, {2, 0, 0, 40000000001, 0}};
    SHARE(over, 2, 32, 15, 0, 0, NULL);
    over[1].compensation--;
    SHARE(over, 2, 32, 0, 0, -100000000000, (int64_t[]){-100000000000, -40000000000, 0, 40000000000});
    /* 16 */
    struct line weightless[] = {{1, 0, 0, 0, 1}, {2, 2, 0, 0, 0}};
    SHARE(weightless, 2, 32, 16, 0, 0, NULL);
    weightless[0].compensation = 101;
    SHARE(weightless, 2, 32, 16, 0, 0, NULL);
    weightless[0].compensation = 100;
    SHARE(weightless, 2, 32, 0, 0, 0, (int64_t[]){0, 0, 0, 0});
    /* 9: every length up to the one needed */
    put_lines(bytes, sound, 4);
    for (size_t out_len = 0; out_len < 64; out_len++) {
        row = (int)out_len;
        expect_share_bytes(__LINE__, bytes, len, out_len, 9, 0, 0, NULL);
    }
    row = -1;

    /* Two that meet. */
    enum { ONE_, TEN_65, TEN_0, TEN_1, TEN_2, FIFTEEN, SIXTEEN, NINE, ALL };
    static const uint32_t no[] = {1, 10, 10, 10, 10, 15, 16, 9}, place[] = {0, 65, 0, 1, 2, 0, 0, 0};
    for (int i = 0; i < ALL; i++)
        for (int j = i; j < ALL; j++) {
            struct line l[] = {{1, 0, 1, 5, 1}, {3, 1, 2, 6, 2}, {7, 2, 3, 7, 3}, {64, 0, 4, 8, 4}};
#define MADE(f) (i == (f) || j == (f))
            if (MADE(SIXTEEN))
                l[0].energy = l[1].energy = l[2].energy = l[3].energy = 0;
            if (MADE(FIFTEEN))
                l[3].compensation = 100000000000;
            if (MADE(TEN_2))
                l[2].status = 3;
            if (MADE(TEN_1))
                l[1].number = 1;
            if (MADE(TEN_0))
                l[0].assessment = 10000001;
            put_lines(bytes, l, 4);
            row = i * 100 + j;
            expect_part_bytes(__LINE__, MADE(TEN_65) ? 10001 : 10000, bytes, len - MADE(ONE_), MADE(NINE) ? 79 : 80, no[i], place[i], 0, 0, NULL);
#undef MADE
        }
    group("share: every number alone, and the order of two");
}

/* Part of the gap goes to consumers. */
static void share_parts(void)
{
    /* The paper's three lines: R -200000; weights 1,000, 2,000, 600. */
    const struct line sample[] = {{1, 0, 100, 300000, 0}, {2, 0, 200, 0, 1000}, {3, 2, 50, 0, 0}};
    PART(10000, sample, 3, 64, 0, 0, -200000, 0, (int64_t[]){-55556, 244444, -111111, -211111, -33333, -33333});
    PART(5000, sample, 3, 64, 0, 0, -200000, -100000, (int64_t[]){-27778, 272222, -55555, -155555, -16667, -16667});
    PART(3333, sample, 3, 64, 0, 0, -200000, -133340, (int64_t[]){-18517, 281483, -37033, -137033, -11110, -11110});
    PART(0, sample, 3, 64, 0, 0, -200000, -200000, (int64_t[]){0, 300000, 0, -100000, 0, 0});
    PART(9999, sample, 3, 64, 0, 0, -200000, -20, (int64_t[]){-55550, 244450, -111100, -211100, -33330, -33330});
    PART(1, sample, 3, 64, 0, 0, -200000, -199980, (int64_t[]){-6, 299994, -11, -100011, -3, -3});
    PART(10001, sample, 3, 64, 10, 65, 0, 0, NULL);
    PART(0xffffffff, sample, 3, 64, 10, 65, 0, 0, NULL);
    /* Cut toward zero, below zero and above: R -200001, 99, -1 and 1 at half. */
    PART(5000, (struct line[]){{1, 0, 100, 200001, 0}}, 1, 32, 0, 0, -200001, -100001, (int64_t[]){-100000, 100001});
    PART(5000, (struct line[]){{1, 0, 1, 1, 1}}, 1, 32, 0, 0, 99, 50, (int64_t[]){49, -50});
    PART(5000, (struct line[]){{1, 0, 1, 1, 0}}, 1, 32, 0, 0, -1, -1, (int64_t[]){0, 1});
    PART(9999, (struct line[]){{1, 0, 1, 99, 1}}, 1, 32, 0, 0, 1, 1, (int64_t[]){0, -1});
    /* R above 0: weights 10, 5, 10 of 150 fen. */
    PART(5000, (struct line[]){{1, 0, 1, 0, 3}, {5, 1, 1, 0, 0}, {64, 2, 1, 0, 0}}, 3, 64, 0, 0, 300, 150, (int64_t[]){60, -240, 30, 30, 60, 60});
    /* R = 0: nothing for anybody. */
    PART(5000, (struct line[]){{2, 0, 5, 100, 0}, {3, 2, 5, 0, 1}}, 2, 48, 0, 0, 0, 0, (int64_t[]){0, 100, 0, -100});
    /* 16 asks for the generators' R: a hundredth of a percent of 9,999 fen is cut to zero, of 10,000 it is not. */
    PART(1, (struct line[]){{1, 0, 0, 9999, 0}}, 1, 32, 0, 0, -9999, -9999, (int64_t[]){0, 9999});
    PART(1, (struct line[]){{1, 0, 0, 10000, 0}}, 1, 32, 16, 0, 0, 0, NULL);
    PART(0, (struct line[]){{1, 0, 0, 100000000000, 0}}, 1, 32, 0, 0, -100000000000, -100000000000, (int64_t[]){0, 100000000000});
    PART(9999, (struct line[]){{64, 2, 5000000, 100000000000, 0}}, 1, 32, 0, 0, -100000000000, -10000000, (int64_t[]){-99990000000, 10000000});
    /* No lines: the user's sixteen bytes alone. */
    static const uint32_t parts[] = {0, 1, 5000, 10000};
    for (size_t i = 0; i < ROWS(parts); i++) {
        row = (int)i;
        PART(parts[i], NULL, 0, 15, 9, 0, 0, 0, NULL);
        PART(parts[i], NULL, 0, 16, 0, 0, 0, 0, NULL);
        PART(parts[i], NULL, 0, 100, 0, 0, 0, 0, NULL);
    }
    /* 9: every length up to the one needed; a byte behind it stays. */
    for (size_t out_len = 0; out_len < 64; out_len++) {
        row = (int)out_len;
        PART(5000, sample, 3, out_len, 9, 0, 0, 0, NULL);
    }
    row = -1;
    PART(5000, sample, 3, 65, 0, 0, -200000, -100000, (int64_t[]){-27778, 272222, -55555, -155555, -16667, -16667});
    group("sharing: the generators' part and the user's amount");
}

/* ---- ramping ---- */

static void ramp_sums(void)
{
    const struct action coal[] = {{100000, 109000, 110000, 60, 4500, 3000}, {109000, 109000, 120000, 0, 3000, 3000}, {109000, 108000, 120000, 0, 3000, 3000},
                                  {109000, 100001, 100000, 30, 2999, 3000}};
    RAMP(1, 300000, coal, 1, 0, 0, 984600000); /* 9,000 kW at 0.2 * (4.5 + 0.8 + 7/9) */
    RAMP(1, 300000, coal, 4, 0, 0, 1778103211); /* with one that stays, one the wrong way, and one down that stops short by 1 kW */
    RAMP(1, 300000, coal + 1, 2, 0, 0, 0);
    const struct action uneven[] = {{100000, 109000, 110000, 61, 4499, 3001}, {109000, 100001, 100000, 29, 2999, 3001}, {100001, 99000, 120000, 0, 3001, 3001}};
    RAMP(1, 300001, uneven, 3, 0, 0, 1777536605);
    const struct action gas[] = {{0, 1, 1, 0, 1, 7}};
    RAMP(2, 7, gas, 1, 0, 0, 43714); /* 90,000 * 0.2 * (3/7 + 2) */
    /* An index below zero counts in a mean above zero, and a mean below zero pays 0. */
    const struct action low[] = {{0, 1000, 10000, 300, 0, 1000}, {0, 10000, 10000, 0, 1000, 1000}};
    RAMP(3, 200000, low, 2, 0, 0, 297000000); /* 11,000 kW at the mean of -0.4 and 1 */
    RAMP(3, 200000, low, 1, 0, 0, 0);
    const struct action tiny[] = {{0, 1, 2, 0, 1, 1}};
    RAMP(1, 1, tiny, 1, 0, 0, 0); /* 1 kW of error is 66 2/3 times 1.5% of 1 kW */
    RAMP(1, 1, NULL, 0, 0, 0, 0);
    /* The error is taken on either side of the command: 1,000 kW beyond it as 1,000 kW short of it. */
    const struct action beyond[] = {{0, 11000, 10000, 0, 3000, 3000}}, back[] = {{20000, 9000, 10000, 0, 3000, 3000}}, shy[] = {{0, 11000, 12000, 0, 3000, 3000}};
    RAMP(1, 100000, beyond, 1, 0, 0, 858000000); /* 11,000 kW at 0.2 * (3 + 1 + 1/3) */
    RAMP(1, 100000, back, 1, 0, 0, 858000000);
    RAMP(1, 100000, shy, 1, 0, 0, 858000000);

    /* The most: 60 actions of 5,000,000 kW at 0.2 * (300 + 1 + 1). A rating and a limit at their ends. */
    static struct action most[62];
    for (int i = 0; i < 62; i++)
        most[i] = (struct action){0, 5000000, 5000000, 0, 1000000, 10000};
    RAMP(1, 300000, most, 60, 0, 0, 1630800000000000);
    RAMP(3, 4000000, most, 60, 0, 0, 1630800000000000);
    RAMP(2, 1, most, 60, 0, 0, 1630800000000000);
    RAMP(1, 300000, most, 59, 0, 0, 1603620000000000);
    RAMP(1, 300000, most, 61, 10, 60, 0);
    RAMP(1, 300000, most, 62, 10, 60, 0);
    for (int i = 0; i < 60; i++) /* the largest error that there is, at the smallest rating */
        most[i] = (struct action){0, 1, 5000000, 300, 0, 1000000};
    RAMP(1, 1, most, 60, 0, 0, 0);
    group("ramping: the cases, signs, extremes");
}

static void ramp_refusals(void)
{
    /* Every field at and past its edge. */
    static const struct { struct action a; uint32_t no; uint64_t grains; } rows[] = {
        {{0, 1000, 1000, 0, 3000, 3000}, 0, 90000000}, {{5000000, 4999000, 4999000, 0, 3000, 3000}, 0, 90000000}, {{5000001, 1000, 1000, 0, 3000, 3000}, 10, 0},
        {{0, 5000001, 1000, 0, 3000, 3000}, 10, 0}, {{0, 1000, 5000001, 0, 3000, 3000}, 10, 0}, {{0xffffffff, 1000, 1000, 0, 3000, 3000}, 10, 0},
        {{0, 0x80000000, 1000, 0, 3000, 3000}, 10, 0}, {{0, 1000, 0xffffffff, 0, 3000, 3000}, 10, 0}, {{0, 1000, 1000, 300, 3000, 3000}, 0, 72000000},
        {{0, 1000, 1000, 301, 3000, 3000}, 10, 0}, {{0, 1000, 1000, 0xffffffff, 3000, 3000}, 10, 0}, {{0, 1000, 1000, 0, 0, 3000}, 0, 36000000},
        {{0, 1000, 1000, 0, 300000, 3000}, 0, 5436000000}, {{0, 1000, 1000, 0, 300001, 3000}, 10, 0}, {{0, 1000, 1000, 0, 1000000, 1000000}, 0, 90000000},
        {{0, 1000, 1000, 0, 1000001, 1000000}, 10, 0}, {{0, 1000, 1000, 0, 3000, 1000001}, 10, 0}, {{0, 1000, 1000, 0, 0xffffffff, 0xffffffff}, 10, 0},
        {{0, 1000, 1000, 0, 100, 1}, 0, 5436000000}, {{0, 1000, 1000, 0, 101, 1}, 10, 0}, {{0, 1000, 1000, 0, 0, 0}, 10, 0}, {{0, 1000, 1000, 0, 1, 0}, 10, 0},
        {{1000, 2000, 1000, 0, 3000, 3000}, 10, 0}, {{0, 0, 0, 0, 3000, 3000}, 10, 0}, {{1, 0, 0, 0, 3000, 3000}, 0, 90000},
        {{1000, 1000, 2000, 0, 3000, 3000}, 0, 0}, {{1000, 999, 2000, 0, 3000, 3000}, 0, 0}, {{1000, 1001, 0, 0, 3000, 3000}, 0, 0},
        /* a wrong-way action is asked like any other */
        {{1000, 1000, 2000, 301, 3000, 3000}, 10, 0}, {{1000, 999, 2000, 0, 300001, 3000}, 10, 0}, {{1000, 999, 5000001, 0, 3000, 3000}, 10, 0}};
    for (size_t i = 0; i < ROWS(rows); i++) {
        row = (int)i;
        RAMP(1, 300000, &rows[i].a, 1, rows[i].no, 0, rows[i].grains);
        /* behind two good ones of its own standard rate: refused there, or taken */
        uint32_t s = rows[i].a.standard >= 1 && rows[i].a.standard <= 1000000 ? rows[i].a.standard : 3000;
        struct action behind[] = {{2000, 2000, 3000, 0, 0, s}, {2000, 1000, 3000, 0, 0, s}, rows[i].a};
        RAMP(1, 300000, behind, 3, rows[i].no, rows[i].no ? 2 : 0, rows[i].grains);
    }
    row = -1;
    /* Another standard rate than the first's, by one and by much; the first one is the measure. */
    struct action two[] = {{0, 1000, 1000, 0, 3000, 3000}, {0, 1000, 1000, 0, 3000, 3001}, {0, 1000, 1000, 0, 3000, 3000}};
    RAMP(1, 300000, two, 3, 10, 1, 0);
    two[1].standard = 2999;
    RAMP(1, 300000, two, 3, 10, 1, 0);
    two[1].standard = 3000, two[2].standard = 1000000;
    RAMP(1, 300000, two, 3, 10, 2, 0);
    RAMP(1, 300000, two, 2, 0, 0, 180000000);

    /* The register line, and the kinds. */
    static const struct { uint16_t participant; uint8_t kind; uint32_t rated, no; } lines[] = {
        {1, 1, 1, 0}, {64, 3, 4000000, 0}, {0, 1, 1, 10}, {65, 1, 1, 10}, {257, 1, 1, 10}, {1, 0, 1, 10}, {1, 9, 1, 10}, {1, 255, 1, 10},
        {1, 1, 0, 10}, {1, 1, 4000001, 10}, {1, 1, 0xffffffff, 10}, {1, 4, 1, 12}, {1, 5, 1, 12}, {1, 6, 1, 12}, {1, 7, 1, 12}, {1, 8, 1, 12}};
    uint8_t bytes[62 * 24];
    size_t len = put_actions(bytes, two, 1);
    for (size_t i = 0; i < ROWS(lines); i++) {
        row = (int)i;
        expect_ramp_bytes(__LINE__, lines[i].participant, lines[i].kind, lines[i].rated, bytes, len, lines[i].no, 0, lines[i].no ? 0 : 90000000);
        expect_ramp_bytes(__LINE__, lines[i].participant, lines[i].kind, lines[i].rated, NULL, 0, lines[i].no, 0, 0);
    }
    row = -1;

    /* Two that meet: the bytes' length, the register line, the kind, then the actions in turn. */
    enum { ONE_, TEN_, TWELVE, A0, A1, A59, A60, ALL };
    static const uint32_t no[] = {1, 10, 12, 10, 10, 10, 10}, place[] = {0, 0, 0, 0, 1, 59, 60};
    for (int i = 0; i < ALL; i++)
        for (int j = i; j < ALL; j++) {
            struct action hour[61];
#define MADE(f) (i == (f) || j == (f))
            for (int k = 0; k < 61; k++)
                hour[k] = (struct action){0, 1000, 1000, MADE(A0) && k == 0 ? 301u : 0, 3000, (MADE(A1) && k == 1) || (MADE(A59) && k == 59) ? 3001 : 3000};
            len = put_actions(bytes, hour, MADE(A60) ? 61 : 60);
            row = i * 100 + j;
            expect_ramp_bytes(__LINE__, MADE(TEN_) ? 65 : 7, MADE(TWELVE) ? 4 : 1, 300000, bytes, len - MADE(ONE_), no[i], place[i], 0);
#undef MADE
        }
    for (size_t cut = 1; cut < 24; cut++) {
        row = (int)cut;
        expect_ramp_bytes(__LINE__, 7, 1, 300000, bytes, 24 * 60 + cut, 1, 0, 0);
        expect_ramp_bytes(__LINE__, 7, 1, 300000, bytes, cut, 1, 0, 0);
    }
    group("ramp: every number alone, and the order of two");
}

static void fen_of_grains(void)
{
    FEN(0, 0);
    FEN(29999, 0);
    FEN(30000, 1);
    FEN(59999, 1);
    FEN(60000, 1);
    FEN(89999, 1);
    FEN(90000, 2);
    FEN(984600000, 16410);
    FEN(1630800000000000, 27180000000);
    FEN(0xffffffffffffffff, 307445734561826); /* 307,445,734,561,825 whole fen and 51,615 grains */
    FEN(0xffffffffffffffff - 21616, 307445734561825); /* 29,999 grains above them */
    FEN(0xffffffffffffffff - 21615, 307445734561826);
    group("fen of grains");
}

/* ---- null with length 0, and registers ---- */

static void nulls(void)
{
    size_t len = tens(book1, 10, 2);
    output(0);
    CHECK(NULL, 0, 1, 0);
    NONE(7, 2025, 1, 0, 9); /* the helpers lend null where the length is 0 */
    ONE(7, 2025, 1, empty(1, 1, 1, 1), 0, 9);
    JOIN(NULL, 0, NULL, 0, 0, 1, 0, NULL, 0);
    JOIN(NULL, 0, book1, len, 100, 1, 0, NULL, 0);
    JOIN(book1, len, NULL, 0, 0, 21, 0, NULL, 0);
    JOIN(book1, len, book1, len, 0, 9, 0, NULL, 0);
    TABS(NULL, 0, 0, 1, 0, NULL);
    TABS(NULL, 0, PAGE, 1, 0, NULL);
    TABS(book1, len, 0, 9, 0, NULL);
    memcpy(book2, book1, len); /* here too null is lent where the length is 0 */
    put_page_of_live(given, 3, 2);
    JOIN_TABS(0, 0, 0, 0, 0, 1, 0, 0);
    JOIN_TABS(0, PAGE, len, MUCH, PAGE, 1, 0, 0);
    JOIN_TABS(len, 0, 0, 0, 0, 21, 0, 0);
    JOIN_TABS(len, 0, len, 0, 0, 10, 1, 0);
    JOIN_TABS(len, 0, len, MUCH, PAGE, 10, 1, 0);
    JOIN_TABS(len, PAGE, len, 0, PAGE, 9, 0, 0);
    JOIN_TABS(len, PAGE, len, MUCH, 0, 9, 0, 0);
    FIND(NULL, 0, NULL, 0, 3, 10, 0, 0);
    FIND(book1, len, NULL, 0, 3, 10, 0, 0);
    FIND(NULL, 0, book1, len, 3, 10, 0, 0);
    SCORE(3, 1, 1, NULL, 0, NULL, 0, 1, 0, 0, 0);
    SCORE(0, 1, 1, NULL, 0, NULL, 0, 10, 0, 0, 0);
    SCORE(3, 1, 1, book1, len, NULL, 0, 11, 65535, 0, 0);
    SCORE(3, 1, 1, NULL, 0, series, 2976, 1, 0, 0, 0);
    PART(10000, NULL, 0, 0, 9, 0, 0, 0, NULL);
    expect_part_bytes(__LINE__, 0, NULL, 0, 0, 9, 0, 0, 0, NULL);
    expect_part_bytes(__LINE__, 10001, NULL, 0, 0, 10, 65, 0, 0, NULL);
    expect_part_bytes(__LINE__, 5000, NULL, 0, 16, 0, 0, 0, 0, NULL);
    PART(10000, (struct line[]){{1, 0, 1, 1, 0}}, 1, 0, 9, 0, 0, 0, NULL);
    RAMP(1, 1, NULL, 0, 0, 0, 0);
    expect_ramp_bytes(__LINE__, 7, 3, 1, NULL, 0, 0, 0, 0);
    expect_ramp_bytes(__LINE__, 0, 4, 1, NULL, 0, 10, 0, 0);
    expect_ramp_bytes(__LINE__, 7, 4, 1, NULL, 0, 12, 0, 0);
    group("null with length 0");
}

/* A caller may leave anything in the upper half of the register or stack slot that carries a number of 32 bits or less. */
static void upper_halves(void)
{
#if defined __x86_64__
    typedef void any(void);
    /* Read from memory, so that the compiler does not see the two types meet. */
    any *volatile none = (any *)nwb_none, *volatile one = (any *)nwb_one, *volatile find = (any *)nwb_find, *volatile score = (any *)nwb_score,
        *volatile ramp = (any *)nwb_ramp, *volatile share = (any *)nwb_share;
    typedef uint32_t none_wide(uint64_t, uint64_t, uint64_t, uint8_t *, size_t, uint64_t *, uint64_t *);
    typedef uint32_t one_wide(uint64_t, uint64_t, uint64_t, uint64_t, uint64_t, uint64_t, uint64_t, uint64_t, uint64_t, uint64_t, uint64_t, uint64_t,
                              uint64_t, uint8_t *, size_t, uint64_t *, uint64_t *);
    typedef uint32_t find_wide(const uint8_t *, size_t, const uint8_t *, size_t, uint64_t, uint64_t, uint64_t *);
    typedef uint32_t score_wide(uint64_t, uint64_t, uint64_t, const uint8_t *, size_t, const uint32_t *, size_t, uint64_t *, uint64_t *, uint64_t *);
    typedef uint32_t ramp_wide(uint64_t, uint64_t, uint64_t, const uint8_t *, size_t, uint64_t *, uint64_t *);
    typedef uint32_t share_wide(uint64_t, const uint8_t *, size_t, uint8_t *, size_t, uint64_t *, int64_t *);
    const uint64_t dirt = 0xdeadbeef00000000u;
    uint8_t out[48], expected[48];
    struct call c = live(3, 0xfedcba98, 0x89abcdef, 8, 0x1234, 0x0567, -500, 0x01020304, 1);
    placed_now = ALIGNED;

    begin(__LINE__, "none");
    put_book(expected, 7, 2025, 1, NULL, 0);
    want("number", ((none_wide *)none)(dirt | 7, dirt | 2025, dirt | 1, out, 48, CELL(0), CELL(1)), 0);
    want("bytes", (uint64_t)(memcmp(out, expected, 16) == 0), 1);
    end();

    begin(__LINE__, "one");
    put_book(expected, 7, 2025, 1, &c, 1);
    want("number", ((one_wide *)one)(dirt | 7, dirt | 2025, dirt | 1, dirt | c.participant, dirt | c.service, dirt | c.state, dirt | c.number,
                                                dirt | c.revision, dirt | c.start, dirt | c.minutes, dirt | (uint32_t)c.a, dirt | c.b, dirt | c.c,
                                                out, 48, CELL(0), CELL(1)), 0);
    want("bytes", (uint64_t)(memcmp(out, expected, 48) == 0), 1);
    end();

    begin(__LINE__, "find");
    size_t len = tens(book1, 10, 2);
    want("answer", ((find_wide *)find)(book1, len, book1, len, dirt | 3, dirt | 20, CELL(0)), 1);
    want("offset", *CELL(0), 48);
    end();

    begin(__LINE__, "score");
    output(0);
    want("number", ((score_wide *)score)(dirt | 3, dirt | 1, dirt | 5, book1, len, series, 2976, CELL(0), CELL(1), CELL(2)), 0);
    want("grains", *CELL(1), 120000000);
    want("fen", *CELL(2), 2000);
    end();

    begin(__LINE__, "ramp");
    uint8_t action[24];
    put_actions(action, &(struct action){0, 1, 1, 0, 1, 7}, 1);
    want("number", ((ramp_wide *)ramp)(dirt | 7, dirt | 2, dirt | 7, action, 24, CELL(0), CELL(1)), 0);
    want("grains", *CELL(1), 43714);
    end();

    begin(__LINE__, "share");
    uint8_t one_line[24];
    put_lines(one_line, &(struct line){1, 0, 100, 200001, 0}, 1);
    for (size_t i = 0; i < 4; i++)
        put_bytes(expected + 8 * i, (uint64_t)((const int64_t[]){-100000, 100001, -100001, -100001})[i], 8);
    want("number", ((share_wide *)share)(dirt | 5000, one_line, 24, out, 32, CELL(0), (int64_t *)CELL(1)), 0);
    want("gap", *CELL(1), (uint64_t)-200001);
    want("bytes", (uint64_t)(memcmp(out, expected, 32) == 0), 1);
    end();
#endif
    group("upper halves of registers");
}

int main(void)
{
    const char *only = getenv("NWB_VERSIONS");
    if (only && strcmp(only, "1") == 0)
        versions = 1;
    area_open(&in1, MUCH);
    area_open(&in2, MUCH);
    area_open(&in_series, MUCH);
    area_open(&in_tabs, MUCH);
    area_open(&lent, MUCH);
    area_open(&lent_tabs, MUCH);
    on_touched_guard(touched);

    worked_sums();
    pay_by_service();
    closing_month();
    fen_once();
    headers();
    records();
    months();
    check_order();
    constants();
    check_versions();
    writers();
    join_rule();
    join_limits();
    join_trees();
    join_turns();
    join_order();
    tabs_afresh();
    join_tabs_cases();
    join_tabs_fit();
    join_tabs_order();
    join_tabs_trees();
    find();
    score_refusals();
    score_order();
    score_512();
    if (versions == 2)
        score_2000();
    share_sums();
    share_refusals();
    share_parts();
    ramp_sums();
    ramp_refusals();
    fen_of_grains();
    nulls();
    upper_halves();
    printf("host: %u checks, %u failed\n", checks, failed);
    return failed != 0;
}
