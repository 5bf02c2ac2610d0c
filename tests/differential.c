/* The archive against the reference, over random sound, damaged and nearly sound input, all eleven functions; trees of joins
 * against the rule over a whole list of books; windows cut in two against the whole ones; and pages of tabs that joins bring forward, in trees too, against the page that the
 * reference makes afresh.
 *
 *     differential [seed [cases [first]]]
 *
 * Every case draws from its own generator, made from the seed and the case's number alone: `differential SEED 1 NUMBER` repeats one.
 * The archive works between guard pages and canaries (memory-and-books.h), with garbage in its cells. Number, cells and the lent buffer with what
 * lies around it are compared byte for byte, and its inputs must be unchanged. The first difference is printed whole.
 *
 * With NWB_VERSIONS=1 in the environment only what the first edition knew is drawn: no book of version 2, damaged ones included, and no join of more than
 * 512 keys. A library from before version 2 answers these alike. */
#define _DEFAULT_SOURCE
#include "memory-and-books.h"
#include "nwb.h"
#include "reference.h"

#include <inttypes.h>
#include <time.h>

/* ---- random numbers ---- */

static uint64_t rng;

static uint64_t next(void)
{
    uint64_t z = rng += 0x9e3779b97f4a7c15u;
    z = (z ^ z >> 30) * 0xbf58476d1ce4e5b9u;
    z = (z ^ z >> 27) * 0x94d049bb133111ebu;
    return z ^ z >> 31;
}

static uint32_t below(uint32_t n) { return (uint32_t)((next() >> 32) * n >> 32); }
static int percent(uint32_t p) { return below(100) < p; }

/* 0 to most, the ends and their neighbours often. */
static uint32_t within(uint32_t most)
{
    switch (below(8)) {
    case 0: return 0;
    case 1: return most;
    case 2: return most > 0 ? 1 : 0;
    case 3: return most > 0 ? most - 1 : 0;
    default: return most == UINT32_MAX ? (uint32_t)next() : below(most + 1);
    }
}

#define PICK(...) (((const uint32_t[]){__VA_ARGS__})[below(sizeof((const uint32_t[]){__VA_ARGS__}) / sizeof(uint32_t))])

/* ---- what is being done, for the report ---- */

enum function { CHECK, NONE, ONE, JOIN, TABS, JOIN_TABS, FIND, SCORE, SHARE, RAMP, FEN, FUNCTIONS };
static const char *const names[] = {"check", "none", "one", "join", "tabs", "join_tabs", "find", "score", "share", "ramp", "fen"};

static uint32_t versions = 2; /* books of versions 1 to this */
static uint64_t seed, case_no, cases, differences;
static uint64_t reached[FUNCTIONS][32];

static struct {
    const char *function;
    size_t inputs, values;
    struct { const char *name; const void *bytes; size_t len; } input[3];
    struct { const char *name; int64_t value; } value[16];
} now;

static void doing(const char *function)
{
    now.function = function;
    now.inputs = now.values = 0;
}

static void with_bytes(const char *name, const void *bytes, size_t len)
{
    now.input[now.inputs].name = name;
    now.input[now.inputs].bytes = bytes;
    now.input[now.inputs++].len = len;
}

static void with(const char *name, int64_t value)
{
    now.value[now.values].name = name;
    now.value[now.values++].value = value;
}

static void print_hex(const uint8_t *p, size_t len)
{
    for (size_t i = 0; i < len; i++)
        printf("%02x", p[i]);
    printf("\n");
}

static void print_case(void)
{
    printf("differential: seed %" PRIu64 " case %" PRIu64 " (again: differential %" PRIu64 " 1 %" PRIu64 "): %s\n", seed, case_no, seed, case_no, now.function);
    for (size_t i = 0; i < now.values; i++)
        printf("  %s %" PRId64 "\n", now.value[i].name, now.value[i].value);
    for (size_t i = 0; i < now.inputs; i++) {
        printf("  %s, %zu bytes: ", now.input[i].name, now.input[i].len);
        print_hex(now.input[i].bytes, now.input[i].len);
    }
}

static void touched(int sig)
{
    print_case();
    printf("differential: signal %d: the archive touched a guard page or gave up\n", sig);
    fflush(stdout);
    _exit(1);
}

/* ---- one call on either side ---- */

struct answer { uint32_t no; uint64_t cell[3]; };

static struct area in1, in2, in_series, in_tabs, lent, ref_lent, lent_tabs, ref_lent_tabs;
static uint8_t salt;
static enum placement where1, where2, where_out, where_tabs, where_out_tabs; /* drawn anew for every case */

static const uint64_t garbage = 0xa5a5f00dfeedbeefu;
static struct { uint64_t before, cell, behind; } cells[3];

static struct answer soiled(void)
{
    struct answer a = {0, {garbage, garbage, garbage}};
    for (int i = 0; i < 3; i++)
        cells[i].before = cells[i].cell = cells[i].behind = garbage;
    return a;
}

static void print_lent(const struct area *out)
{
    printf("    lent buffer (%zu canaries, %zu bytes, %zu canaries): ", out->before, out->len, out->behind);
    print_hex(out->at - out->before, out->before + out->len + out->behind);
}

/* With so many lent buffers: none, one, or one and a page. */
static void print_answer(const char *who, const struct answer *a, int outs, const struct area *out, const struct area *tabs)
{
    printf("  %s: number %" PRIu32 ", cells %" PRId64 " %" PRId64 " %" PRId64 "\n", who, a->no, (int64_t)a->cell[0], (int64_t)a->cell[1], (int64_t)a->cell[2]);
    if (outs > 0)
        print_lent(out);
    if (outs > 1)
        print_lent(tabs);
}

static void different(const char *what, const struct answer *archive, const struct answer *ref, int outs)
{
    if (differences++ != 0)
        return;
    print_case();
    printf("  differs: %s\n", what);
    print_answer("archive", archive, outs, &lent, &lent_tabs);
    print_answer("reference", ref, outs, &ref_lent, &ref_lent_tabs);
    fflush(stdout);
}

static int same_lent(const struct area *a, const struct area *b) { return memcmp(a->at - a->before, b->at - b->before, a->before + a->len + a->behind) == 0; }

static int input_kept(const struct area *a, const void *bytes, size_t len)
{
    return area_holds(a, bytes, len, salt);
}

/* Compares everything that a call may and may not have changed. `kept` says whether the inputs are unchanged. */
static void compare(enum function f, struct answer *archive, const struct answer *ref, int used, int kept, int outs)
{
    int fenced = 1;
    for (int i = 0; i < 3; i++) {
        fenced &= cells[i].before == garbage && cells[i].behind == garbage && (i < used || cells[i].cell == garbage);
        archive->cell[i] = cells[i].cell;
    }
    reached[f][ref->no < 32 ? ref->no : 31]++;
    if (archive->no != ref->no || memcmp(archive->cell, ref->cell, sizeof ref->cell) != 0)
        different("the answer", archive, ref, outs);
    else if (outs > 0 && !same_lent(&lent, &ref_lent))
        different("the lent buffer or what lies around it", archive, ref, outs);
    else if (outs > 1 && !same_lent(&lent_tabs, &ref_lent_tabs))
        different("the lent page or what lies around it", archive, ref, outs);
    else if (!kept)
        different("an input was changed", archive, ref, outs);
    else if (!fenced)
        different("more than the cells was written", archive, ref, outs);
}

/* A length of 0 comes with null half of the time. */
static uint8_t *lay(struct area *a, enum placement where, const void *bytes, size_t len)
{
    uint8_t *p = area_lend(a, where, bytes, len, salt);
    return len == 0 && percent(50) ? NULL : p;
}

static uint8_t *lend(size_t out_len)
{
    area_lend(&ref_lent, where_out, NULL, out_len, salt);
    return lay(&lent, where_out, NULL, out_len);
}

/* Room for an answer of `needed` bytes: exactly, too short, or more. */
static size_t room_for(size_t needed)
{
    switch (below(10)) {
    case 0: return needed > 0 ? needed - 1 : 0;
    case 1: return below((uint32_t)needed + 1);
    case 2: return needed + 1 + below(100);
    case 3: return percent(30) ? 0 : needed + 31;
    default: return needed;
    }
}

static struct answer ref;

static void both_check(const uint8_t *book, size_t len)
{
    doing("check");
    with_bytes("book", book, len);
    struct answer a = ref = soiled();
    ref.no = ref_check(book, len, &ref.cell[0]);
    const uint8_t *b = lay(&in1, where1, book, len);
    a.no = nwb_check(b, len, &cells[0].cell);
    compare(CHECK, &a, &ref, 1, input_kept(&in1, book, len), 0);
}

static void both_none(uint8_t area, uint16_t year, uint8_t month, size_t out_len)
{
    doing("none");
    with("area", area), with("year", year), with("month", month), with("out_len", (int64_t)out_len);
    struct answer a = ref = soiled();
    uint8_t *out = lend(out_len);
    ref.no = ref_none(area, year, month, ref_lent.at, out_len, &ref.cell[0], &ref.cell[1]);
    a.no = nwb_none(area, year, month, out, out_len, &cells[0].cell, &cells[1].cell);
    compare(NONE, &a, &ref, 2, 1, 1);
}

static void both_one(uint8_t area, uint16_t year, uint8_t month, const struct call *c, size_t out_len)
{
    doing("one");
    with("area", area), with("year", year), with("month", month), with("out_len", (int64_t)out_len);
    with("participant", c->participant), with("service", c->service), with("state", c->state), with("number", c->number);
    with("revision", c->revision), with("start", c->start), with("minutes", c->minutes), with("a", c->a), with("b", c->b), with("c", c->c);
    struct answer a = ref = soiled();
    uint8_t *out = lend(out_len);
    ref.no = ref_one(area, year, month, c->participant, c->service, c->state, c->number, c->revision, c->start, c->minutes, c->a, c->b, c->c,
                     ref_lent.at, out_len, &ref.cell[0], &ref.cell[1]);
    a.no = nwb_one(area, year, month, c->participant, c->service, c->state, c->number, c->revision, c->start, c->minutes, c->a, c->b, c->c,
                   out, out_len, &cells[0].cell, &cells[1].cell);
    compare(ONE, &a, &ref, 2, 1, 1);
}

static void both_join(const uint8_t *first, size_t len1, const uint8_t *second, size_t len2, size_t out_len)
{
    doing("join");
    with_bytes("first", first, len1), with_bytes("second", second, len2), with("out_len", (int64_t)out_len);
    struct answer a = ref = soiled();
    uint8_t *out = lend(out_len);
    ref.no = ref_join(first, len1, second, len2, ref_lent.at, out_len, &ref.cell[0], &ref.cell[1], &ref.cell[2]);
    const uint8_t *x = lay(&in1, where1, first, len1), *y = lay(&in2, where2, second, len2);
    a.no = nwb_join(x, len1, y, len2, out, out_len, &cells[0].cell, &cells[1].cell, &cells[2].cell);
    compare(JOIN, &a, &ref, 3, input_kept(&in1, first, len1) && input_kept(&in2, second, len2), 1);
}

static void both_tabs(const uint8_t *book, size_t len, size_t tabs_len)
{
    doing("tabs");
    with_bytes("book", book, len), with("tabs_len", (int64_t)tabs_len);
    struct answer a = ref = soiled();
    uint8_t *tabs = lend(tabs_len);
    ref.no = ref_tabs(book, len, ref_lent.at, tabs_len, &ref.cell[0]);
    const uint8_t *b = lay(&in1, where1, book, len);
    a.no = nwb_tabs(b, len, tabs, tabs_len, &cells[0].cell);
    compare(TABS, &a, &ref, 1, input_kept(&in1, book, len), 1);
}

/* The archive's page is held to the reference's, brought forward too, and both to the page of the joined book afresh. */
static void both_join_tabs(const uint8_t *first, size_t len1, const uint8_t *tabs, size_t tabs_len, const uint8_t *second, size_t len2, size_t out_len, size_t out_tabs_len)
{
    doing("join_tabs");
    with_bytes("first", first, len1), with_bytes("tabs", tabs, tabs_len), with_bytes("second", second, len2);
    with("out_len", (int64_t)out_len), with("out_tabs_len", (int64_t)out_tabs_len);
    struct answer a = ref = soiled();
    uint8_t *out = lend(out_len), *out_tabs = lay(&lent_tabs, where_out_tabs, NULL, out_tabs_len);
    area_lend(&ref_lent_tabs, where_out_tabs, NULL, out_tabs_len, salt);
    ref.no = ref_join_tabs(first, len1, tabs, tabs_len, second, len2, ref_lent.at, out_len, ref_lent_tabs.at, out_tabs_len, &ref.cell[0], &ref.cell[1], &ref.cell[2]);
    const uint8_t *x = lay(&in1, where1, first, len1), *t = lay(&in_tabs, where_tabs, tabs, tabs_len), *y = lay(&in2, where2, second, len2);
    a.no = nwb_join_tabs(x, len1, t, tabs_len, y, len2, out, out_len, out_tabs, out_tabs_len, &cells[0].cell, &cells[1].cell, &cells[2].cell);
    int kept = input_kept(&in1, first, len1) && input_kept(&in_tabs, tabs, tabs_len) && input_kept(&in2, second, len2);
    compare(JOIN_TABS, &a, &ref, 3, kept, 2);
    if (ref.no == 0) {
        uint8_t fresh[NWB_TABS];
        uint64_t place;
        if (ref_tabs(ref_lent.at, ref.cell[1], fresh, NWB_TABS, &place) != 0 || memcmp(fresh, ref_lent_tabs.at, NWB_TABS) != 0)
            different("the page brought forward against the joined book's own", &a, &ref, 2);
    }
}

static void both_find(const uint8_t *first, size_t len1, const uint8_t *second, size_t len2, uint16_t participant, uint32_t number)
{
    doing("find");
    with_bytes("first", first, len1), with_bytes("second", second, len2), with("participant", participant), with("number", number);
    struct answer a = ref = soiled();
    ref.no = ref_find(first, len1, second, len2, participant, number, &ref.cell[0]);
    const uint8_t *x = lay(&in1, where1, first, len1), *y = lay(&in2, where2, second, len2);
    a.no = nwb_find(x, len1, y, len2, participant, number, &cells[0].cell);
    compare(FIND, &a, &ref, 1, input_kept(&in1, first, len1) && input_kept(&in2, second, len2), 0);
}

static void both_score(uint16_t participant, uint8_t kind, uint32_t rated, const uint8_t *book, size_t len, const uint32_t *series, size_t series_len)
{
    doing("score");
    with_bytes("book", book, len), with_bytes("series", series, series_len * sizeof *series);
    with("participant", participant), with("kind", kind), with("rated", rated), with("series_len", (int64_t)series_len);
    struct answer a = ref = soiled();
    ref.no = ref_score(participant, kind, rated, book, len, series, series_len, &ref.cell[0], &ref.cell[1], &ref.cell[2]);
    const uint8_t *b = lay(&in1, where1, book, len);
    const void *s = lay(&in_series, where2 == ODD ? ALIGNED : where2, series, series_len * sizeof *series);
    a.no = nwb_score(participant, kind, rated, b, len, s, series_len, &cells[0].cell, &cells[1].cell, &cells[2].cell);
    compare(SCORE, &a, &ref, 3, input_kept(&in1, book, len) && input_kept(&in_series, series, series_len * sizeof *series), 0);
}

static void both_share(uint32_t part, const uint8_t *lines, size_t len, size_t out_len)
{
    doing("share");
    with_bytes("lines", lines, len), with("part", part), with("out_len", (int64_t)out_len);
    struct answer a = ref = soiled();
    uint8_t *out = lend(out_len);
    int64_t gap = (int64_t)garbage;
    ref.no = ref_share(part, lines, len, ref_lent.at, out_len, &ref.cell[0], &gap);
    ref.cell[1] = (uint64_t)gap;
    const uint8_t *l = lay(&in1, where1, lines, len);
    a.no = nwb_share(part, l, len, out, out_len, &cells[0].cell, (int64_t *)&cells[1].cell);
    compare(SHARE, &a, &ref, 2, input_kept(&in1, lines, len), 1);
}

static void both_ramp(uint16_t participant, uint8_t kind, uint32_t rated, const uint8_t *actions, size_t len)
{
    doing("ramp");
    with_bytes("actions", actions, len), with("participant", participant), with("kind", kind), with("rated", rated);
    struct answer a = ref = soiled();
    ref.no = ref_ramp(participant, kind, rated, actions, len, &ref.cell[0], &ref.cell[1]);
    const uint8_t *p = lay(&in1, where1, actions, len);
    a.no = nwb_ramp(participant, kind, rated, p, len, &cells[0].cell, &cells[1].cell);
    compare(RAMP, &a, &ref, 2, input_kept(&in1, actions, len), 0);
}

/* The answer is no refusal's number: it is held as if it stood in a cell. */
static void both_fen(uint64_t grains)
{
    doing("fen");
    with("grains", (int64_t)grains);
    struct answer a = ref = soiled();
    ref.cell[0] = ref_fen(grains);
    cells[0].cell = nwb_fen(grains);
    compare(FEN, &a, &ref, 1, 1, 0);
}

/* ---- sound calls and books ---- */

struct heading { uint8_t area; uint16_t year; uint8_t month; uint32_t minutes; };

static uint32_t minutes_in(uint32_t year, uint32_t month)
{
    static const uint32_t days[] = {31, 28, 31, 30, 31, 30, 31, 31, 30, 31, 30, 31};
    return 1440 * (days[month - 1] + (month == 2 && year % 4 == 0));
}

static struct heading draw_heading(void)
{
    struct heading h;
    h.area = (uint8_t)(1 + within(98));
    h.year = (uint16_t)(2024 + within(75));
    h.month = (uint8_t)(percent(30) ? 2 : 1 + below(12));
    h.minutes = minutes_in(h.year, h.month);
    return h;
}

/* Of a book that is scored: half of them before January 2027, from which month on black start is turned away, and often a month beside it. */
static struct heading draw_scored_heading(void)
{
    struct heading h = draw_heading();
    int before = percent(50), beside = percent(40);
    h.year = (uint16_t)(before ? (beside ? 2026 : 2024 + below(3)) : beside ? 2027 : 2027 + within(72));
    if (beside)
        h.month = (uint8_t)(before ? PICK(12, 12, 11, 1) : PICK(1, 1, 2, 12));
    h.minutes = minutes_in(h.year, h.month);
    return h;
}

static uint32_t draw_rate(void)
{
    return percent(50) ? within(10000) : PICK(7999, 8000, 8001, 8999, 9000, 9001, 9099, 9100, 9799, 9800, 9801, 9899, 9900, 9901, 9999, 10000);
}

static int32_t draw_signed(uint32_t most) { return percent(50) ? (int32_t)within(most) : -(int32_t)within(most); }

/* A live record's content for its service, sound in the month. */
static void draw_content(struct call *c, uint8_t service, uint32_t minutes)
{
    c->service = service;
    c->start = c->minutes = 0;
    c->a = 0;
    c->b = c->c = 0;
    switch (service) {
    case 1: case 2: {
        uint32_t quarters = minutes / 15, from = within(quarters - 1), most = quarters - from;
        c->start = (uint16_t)(15 * from);
        c->minutes = (uint16_t)(15 * (1 + (percent(70) ? below(most < 20 ? most : 20) : within(most - 1))));
        c->a = service == 2 ? (int32_t)within(4000000) : 0;
        break;
    }
    case 3: case 4: {
        uint32_t from = within(minutes - 1), most = minutes - from;
        c->start = (uint16_t)from;
        c->minutes = (uint16_t)(percent(50) ? 1 + within(most - 1) : PICK(1, 1439, 1440, 4320, 4321, 10079, 10080, 11520));
        if (c->minutes > most)
            c->minutes = (uint16_t)most;
        break;
    }
    case 6: case 7:
        c->b = draw_rate();
        break;
    case 8:
        c->start = (uint16_t)within(minutes);
        c->minutes = (uint16_t)within(minutes - c->start);
        c->a = percent(50) ? draw_signed(1000000000) : draw_signed(1000);
        c->b = percent(50) ? within(1000000000) : within(1000);
        c->c = percent(15);
        break;
    case 9:
        c->minutes = (uint16_t)within(minutes);
        c->b = draw_rate();
        c->c = draw_rate();
        break;
    case 10:
        c->start = (uint16_t)within(minutes);
        break;
    }
}

static uint32_t draw_revision(void) { return percent(90) ? 1 + below(3) : PICK(1, 2, 0x7fffffff, 0x80000000, 0xfffffffe, 0xffffffff); }

static void draw_state_and_content(struct call *c, uint32_t minutes)
{
    uint32_t dice = below(8);
    draw_content(c, 0, minutes);
    c->state = dice == 0 ? 1 : dice == 1 ? 2 : 0;
    if (c->state == 0)
        draw_content(c, (uint8_t)(1 + below(10)), minutes);
}

/* Mostly few; about a version's limit now and then, and for version 2 seldom, as such a case takes as long as a hundred others. */
static size_t draw_count(void)
{
    uint32_t dice = below(1000);
    if (dice >= 996 && versions == 2)
        return percent(50) ? 1998 + below(5) : 513 + below(1500);
    return dice < 600 ? below(5) : dice < 900 ? below(20) : dice < 984 ? below(100) : percent(50) ? below(513) : versions == 2 ? 510 + below(6) : 512 - below(3);
}

/* A book of so many records is of either version where both may have them, and now and then of version 1 where that may not. */
static uint32_t draw_version(size_t records)
{
    return versions == 1 || percent(records <= MOST_1 ? 60 : 10) ? 1 : 2;
}

/* A pool of rising keys with up to three sound records for each, often equal or nearly so: books drawn from one pool meet at every
 * turn of the joining rule. */
enum { POOL_MOST = 2400, POOL_DRAWN = 520, VARIANTS = 3 };
static struct { struct heading h; size_t keys; uint8_t records[POOL_MOST][VARIANTS][32]; } pool;

static int record_sound(const uint8_t *record)
{
    uint8_t book[48];
    uint64_t place;
    put_book(book, pool.h.area, pool.h.year, pool.h.month, NULL, 0);
    book[10] = 1;
    memcpy(book + 16, record, 32);
    return ref_check(book, 48, &place) == 0;
}

static void draw_variant(uint8_t *record, const uint8_t *other, struct call c)
{
    memcpy(record, other, 32);
    switch (below(8)) {
    case 0: case 1: /* equal */
        return;
    case 2: case 3: /* another revision only */
        put_bytes(record + 8, draw_revision(), 4);
        return;
    case 4: case 5: /* one bit of the content, if that leaves it sound */
        for (int tries = 0; tries < 6; tries++) {
            uint32_t bit = 12 * 8 + below(16 * 8);
            record[bit / 8] ^= (uint8_t)(1u << bit % 8);
            if (record_sound(record))
                return;
            record[bit / 8] ^= (uint8_t)(1u << bit % 8);
        }
        return;
    default:
        draw_state_and_content(&c, pool.h.minutes);
        c.revision = percent(50) ? (uint32_t)get_bytes(other + 8, 4) : draw_revision();
        put_call(record, &c);
    }
}

static void draw_pool(size_t keys)
{
    struct call c;
    pool.h = draw_heading();
    pool.keys = keys;
    c.participant = (uint16_t)(1 + below(3));
    c.number = percent(70) ? below(4) : (uint32_t)(next() >> 33);
    for (size_t i = 0; i < keys; i++) {
        if (i < POOL_DRAWN) {
            draw_state_and_content(&c, pool.h.minutes);
            c.revision = draw_revision();
            put_call(pool.records[i][0], &c);
            for (int v = 1; v < VARIANTS; v++)
                draw_variant(pool.records[i][v], pool.records[i][below((uint32_t)v)], c);
        } else { /* an earlier key's records again, since drawing is what takes long */
            memcpy(pool.records[i], pool.records[i - POOL_DRAWN], sizeof pool.records[i]);
            for (int v = 0; v < VARIANTS; v++)
                put_bytes(pool.records[i][v], c.participant, 2), put_bytes(pool.records[i][v] + 4, c.number, 4);
        }
        if (c.participant < 64 && (c.number == UINT32_MAX || below((uint32_t)keys + 8) < 8)) {
            c.participant = (uint16_t)(c.participant + 1 + below(c.participant < 60 ? 3 : 1));
            c.number = PICK(0, 1, 7, 255, 256, 0x7fffffff);
        } else if (c.participant < 64 && percent(2)) {
            c.number = UINT32_MAX; /* never below the one before, and the next participant is free */
            if (i + 1 < keys && get_bytes(pool.records[i][0] + 4, 4) == UINT32_MAX)
                c.participant++;
        } else {
            c.number += percent(70) ? 1 : 1 + below(1000);
        }
    }
}

static size_t begin_book(uint8_t *book) { return put_book(book, pool.h.area, pool.h.year, pool.h.month, NULL, 0); }

/* The version once the records are there. */
static void end_book(uint8_t *book, size_t len) { book[4] = (uint8_t)draw_version((len - 16) / 32); }

static void add_record(uint8_t *book, size_t *len, const uint8_t *record)
{
    memcpy(book + *len, record, 32);
    *len += 32;
    put_bytes(book + 10, (*len - 16) / 32, 2);
}

/* A book of about `share` percent of the pool's keys, at most so many. */
static size_t draw_book_of(uint8_t *book, uint32_t share, size_t most)
{
    size_t len = begin_book(book);
    for (size_t i = 0; i < pool.keys && len < 16 + 32 * most; i++)
        if (percent(share))
            add_record(book, &len, pool.records[i][below(VARIANTS)]);
    end_book(book, len);
    return len;
}

/* It may have more than its version allows. */
static size_t draw_book(uint8_t *book, uint32_t share) { return draw_book_of(book, share, MOST_2 + 2); }

static uint32_t draw_share(void) { return PICK(100, 90, 70, 50, 50, 30, 10); }

/* The pool's members moved up together, so that the last members have records too. */
static void lift_pool(void)
{
    uint32_t highest = pool.keys > 0 ? (uint32_t)get_bytes(pool.records[pool.keys - 1][0], 2) : 64;
    uint32_t by = percent(50) ? 64 - highest : below(65 - highest);
    for (size_t i = 0; by > 0 && i < pool.keys; i++)
        for (int v = 0; v < VARIANTS; v++)
            put_bytes(pool.records[i][v], get_bytes(pool.records[i][v], 2) + by, 2);
}

/* ---- damage ---- */

enum { BOOK_ROOM = BOOK_MOST + 64 };

static const struct { uint8_t offset, size; } record_fields[] = {{0, 2}, {2, 1}, {3, 1}, {4, 4}, {8, 4}, {12, 2}, {14, 2}, {16, 4}, {20, 4}, {24, 4}, {28, 4}};

static uint32_t edge(void)
{
    return PICK(0, 1, 2, 3, 5, 6, 7, 8, 9, 10, 11, 14, 15, 16, 30, 64, 65, 255, 256, 512, 9999, 10000, 10001, 40320, 40321, 41760, 41761, 43200, 43201,
                44625, 44640, 44641, 65520, 65535, 4000000, 4000001, 1000000000, 1000000001, (uint32_t)-1000000000, (uint32_t)-1000000001,
                0x7fffffff, 0x80000000, 0xffffffff, 0xfffffffe);
}

static size_t damage_once(uint8_t *b, size_t len)
{
    size_t n = len < 16 ? 0 : (len - 16) / 32;
    uint8_t *r = b + 16 + (n > 0 ? 32 * (percent(30) ? n - 1 : below((uint32_t)n)) : 0), swap[32];
    switch (below(14)) {
    case 0: case 1: /* a bit */
        if (len > 0)
            b[below((uint32_t)len)] ^= (uint8_t)(1u << below(8));
        break;
    case 2: /* a byte */
        if (len > 0)
            b[below((uint32_t)len)] = (uint8_t)next();
        break;
    case 3: /* a bit or a byte of the header */
        if (len >= 16)
            b[below(16)] ^= (uint8_t)(percent(50) ? next() : 1u << below(8));
        break;
    case 4: /* header values at and past their edges */
        switch (len < 16 ? 99 : below(4)) {
        case 0: b[3] = (uint8_t)PICK(0, 1, 99, 100, 255); break;
        case 1: put_bytes(b + 6, PICK(2023, 2024, 2099, 2100, 0, 65535), 2); break;
        case 2: b[8] = (uint8_t)PICK(0, 1, 2, 12, 13, 255); break;
        case 3: b[4 + below(2)] = (uint8_t)PICK(0, 1, 2, 3, 255); break;
        }
        break;
    case 5: /* a lying count */
        if (len >= 16)
            put_bytes(b + 10, PICK((uint32_t)n + 1, (uint32_t)n - 1, 0, 512, 513, 2000, 2001, 65535, 256 * (uint32_t)n), 2);
        break;
    case 6: /* cut off */
        len = percent(50) ? below((uint32_t)len + 1) : len - below((uint32_t)(len < 40 ? len : 40));
        break;
    case 7: /* cut off inside the header */
        if (percent(40))
            len = len < 16 ? len : below(16);
        break;
    case 8: /* something behind the book, the count told or not */
        if (n > 0 && len + 32 <= BOOK_ROOM) {
            size_t more = percent(50) ? 32 : 1 + below(32);
            memmove(b + len, b + len - 32, more);
            len += more;
            if (percent(70))
                put_bytes(b + 10, n + 1, 2);
        }
        break;
    case 9: /* neighbours swapped */
        if (n > 1) {
            r = b + 16 + 32 * below((uint32_t)n - 1);
            memcpy(swap, r, 32), memcpy(r, r + 32, 32), memcpy(r + 32, swap, 32);
        }
        break;
    case 10: /* the key of the one before */
        if (n > 1) {
            r = b + 16 + 32 * below((uint32_t)n - 1);
            memcpy(r + 32, r, 2), memcpy(r + 36, r + 4, 4);
        }
        break;
    default: /* a field at or past an edge */
        if (n > 0) {
            size_t f = below(sizeof record_fields / sizeof *record_fields);
            put_bytes(r + record_fields[f].offset, edge(), record_fields[f].size);
        }
    }
    return len;
}

static size_t damage(uint8_t *b, size_t len)
{
    uint32_t dice = below(10);
    for (int times = dice < 6 ? 1 : dice < 9 ? 2 : 3; times > 0; times--)
        len = damage_once(b, len);
    if (versions == 1 && len >= 6 && get_bytes(b + 4, 2) == 2)
        b[4] = 3;
    return len;
}

/* A field of a page, of a member that has records or of any: by one, at an edge, exchanged; or a record more. */
static void damage_page(uint8_t *tabs)
{
    const uint8_t *r = pool.keys > 0 && percent(60) ? pool.records[below((uint32_t)pool.keys)][0] : NULL;
    uint8_t *tab = tabs + 10 * (r ? get_bytes(r, 2) - 1 : within(63)), *field = tab + 2 * below(5), *other = tab + 4 + 2 * below(3), swap[2];
    switch (below(7)) {
    case 0: tabs[below(NWB_TABS)] ^= (uint8_t)(1u << below(8)); break;
    case 1: put_bytes(field, get_bytes(field, 2) + (percent(50) ? 1 : 65535), 2); break;
    case 2: put_bytes(field, PICK(0, 1, 2, 255, 256, 512, 2000, 65535), 2); break;
    case 3: put_bytes(tab, 0, 2); break;
    case 4: /* two states, or index and count */
        field = percent(30) ? tab + 2 : tab + 4 + 2 * below(3), other = field == tab + 2 ? tab : other;
        memcpy(swap, field, 2), memcpy(field, other, 2), memcpy(other, swap, 2);
        break;
    case 5: put_bytes(tab + 2, get_bytes(tab + 2, 2) + 1, 2), put_bytes(other, get_bytes(other, 2) + 1, 2); break;
    default: field[1] ^= (uint8_t)(1 + below(255));
    }
}

/* ---- the cases ---- */

static uint8_t book1[BOOK_ROOM], book2[BOOK_ROOM], tabs1[NWB_TABS + 64];

/* book1's page, mostly the right one, of 640 bytes; else wrong in a field or two, of any length, or another book's: of book2, or of book1 as it was before
 * a call was entered, contested or withdrawn. Gives its length. */
static size_t draw_page(size_t len1, size_t len2)
{
    static uint8_t before[BOOK_ROOM];
    uint32_t dice = below(100);
    uint64_t place;
    size_t n = (len1 - 16) / 32;
    memset(tabs1, 0, sizeof tabs1); /* so it stays where the book has none */
    if (dice < 8 && n > 0) {
        uint8_t *r = before + 16 + 32 * below((uint32_t)n);
        memcpy(before, book1, len1);
        if (percent(40)) {
            memmove(r, r + 32, (size_t)(before + len1 - r) - 32);
            put_bytes(before + 10, n - 1, 2), len1 -= 32;
        } else {
            r[2] = 0, r[3] = (uint8_t)(1 + below(2)), memset(r + 12, 0, 20);
        }
        ref_tabs(before, len1, tabs1, NWB_TABS, &place);
    } else if (dice < 11) {
        ref_tabs(book2, len2, tabs1, NWB_TABS, &place);
    } else if (dice >= 13) { /* and at 11 and 12 it stays zeros too */
        ref_tabs(book1, len1, tabs1, NWB_TABS, &place);
    }
    if (percent(15))
        damage_page(tabs1);
    if (percent(4))
        damage_page(tabs1);
    if (percent(20))
        memset(tabs1 + NWB_TABS, (int)below(256), 64);
    dice = below(100);
    return dice < 80 ? NWB_TABS : dice < 90 ? NWB_TABS + below(65) : percent(60) ? below(NWB_TABS) : percent(70) ? 10 * (1 + within(63)) - below(2) : 0;
}

static void case_check(void)
{
    draw_pool(draw_count());
    size_t len = draw_book(book1, 100);
    if (percent(75))
        len = damage(book1, len);
    both_check(book1, len);
}

static void draw_bad_heading(struct heading *h)
{
    switch (below(3)) {
    case 0: h->area = (uint8_t)PICK(0, 1, 99, 100, 255); break;
    case 1: h->year = (uint16_t)PICK(0, 2023, 2024, 2099, 2100, 65535); break;
    default: h->month = (uint8_t)PICK(0, 1, 12, 13, 255);
    }
}

static void case_none(void)
{
    struct heading h = draw_heading();
    if (percent(30))
        draw_bad_heading(&h);
    both_none(h.area, h.year, h.month, room_for(16));
}

static void case_one(void)
{
    struct heading h = draw_heading();
    struct call c;
    c.participant = (uint16_t)(1 + within(63));
    c.number = within(UINT32_MAX);
    draw_state_and_content(&c, h.minutes);
    c.revision = draw_revision();
    for (int times = percent(50) ? 1 + (int)below(2) : 0; times > 0; times--)
        switch (below(10)) {
        case 0: c.participant = (uint16_t)edge(); break;
        case 1: c.service = (uint8_t)edge(); break;
        case 2: c.state = (uint8_t)edge(); break;
        case 3: c.number = edge(); break;
        case 4: c.revision = edge(); break;
        case 5: c.start = (uint16_t)(percent(50) ? edge() : h.minutes - c.minutes + below(3) - 1); break;
        case 6: c.minutes = (uint16_t)(percent(50) ? edge() : h.minutes - c.start + below(3) - 1); break;
        case 7: c.a = (int32_t)(int64_t)edge(); break;
        case 8: c.b = edge(); break;
        default: c.c = edge();
        }
    if (percent(15))
        draw_bad_heading(&h);
    both_one(h.area, h.year, h.month, &c, room_for(48));
}

/* The join's room is drawn around what it needs, so the reference is asked first. */
static void join_with_room(size_t len1, size_t len2)
{
    static uint8_t out[BOOK_MOST];
    uint64_t place, length, turns;
    uint32_t no = ref_join(book1, len1, book2, len2, out, sizeof out, &place, &length, &turns);
    if (versions == 1 && (no == 8 || length > BOOK_MOST_1))
        return;
    both_join(book1, len1, book2, len2, no == 0 ? room_for(length) : percent(50) ? 0 : no == 8 ? BOOK_MOST + below(100) : below(2000));
}

static void mismatch(uint8_t *book)
{
    switch (below(3)) {
    case 0: book[3] = (uint8_t)(1 + book[3] % 99); break;
    case 1: put_bytes(book + 6, 2024 + below(76), 2); break;
    default: book[8] = (uint8_t)(1 + book[8] % 12);
    }
}

static void case_join(void)
{
    draw_pool(draw_count());
    size_t len1 = draw_book(book1, draw_share()), len2 = draw_book(book2, draw_share());
    if (percent(6))
        mismatch(percent(50) ? book1 : book2);
    if (percent(15))
        len1 = damage(book1, len1);
    if (percent(20))
        len2 = damage(book2, len2);
    join_with_room(len1, len2);
}

/* Unions of 510 to 515 keys, and seldom of 1,998 to 2,003, with few or many keys in both. */
static void draw_full_books(size_t *full1, size_t *full2)
{
    draw_pool(versions == 2 && percent(20) ? 1998 + below(6) : 510 + below(6));
    uint32_t in_both = PICK(0, 1, 5, 50, 95, 100), in_first = PICK(1, 50, 99, 100);
    size_t most = versions == 2 && percent(50) ? MOST_2 : MOST_1, len1 = begin_book(book1), len2 = begin_book(book2);
    for (size_t i = 0; i < pool.keys; i++) {
        int both = percent(in_both), first = both || percent(in_first), second = both || !first;
        if (first && len1 < 16 + 32 * most)
            add_record(book1, &len1, pool.records[i][below(VARIANTS)]);
        else
            second = 1;
        if (second && len2 < 16 + 32 * (MOST_2 + 2))
            add_record(book2, &len2, pool.records[i][below(VARIANTS)]);
    }
    end_book(book1, len1), end_book(book2, len2);
    *full1 = len1, *full2 = len2;
}

static void case_join_full(void)
{
    size_t len1, len2;
    draw_full_books(&len1, &len2);
    if (percent(5))
        mismatch(book2);
    if (percent(5))
        len1 = damage(book1, len1);
    if (percent(10))
        len2 = damage(book2, len2);
    join_with_room(len1, len2);
}

static void case_tabs(void)
{
    draw_pool(draw_count());
    lift_pool();
    size_t len = draw_book(book1, draw_share());
    if (percent(35))
        len = damage(book1, len);
    both_tabs(book1, len, room_for(NWB_TABS));
}

/* Both rooms around what is needed, as of a join. */
static void join_tabs_with_rooms(size_t len1, size_t tabs_len, size_t len2)
{
    static uint8_t out[BOOK_MOST], out_tabs[NWB_TABS];
    uint64_t place, length, turns;
    uint32_t no = ref_join_tabs(book1, len1, tabs1, tabs_len, book2, len2, out, sizeof out, out_tabs, sizeof out_tabs, &place, &length, &turns);
    if (versions == 1 && (no == 8 || length > BOOK_MOST_1))
        return;
    size_t room = no == 0 ? room_for(length) : percent(50) ? 0 : no == 8 ? BOOK_MOST + below(100) : below(2000);
    size_t page_room = (no == 7 || no == 8) && percent(50) ? below(NWB_TABS) : percent(75) ? NWB_TABS : room_for(NWB_TABS); /* 9 must stand behind those two */
    both_join_tabs(book1, len1, tabs1, tabs_len, book2, len2, room, page_room);
}

static void case_join_tabs(void)
{
    draw_pool(draw_count());
    lift_pool();
    size_t len1 = draw_book(book1, draw_share()), len2 = draw_book(book2, draw_share()), tabs_len = draw_page(len1, len2);
    uint32_t worse = percent(10) ? 6 : 1; /* then faults come in company, and their order shows */
    if (percent(5 * worse))
        mismatch(percent(50) ? book1 : book2);
    if (percent(7 * worse))
        len1 = damage(book1, len1);
    if (percent(9 * worse))
        len2 = damage(book2, len2);
    join_tabs_with_rooms(len1, tabs_len, len2);
}

static void case_join_tabs_full(void)
{
    size_t len1, len2;
    draw_full_books(&len1, &len2);
    size_t tabs_len = draw_page(len1, len2);
    if (percent(5))
        mismatch(book2);
    join_tabs_with_rooms(len1, tabs_len, len2);
}

/* Books with their pages, joined two at a time in any order and grouping: the page of each node is its book's own, and is given to the next. */
static void case_paged_tree(void)
{
    enum { ITEMS = 6 };
    static uint8_t items[ITEMS][BOOK_MOST], pages[ITEMS][NWB_TABS];
    size_t len[ITEMS], left = 2 + below(ITEMS - 1);
    uint64_t place;
    draw_pool(percent(97) ? below(24) : below(200));
    lift_pool();
    uint32_t share = draw_share();
    for (size_t i = 0; i < left; i++) {
        len[i] = draw_book_of(items[i], share, MOST_1);
        ref_tabs(items[i], len[i], pages[i], NWB_TABS, &place);
    }
    while (left > 1) {
        size_t i = below((uint32_t)left), j = below((uint32_t)left - 1);
        j += j >= i;
        both_join_tabs(items[i], len[i], pages[i], NWB_TABS, items[j], len[j], len[i] + len[j] + below(40), NWB_TABS + below(40));
        if (ref.no != 0 || differences != 0)
            break;
        len[i] = (size_t)ref.cell[1];
        memcpy(items[i], lent.at, len[i]), memcpy(pages[i], lent_tabs.at, NWB_TABS);
        left--;
        if (j != left) /* the last moves into the gap; it may be the result itself */
            memcpy(items[j], items[left], len[left]), memcpy(pages[j], pages[left], NWB_TABS), len[j] = len[left];
    }
    if (left > 1 && differences == 0)
        different("a node of a tree with pages is refused", &ref, &ref, 0);
}

static void case_find(void)
{
    static uint8_t out[BOOK_MOST];
    int many = versions == 2 && percent(1) && percent(40); /* more than 2,000 keys in two sound books, which is nothing to a lookup */
    size_t keys = draw_count();
    draw_pool(many ? POOL_MOST : percent(3) ? 400 + below(120) : keys);
    size_t len1 = draw_book(book1, many ? PICK(60, 70, 80) : draw_share()), len2 = draw_book(book2, many ? PICK(60, 70, 80) : draw_share());
    uint16_t participant = (uint16_t)(percent(50) ? PICK(0, 1, 2, 64, 65, 65535) : 1 + below(64));
    uint32_t number = edge();
    if (pool.keys > 0 && percent(85)) {
        const uint8_t *r = pool.records[below((uint32_t)pool.keys)][0];
        participant = (uint16_t)get_bytes(r, 2);
        number = (uint32_t)get_bytes(r + 4, 4);
        if (percent(5))
            number += percent(50) ? 1 : (uint32_t)-1;
        if (percent(2))
            participant = (uint16_t)(participant + 256);
    }
    int bad = 0;
    if (percent(4))
        bad = 1, mismatch(book2);
    if (percent(8))
        bad = 1, len1 = damage(book1, len1);
    if (percent(8))
        bad = 1, len2 = damage(book2, len2);
    both_find(book1, len1, book2, len2, participant, number);
    if (bad) { /* which of joining's numbers stands behind the empty answer; those from 3 on do not meet the answers 0, 1 and 2 */
        uint64_t place, length, turns;
        uint32_t no = ref_join(book1, len1, book2, len2, out, sizeof out, &place, &length, &turns);
        if (no == 1 || no == 2)
            reached[FIND][no + 9]++; /* kept apart, at 10 and 11 */
        else if (no != 0 && no != 8)
            reached[FIND][no]++;
    }
}

/* Would this window meet an earlier one of the same service among `calls`? */
static int meets(const struct call *calls, size_t n, const struct call *c)
{
    for (size_t i = 0; i < n; i++)
        if (calls[i].state == 0 && calls[i].service == c->service
            && (c->service > 4 || (c->start < calls[i].start + calls[i].minutes && calls[i].start < c->start + c->minutes)))
            return 1;
    return 0;
}

static uint64_t record_key(const uint8_t *record) { return get_bytes(record, 2) << 32 | get_bytes(record + 4, 4); }

/* A record put among those of book2, whose keys rise, and none of which is its own. */
static void insert_record(size_t *len, const uint8_t *record)
{
    size_t at = 16;
    while (at < *len && record_key(book2 + at) < record_key(record))
        at += 32;
    memmove(book2 + at + 32, book2 + at, *len - at);
    memcpy(book2 + at, record, 32);
    *len += 32;
    put_bytes(book2 + 10, (*len - 16) / 32, 2);
}

/* A place among the member's windows of services 1 and 2 in book1 that have a quarter hour inside, any one; 0 where there is none. */
static size_t draw_window(uint16_t participant, size_t len)
{
    size_t chosen = 0;
    uint32_t found = 0;
    for (size_t at = 16; at < len; at += 32) {
        const uint8_t *r = book1 + at;
        if (get_bytes(r, 2) == participant && r[3] == 0 && (r[2] == 1 || r[2] == 2) && get_bytes(r + 14, 2) > 15 && below(++found) == 0)
            chosen = at;
    }
    return chosen;
}

/* A call number that none of the member's calls in book1 has, often beside the one that is given, below it or above. */
static uint32_t draw_new_number(uint16_t participant, uint32_t number, size_t len)
{
    for (;;) {
        uint32_t drawn = percent(20) ? (uint32_t)next() : percent(50) ? number - 1 - below(4) : number + 1 + below(4), taken = 0;
        for (size_t at = 16; at < len; at += 32)
            taken |= record_key(book1 + at) == ((uint64_t)participant << 32 | drawn);
        if (!taken)
            return drawn;
    }
}

static uint64_t cuts_below, cuts_above; /* by the new number, below the window's or above it */

/* A window of the member's in book1, which scores, cut in two at a quarter hour: either part keeps the number, and at any revision. The cut book pays the same. */
static void score_cut(uint16_t participant, uint8_t kind, uint32_t rated, size_t len, const uint32_t *series, size_t series_len)
{
    size_t at = draw_window(participant, len), len2 = len - 32;
    if (at == 0 || (len - 16) / 32 == (book1[4] == 1 ? MOST_1 : MOST_2))
        return;
    const struct answer whole = ref;
    uint8_t first[32], second[32];
    memcpy(first, book1 + at, 32);
    memcpy(second, book1 + at, 32);
    uint32_t start = (uint32_t)get_bytes(first + 12, 2), minutes = (uint32_t)get_bytes(first + 14, 2), before = 15 * (1 + within(minutes / 15 - 2));
    put_bytes(first + 14, before, 2);
    put_bytes(second + 12, start + before, 2), put_bytes(second + 14, minutes - before, 2);
    put_bytes(first + 8, draw_revision(), 4), put_bytes(second + 8, draw_revision(), 4);
    uint32_t number = (uint32_t)get_bytes(first + 4, 4), drawn = draw_new_number(participant, number, len);
    put_bytes((percent(70) ? second : first) + 4, drawn, 4);
    memcpy(book2, book1, at);
    memcpy(book2 + at, book1 + at + 32, len - at - 32);
    insert_record(&len2, first);
    insert_record(&len2, second);
    both_score(participant, kind, rated, book2, len2, series, series_len);
    *(drawn < number ? &cuts_below : &cuts_above) += 1;
    if (ref.no != whole.no || memcmp(ref.cell, whole.cell, sizeof ref.cell) != 0)
        different("a window cut in two, against the whole window", &ref, &whole, 0);
}

/* Mostly books that score: services open to the kind, windows that at most meet; now and then one that is not. */
static void case_score(void)
{
    static const uint8_t open[8][10] = {{1, 2, 3, 4, 5, 6, 7, 8, 9, 10}, {2, 3, 5, 6, 7, 8, 9, 10}, {2, 3, 5, 6, 7, 8, 9, 10}, {5, 7, 8, 9, 10}, {5, 7, 8, 9, 10},
                                        {5, 6, 7, 8, 9, 10}, {5, 6, 7, 8, 9, 10}, {5, 6, 7, 8, 9, 10}};
    static const uint8_t open_count[8] = {10, 8, 8, 5, 5, 6, 6, 6};
    static struct call calls[MOST_2];
    static uint32_t series[3000];
    uint16_t participant = (uint16_t)(1 + within(63));
    uint8_t kind = (uint8_t)(percent(35) ? 1 : 1 + below(8));
    uint32_t rated = percent(50) ? 1 + within(3999999) : PICK(1, 2, 3, 7, 10, 29999, 30000, 299999, 300000, 300001, 1499999, 1500000, 1500001, 2999999, 3000000, 3000001);
    struct heading h = draw_scored_heading();
    pool.h = h;
    size_t own = percent(98) ? below(10) : below(400), n = 0, len, series_len = h.minutes / 15;
    int storage = versions == 2 && percent(1) && percent(40); /* a month of events and trips alone */
    uint8_t only = (uint8_t)(storage || kind > 3 || percent(85) ? 0 : kind == 1 ? 1 + below(4) : 2 + below(2)); /* windows of one service that lie close together */
    if (storage)
        own = percent(50) ? MOST_2 - 7 + below(4) : below(MOST_2 - 7); /* with up to six of others */
    uint32_t a = rated, number = below(3), careful = PICK(100, 100, 100, 98, 80, 50);
    uint32_t worse = percent(10) ? 8 : 1; /* then faults come in company, and their order shows */

    len = begin_book(book1);
    struct call c;
    uint8_t record[32];
    for (uint32_t others = below(4); participant > 1 && others > 0; others--) {
        c.participant = others > 1 ? 1 : (uint16_t)(1 + (participant - 1) / 2); /* below the member's, both */
        c.number = 10 - others, c.revision = draw_revision();
        draw_state_and_content(&c, h.minutes);
        put_call(record, &c);
        add_record(book1, &len, record);
    }
    for (size_t i = 0; i < own; i++, number += 1 + below(3)) {
        c.participant = participant;
        c.number = number, c.revision = draw_revision();
        for (int tries = 0; tries < 8; tries++) {
            uint32_t dice = below(100);
            draw_content(&c, 0, h.minutes);
            c.state = dice < 5 ? 2 : dice < 7 && !percent(careful) ? 1 : 0;
            if (c.state != 0)
                break;
            uint8_t service = storage ? (uint8_t)PICK(8, 8, 10) : only ? only : percent(careful) ? open[kind - 1][below(open_count[kind - 1])] : (uint8_t)(1 + below(10));
            if (service == 5 && h.year >= 2027 && percent(90)) /* else most of these books would stop in 12 */
                service = 10;
            draw_content(&c, service, h.minutes);
            if (only) {
                c.start = (uint16_t)(c.start % 900); /* still a multiple of 15 where it was one */
                c.minutes = (uint16_t)(15 * (1 + below(8)));
            }
            if (c.service <= 4 && n > 0 && percent(40)) { /* against an earlier one's end */
                const struct call *e = &calls[below((uint32_t)n)];
                uint32_t start = e->start + e->minutes;
                if (c.service >= 3 || start % 15 == 0)
                    if (start + c.minutes <= h.minutes)
                        c.start = (uint16_t)start;
            }
            if (c.service == 2 && percent(careful)) {
                c.a = kind == 1 ? 1 + (int32_t)within(rated - 1) : 0;
                a = kind == 1 ? (uint32_t)c.a : a;
            }
            if (c.service == 8 && (kind == 4 || kind == 5) && percent(careful))
                c.a = 0, c.b = draw_rate();
            if (c.service == 8 || c.service == 10 || !meets(calls, n, &c) || !percent(careful))
                break;
            c.state = 2; /* if the tries run out */
            draw_content(&c, 0, h.minutes);
        }
        calls[n++] = c;
        put_call(record, &c);
        add_record(book1, &len, record);
    }
    if (participant < 64)
        for (uint32_t others = below(4); others > 0; others--) {
            c.participant = participant + 1;
            c.number = 100 - others, c.revision = draw_revision();
            draw_state_and_content(&c, h.minutes);
            put_call(record, &c);
            add_record(book1, &len, record);
        }
    end_book(book1, len);

    /* Outputs around the edges of the bands: half, 70%, and what was called. */
    uint32_t half = rated / 2, seventy = (uint32_t)((uint64_t)rated * 7 / 10);
    uint32_t values[16] = {0, half, half + 1, half - (half > 0), seventy, seventy + 1, seventy - (seventy > 0), a, a - 1, a + 1, rated, 5000000, below(5000001), below(rated + 1), below(rated + 1), below(half + 1)};
    for (int i = 0; i < 16; i++)
        if (values[i] > 5000000)
            values[i] = 5000000;
    uint64_t bits = 0;
    for (size_t i = 0; i < series_len; i++, bits >>= 4) {
        if (i % 16 == 0)
            bits = next();
        series[i] = values[bits & 15];
    }

    if (percent(4 * worse))
        switch (below(3)) {
        case 0: participant = (uint16_t)PICK(0, 65, 256, 257, 65535); break;
        case 1: kind = (uint8_t)PICK(0, 9, 255); break;
        default: rated = PICK(0, 4000001, 0xffffffff);
        }
    if (percent(6 * worse))
        len = damage(book1, len);
    if (percent(4 * worse))
        for (uint32_t times = 1 + below(3); times > 0; times--)
            series[percent(20) ? series_len - 1 : below((uint32_t)series_len)] = PICK(5000000, 5000001, 0x7fffffff, 0x80000000, 0xffffffff);
    if (percent(3 * worse)) {
        size_t longer = series_len + 1;
        series[series_len] = PICK(0, 5000001);
        series_len = percent(40) ? longer : percent(50) ? series_len - 1 : PICK(0, 1, 2688, 2784, 2880, 2976);
    }
    both_score(participant, kind, rated, book1, len, series, series_len);
    if (ref.no == 0)
        score_cut(participant, kind, rated, len, series, series_len);
}

/* The generators' part: any, often the whole, none, or one beside these; now and then above the whole. */
static uint32_t draw_part(void)
{
    uint32_t dice = below(100);
    return dice < 40 ? within(10000) : dice < 60 ? 10000 : dice < 93 ? PICK(0, 1, 2, 3333, 4999, 5000, 5001, 9998, 9999) : dice < 97 ? 10001 : 10001 + within(UINT32_MAX - 10001);
}

static void case_share(void)
{
    static const uint64_t most_fen = 100000000000;
    static struct line l[66];
    static uint8_t bytes[66 * 24 + 24];
    uint32_t dice = below(100);
    size_t n = dice < 55 ? below(7) : dice < 95 ? below(65) : dice < 98 ? 64 : 65 + below(2);
    uint32_t energies = below(6), comps = below(6), assessed = below(5), statuses = below(5), number = 0;
    uint32_t equal = PICK(1, 2, 3, 7, 5000000);
    uint64_t sum = 0;
    for (size_t i = 0; i < n; i++) {
        uint32_t free = n <= 64 ? 64 - number - (uint32_t)(n - i) : 0; /* numbers that may be left out */
        number += 1 + (free > 0 ? below(free < 4 ? free + 1 : 4) : 0);
        l[i].number = (uint16_t)number;
        l[i].status = (uint8_t)(statuses < 3 ? below(3) : statuses == 3 ? 0 : 2);
        l[i].energy = energies == 0 ? equal : energies == 1 ? below(5) : energies == 2 ? 0 : energies == 3 ? within(5000000)
                    : l[i].status == 1 ? 2 * equal % 5000001 : equal; /* status 1 at double energy ties with status 0 */
        l[i].assessment = assessed == 0 ? 0 : assessed == 1 ? below(4) : assessed == 2 ? 10000000 : within(10000000);
        uint64_t part = most_fen / (n ? n : 1);
        l[i].compensation = comps == 0 ? 0 : comps == 1 ? below(200) : comps == 2 ? next() % (part + 1) : comps == 3 ? (i == 0 ? most_fen : 0)
                          : comps == 4 ? (uint64_t)l[i].assessment * 100 : next() % (2 * part);
        sum += l[i].compensation;
    }
    /* R = 0 with sums moved about; a fen beside it; C at its limit and one above. */
    if (n > 1 && comps == 4 && percent(50)) {
        uint64_t c = l[0].compensation;
        l[0].compensation = l[n - 1].compensation;
        l[n - 1].compensation = c + (percent(30) ? 1 : 0);
    }
    if (n > 0 && percent(10)) {
        size_t i = below((uint32_t)n);
        uint64_t rest = sum - l[i].compensation;
        if (rest <= most_fen)
            l[i].compensation = most_fen - rest + below(2);
    }
    size_t len = put_lines(bytes, l, n);
    if (percent(18) && n > 0)
        for (uint32_t times = 1 + below(2); times > 0; times--) {
            static const struct { uint8_t offset, size; } fields[] = {{0, 2}, {2, 1}, {3, 1}, {4, 4}, {8, 8}, {16, 4}, {20, 4}};
            uint8_t *at = bytes + 24 * below((uint32_t)n), swap[24];
            size_t f = below(7);
            switch (below(7)) {
            case 0: bytes[below((uint32_t)len)] ^= (uint8_t)(1u << below(8)); break;
            case 1: put_bytes(at + fields[f].offset, edge(), fields[f].size); break;
            case 2: put_bytes(at + fields[f].offset, PICK(0, 1, 2, 3, 63, 64, 65, 5000000, 5000001, 10000000, 10000001), fields[f].size); break;
            case 3: put_bytes(at + 8, percent(50) ? most_fen + below(2) : next(), 8); break;
            case 4:
                if (n > 1) {
                    at = bytes + 24 * below((uint32_t)n - 1);
                    memcpy(swap, at, 24), memcpy(at, at + 24, 24), memcpy(at + 24, swap, 24);
                }
                break;
            case 5: /* the number of the line before */
                if (at > bytes)
                    memcpy(at, at - 24, 2);
                break;
            default:
                if (percent(50))
                    len = 24 * n - below(24 * (uint32_t)n);
            }
        }
    both_share(draw_part(), bytes, len, room_for(len / 24 * 16 + 16));
}

/* Mostly hours that are paid: commands on either side of the start, ends about the command, now and then the wrong way; then damage. */
static void case_ramp(void)
{
    static struct action l[62];
    static uint8_t bytes[62 * 24];
    uint32_t dice = below(100);
    size_t n = dice < 55 ? below(7) : dice < 90 ? below(61) : dice < 96 ? 60 : 61 + below(2);
    uint16_t participant = (uint16_t)(1 + within(63));
    uint8_t kind = (uint8_t)(1 + below(3));
    uint32_t rated = percent(50) ? 1 + within(3999999) : PICK(1, 2, 7, 29999, 200000, 300000, 300001, 4000000);
    uint32_t standard = percent(50) ? 1 + within(999999) : PICK(1, 7, 3000, 3001, 10000, 1000000);
    uint32_t most_real = standard < 10000 ? 100 * standard : 1000000, near = PICK(1, 10, 1000, 100000, 5000000), wrong = PICK(0, 10, 50);
    for (size_t i = 0; i < n; i++) {
        struct action a = {within(5000000), 0, 0, within(300), percent(70) ? within(most_real) : percent(50) ? standard : 0, standard};
        a.command = percent(50) ? within(5000000) : a.start < 2500000 ? a.start + 1 + below(2000000) : a.start - 1 - below(2000000);
        if (a.command == a.start)
            a.command += a.start == 0 ? 1 : (uint32_t)-1;
        a.end = a.command + within(near) - within(near); /* wraps where it falls below 0 */
        if (a.end > 5000000 || percent(10))
            a.end = a.command;
        if (percent(wrong))
            a.end = percent(30) ? a.start : a.command > a.start ? below(a.start + 1) : a.start + below(5000001 - a.start);
        l[i] = a;
    }
    size_t len = put_actions(bytes, l, n);
    uint32_t worse = percent(10) ? 8 : 1; /* then faults come in company, and their order shows */
    if (percent(6 * worse) && n > 0)
        for (uint32_t times = 1 + below(2); times > 0; times--) {
            uint8_t *at = bytes + 24 * below((uint32_t)n);
            switch (below(6)) {
            case 0: bytes[below((uint32_t)len)] ^= (uint8_t)(1u << below(8)); break;
            case 1: put_bytes(at + 4 * below(6), edge(), 4); break;
            case 2: put_bytes(at + 4 * below(3), PICK(4999999, 5000000, 5000001), 4); break;
            case 3: put_bytes(at + 12, PICK(299, 300, 301), 4); break;
            case 4: put_bytes(at + 16, PICK(999999, 1000000, 1000001, most_real, most_real + 1), 4); break;
            default: put_bytes(at + 20, PICK(0, 1, standard - 1, standard + 1, 1000000, 1000001), 4);
            }
        }
    if (percent(3 * worse) && n > 0) {
        uint8_t *at = bytes + 24 * below((uint32_t)n);
        memcpy(at + 8, at, 4); /* the command is the start */
    }
    if (percent(3 * worse))
        kind = (uint8_t)PICK(4, 5, 6, 7, 8);
    if (percent(4 * worse))
        switch (below(3)) {
        case 0: participant = (uint16_t)PICK(0, 65, 256, 257, 65535); break;
        case 1: kind = (uint8_t)PICK(0, 9, 255); break;
        default: rated = PICK(0, 4000001, 0xffffffff);
        }
    if (percent(3 * worse) && len > 0)
        len -= 1 + below(len < 24 ? (uint32_t)len : 24);
    both_ramp(participant, kind, rated, bytes, len);
}

static void case_fen(void)
{
    uint64_t near = next() >> below(64);
    switch (below(4)) {
    case 0: both_fen(near); break;
    case 1: both_fen(near / 60000 * 60000 + 29998 + below(4)); break; /* about half a fen; it may wrap, which is a number like another */
    case 2: both_fen(UINT64_MAX - below(100000)); break;
    default: both_fen(below(200000));
    }
}

/* Books joined two at a time in any order and grouping, some of them more than once; against the rule over the whole list. */
static void case_tree(void)
{
    enum { BOOKS = 6, ITEMS = 12 };
    static uint8_t books[BOOKS][BOOK_MOST], items[ITEMS][BOOK_MOST], all[BOOK_MOST];
    const uint8_t *list[BOOKS];
    size_t book_len[BOOKS], item_len[ITEMS];
    draw_pool(percent(94) ? below(12) : percent(50) ? below(200) : versions == 2 && percent(25) ? 1997 + below(6) : 508 + below(8));
    size_t n = 2 + below(BOOKS - 1), left = n + below(ITEMS - (uint32_t)n + 1);
    uint32_t share = pool.keys > 500 ? PICK(50, 90, 98) : draw_share();
    uint32_t in_version_1 = versions == 1 ? 100 : PICK(100, 90, 50, 0);
    for (size_t i = 0; i < n; i++) { /* each is sound */
        uint8_t version = percent(in_version_1) ? 1 : 2;
        list[i] = books[i];
        book_len[i] = draw_book_of(books[i], share, version == 1 ? MOST_1 : MOST_2);
        books[i][4] = version;
    }
    for (size_t i = 0; i < left; i++) {
        size_t from = i < n ? i : below((uint32_t)n);
        item_len[i] = book_len[from];
        memcpy(items[i], books[from], book_len[from]);
    }
    struct answer expected = soiled(), got = expected;
    expected.no = ref_join_all(list, n, all, sizeof all, &expected.cell[0], &expected.cell[1]);
    expected.cell[2] = expected.no == 0 ? (expected.cell[1] - 16) / 32 : 0; /* the last join takes a turn for each key of the whole list */
    if (versions == 1 && (expected.no == 8 || expected.cell[1] > BOOK_MOST_1))
        return;

    while (left > 1) {
        size_t i = below((uint32_t)left), j = below((uint32_t)left - 1);
        j += j >= i;
        size_t both = item_len[i] + item_len[j], room = percent(5) || both > BOOK_MOST ? BOOK_MOST + below(100) : both + below(100); /* always enough */
        doing("join (a node of a tree)");
        with_bytes("first", items[i], item_len[i]), with_bytes("second", items[j], item_len[j]), with("out_len", (int64_t)room);
        got = soiled();
        const uint8_t *x = lay(&in1, where1, items[i], item_len[i]), *y = lay(&in2, where2, items[j], item_len[j]);
        uint8_t *out = area_lend(&lent, where_out, NULL, room, salt);
        got.no = nwb_join(x, item_len[i], y, item_len[j], out, room, &cells[0].cell, &cells[1].cell, &cells[2].cell);
        got.cell[0] = cells[0].cell, got.cell[1] = cells[1].cell, got.cell[2] = cells[2].cell;
        if (got.no != 0)
            break;
        if (got.cell[1] > room || !area_holds(&lent, out, got.cell[1], salt)) {
            different("a node wrote what it must not", &got, &expected, 0);
            return;
        }
        memcpy(items[i], out, got.cell[1]);
        item_len[i] = got.cell[1];
        left--;
        if (j != left) { /* the last moves into the gap; it may be the result itself */
            memcpy(items[j], items[left], item_len[left]);
            item_len[j] = item_len[left];
        }
    }
    reached[JOIN][expected.no]++;
    if (got.no != expected.no || (got.no != 0 && (got.cell[0] != 0 || got.cell[1] != 0)))
        different("a tree's number against the whole list's", &got, &expected, 0);
    else if (got.cell[2] != expected.cell[2])
        different("the turns of a tree's last join against the whole list's keys", &got, &expected, 0);
    else if (got.no == 0 && (item_len[0] != expected.cell[1] || memcmp(items[0], all, item_len[0]) != 0)) {
        if (differences == 0) {
            for (size_t i = 0; i < n; i++)
                printf("  book %zu:     ", i), print_hex(books[i], book_len[i]);
            printf("  whole list: "), print_hex(all, expected.cell[1]);
            printf("  tree:       "), print_hex(items[0], item_len[0]);
        }
        different("a tree's book against the whole list's (the last node is shown)", &got, &expected, 0);
    }
}

/* ---- the run ---- */

/* How often each comes, as parts of them all. */
static const struct { void (*run)(void); uint32_t parts; } kinds[] = {
    {case_check, 170}, {case_none, 20}, {case_one, 110}, {case_join, 220}, {case_join_full, 10}, {case_find, 120}, {case_score, 120}, {case_share, 110}, {case_tree, 20},
    {case_ramp, 90}, {case_fen, 10}, {case_tabs, 30}, {case_join_tabs, 100}, {case_join_tabs_full, 3}, {case_paged_tree, 10}};
enum { KINDS = sizeof kinds / sizeof *kinds };

/* Numbers that each function can answer with, and so must have. For find these are its answers, and the numbers of joining that
 * can stand behind an empty one (1 and 2 counted at 10 and 11). */
static const uint32_t reachable[FUNCTIONS][20] = {
    [CHECK] = {0, 1, 2, 3, 4, 5, 6}, [NONE] = {0, 4, 9}, [ONE] = {0, 4, 5, 9},
    [JOIN] = {0, 1, 2, 3, 4, 5, 6, 21, 22, 23, 24, 25, 26, 7, 8, 9},
    [TABS] = {0, 1, 2, 3, 4, 5, 6, 9}, [JOIN_TABS] = {0, 1, 2, 3, 4, 5, 6, 21, 22, 23, 24, 25, 26, 10, 7, 8, 9},
    [FIND] = {0, 1, 2, 10, 11, 3, 4, 5, 6, 21, 22, 23, 24, 25, 26, 7},
    [SCORE] = {0, 10, 1, 2, 3, 4, 5, 6, 11, 14, 12, 13}, [SHARE] = {0, 1, 10, 15, 16, 9},
    [RAMP] = {0, 1, 10, 12}, [FEN] = {0}};

int main(int argc, char **argv)
{
    uint64_t first = argc > 3 ? strtoull(argv[3], NULL, 10) : 0;
    seed = argc > 1 ? strtoull(argv[1], NULL, 10) : (uint64_t)time(NULL);
    cases = argc > 2 ? strtoull(argv[2], NULL, 10) : 400000;
    printf("differential: seed %" PRIu64 "\n", seed);
    fflush(stdout);
    const char *only = getenv("NWB_VERSIONS");
    if (only && strcmp(only, "1") == 0)
        versions = 1;
    area_open(&in1, BOOK_ROOM);
    area_open(&in2, BOOK_ROOM);
    area_open(&in_series, 3000 * sizeof(uint32_t));
    area_open(&lent, BOOK_ROOM + 200);
    area_open(&ref_lent, BOOK_ROOM + 200);
    area_open(&in_tabs, sizeof tabs1);
    area_open(&lent_tabs, NWB_TABS + 200);
    area_open(&ref_lent_tabs, NWB_TABS + 200);
    on_touched_guard(touched);

    uint32_t all_parts = 0;
    for (int k = 0; k < KINDS; k++)
        all_parts += kinds[k].parts;
    for (case_no = first; case_no < first + cases; case_no++) {
        rng = (seed + 1) * 0xd1342543de82ef95u ^ case_no * 0x2545f4914f6cdd1du;
        next();
        salt = (uint8_t)next();
        where1 = (enum placement)below(3), where2 = (enum placement)below(3), where_out = (enum placement)below(3);
        where_tabs = (enum placement)below(3), where_out_tabs = (enum placement)below(3);
        uint32_t dice = below(all_parts), k = 0;
        for (; dice >= kinds[k].parts; k++)
            dice -= kinds[k].parts;
        kinds[k].run();
    }

    /* A short run, as when one case is repeated, need not reach them all. */
    int missing = 0;
    for (int f = 0; f < FUNCTIONS; f++)
        for (int i = 0; i == 0 || reachable[f][i] != 0; i++)
            if (reached[f][reachable[f][i]] == 0 && cases >= 100000 && !(versions == 1 && (f == JOIN || f == JOIN_TABS) && reachable[f][i] == 8)) {
                printf("differential: %s never answered %" PRIu32 "\n", names[f], reachable[f][i]);
                missing++;
            }
    if ((cuts_below < cases / 1000 || cuts_above < cases / 1000) && cases >= 100000) {
        printf("differential: too few windows were cut\n");
        missing++;
    }
    printf("differential: %" PRIu64 " windows cut in two, the new number below, and %" PRIu64 " above\n", cuts_below, cuts_above);
    for (int f = 0; f < FUNCTIONS; f++) {
        printf("differential: %-9s answers:", names[f]);
        for (int i = 0; i == 0 || reachable[f][i] != 0; i++)
            if (f == FIND && i > 2)
                printf(" (%" PRIu32 ") %" PRIu64, reachable[f][i] == 10 || reachable[f][i] == 11 ? reachable[f][i] - 9 : reachable[f][i], reached[f][reachable[f][i]]);
            else
                printf(" %" PRIu32 ": %" PRIu64, reachable[f][i], reached[f][reachable[f][i]]);
        printf("\n");
    }
    printf("differential: %" PRIu64 " cases, %" PRIu64 " differences, refusals reached:", cases, differences);
    for (int f = 0; f < FUNCTIONS; f++) {
        printf("%s %s", f ? ";" : "", names[f]);
        for (int i = 1; reachable[f][i] != 0; i++)
            if (f == FIND && i <= 2)
                continue;
            else if (reached[f][reachable[f][i]] != 0)
                printf(" %" PRIu32, f == FIND && reachable[f][i] >= 10 && reachable[f][i] <= 11 ? reachable[f][i] - 9 : reachable[f][i]);
    }
    printf("\n");
    return differences != 0 || missing != 0;
}
