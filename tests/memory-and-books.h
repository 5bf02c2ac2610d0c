/* What the test programs share: lent memory between guard pages, and books, sharing lines and control actions put together from values.
 * The includer defines _DEFAULT_SOURCE first (mmap with MAP_ANONYMOUS under -std=c99). */
#ifndef NWB_MEMORY_AND_BOOKS_H
#define NWB_MEMORY_AND_BOOKS_H

#include <signal.h>
#include <stddef.h>
#include <stdint.h>
#include <stdio.h>
#include <stdlib.h>
#include <string.h>
#include <sys/mman.h>
#include <unistd.h>

/* ---- lent memory ---- */

/* 64 KiB whatever the page size: an emulator on a machine of larger pages can only guard whole pages of that machine. */
enum { GUARD = 65536, CANARY = 96 };

/* One buffer at a time lies in an area. Canaries stand on both sides of it, as far as there is room up to the guards. */
struct area {
    uint8_t *start, *end;  /* between the guards */
    uint8_t *at;           /* the buffer */
    size_t len;
    size_t before, behind; /* canaries */
};

/* END lies against the guard behind, START against the one before; ODD has canaries on both sides, at an odd address. ALIGNED is
 * the same as ODD for values of four bytes: at a multiple of 4 that is none of 8. */
enum placement { END, START, ODD, ALIGNED };

static inline void area_open(struct area *a, size_t room)
{
    size_t size = (room + 4 * CANARY + GUARD - 1) / GUARD * GUARD;
    uint8_t *p = mmap(NULL, size + 3 * GUARD, PROT_NONE, MAP_PRIVATE | MAP_ANONYMOUS, -1, 0);
    if (p == MAP_FAILED) {
        perror("mmap");
        exit(2);
    }
    p += GUARD - (uintptr_t)p % GUARD; /* up to one of the three is given up for alignment; one stays on either side */
    a->start = p + GUARD;
    a->end = a->start + size;
    if (mprotect(a->start, size, PROT_READ | PROT_WRITE) != 0) {
        perror("mprotect");
        exit(2);
    }
}

/* Canaries, and the contents of memory lent for writing: no two neighbours are equal, and nothing that a book holds repeats it. */
static inline uint8_t stale(ptrdiff_t i, uint8_t salt) { return (uint8_t)(i * 29 + salt); }

/* Lays `contents` (or stale bytes, where null) into the area and canaries around it; gives the buffer's address. */
static inline uint8_t *area_lend(struct area *a, enum placement where, const void *contents, size_t len, uint8_t salt)
{
    size_t off = where == ODD ? CANARY + 1 : CANARY + 4;
    a->at = where == END ? a->end - len : where == START ? a->start : a->start + off;
    a->len = len;
    a->before = (size_t)(a->at - a->start) < CANARY ? (size_t)(a->at - a->start) : CANARY;
    a->behind = (size_t)(a->end - a->at) - len < CANARY ? (size_t)(a->end - a->at) - len : CANARY;
    for (size_t i = 0; i < a->before; i++)
        a->at[(ptrdiff_t)i - (ptrdiff_t)a->before] = stale((ptrdiff_t)i - (ptrdiff_t)a->before, salt);
    for (size_t i = 0; i < a->behind; i++)
        a->at[len + i] = stale((ptrdiff_t)(len + i), salt);
    if (contents && len != 0)
        memcpy(a->at, contents, len);
    else
        for (size_t i = 0; i < len; i++)
            a->at[i] = stale((ptrdiff_t)i, salt);
    return a->at;
}

/* Do the first `written` bytes equal `contents`, all behind them in the buffer stand as lent (stale), and both canaries? */
static inline int area_holds(const struct area *a, const void *contents, size_t written, uint8_t salt)
{
    if (written > a->len || (written != 0 && memcmp(a->at, contents, written) != 0))
        return 0;
    for (size_t i = written; i < a->len + a->behind; i++)
        if (a->at[i] != stale((ptrdiff_t)i, salt))
            return 0;
    for (size_t i = 0; i < a->before; i++)
        if (a->at[(ptrdiff_t)i - (ptrdiff_t)a->before] != stale((ptrdiff_t)i - (ptrdiff_t)a->before, salt))
            return 0;
    return 1;
}

/* A touched guard page ends the program; `report` may print what was being done. It has a stack of its own: the one in use may be what ran out. */
static inline void on_touched_guard(void (*report)(int))
{
    static uint8_t space[GUARD];
    stack_t own;
    memset(&own, 0, sizeof own);
    own.ss_sp = space;
    own.ss_size = sizeof space;
    sigaltstack(&own, NULL);
    struct sigaction act;
    memset(&act, 0, sizeof act);
    act.sa_handler = report;
    act.sa_flags = SA_ONSTACK;
    sigemptyset(&act.sa_mask);
    sigaction(SIGSEGV, &act, NULL);
    sigaction(SIGBUS, &act, NULL);
    sigaction(SIGILL, &act, NULL); /* how many a compiler says "must not happen" */
    sigaction(SIGFPE, &act, NULL);
    sigaction(SIGABRT, &act, NULL);
}

/* ---- books, sharing lines and control actions from values ---- */

/* The most records of either version, and the longest book of each. */
enum { MOST_1 = 512, MOST_2 = 2000, BOOK_MOST_1 = 16 + 32 * MOST_1, BOOK_MOST = 16 + 32 * MOST_2 };

struct call {
    uint16_t participant;
    uint8_t service, state;
    uint32_t number, revision;
    uint16_t start, minutes;
    int32_t a;
    uint32_t b, c;
};

struct line {
    uint16_t number;
    uint8_t status;
    uint32_t energy;
    uint64_t compensation;
    uint32_t assessment;
};

struct action { uint32_t start, end, command, delay, real, standard; };

static inline void put_bytes(uint8_t *p, uint64_t v, int n)
{
    for (int i = 0; i < n; i++)
        p[i] = (uint8_t)(v >> 8 * i);
}

static inline uint64_t get_bytes(const uint8_t *p, int n)
{
    uint64_t v = 0;
    for (int i = 0; i < n; i++)
        v |= (uint64_t)p[i] << 8 * i;
    return v;
}

static inline void put_call(uint8_t *p, const struct call *c)
{
    put_bytes(p, c->participant, 2);
    p[2] = c->service;
    p[3] = c->state;
    put_bytes(p + 4, c->number, 4);
    put_bytes(p + 8, c->revision, 4);
    put_bytes(p + 12, c->start, 2);
    put_bytes(p + 14, c->minutes, 2);
    put_bytes(p + 16, (uint32_t)c->a, 4);
    put_bytes(p + 20, c->b, 4);
    put_bytes(p + 24, c->c, 4);
    put_bytes(p + 28, 0, 4);
}

/* Of any version and count, also where the one does not go with the other. */
static inline size_t put_book_of(uint32_t version, uint8_t *p, uint8_t area, uint16_t year, uint8_t month, const struct call *calls, size_t n)
{
    memset(p, 0, 16);
    memcpy(p, "NWB", 3);
    p[3] = area;
    put_bytes(p + 4, version, 2);
    put_bytes(p + 6, year, 2);
    p[8] = month;
    put_bytes(p + 10, n, 2);
    for (size_t i = 0; i < n; i++)
        put_call(p + 16 + 32 * i, &calls[i]);
    return 16 + 32 * n;
}

static inline size_t put_book(uint8_t *p, uint8_t area, uint16_t year, uint8_t month, const struct call *calls, size_t n)
{
    return put_book_of(1, p, area, year, month, calls, n);
}

static inline size_t put_lines(uint8_t *p, const struct line *lines, size_t n)
{
    for (size_t i = 0; i < n; i++, p += 24) {
        memset(p, 0, 24);
        put_bytes(p, lines[i].number, 2);
        p[2] = lines[i].status;
        put_bytes(p + 4, lines[i].energy, 4);
        put_bytes(p + 8, lines[i].compensation, 8);
        put_bytes(p + 16, lines[i].assessment, 4);
    }
    return 24 * n;
}

static inline size_t put_actions(uint8_t *p, const struct action *actions, size_t n)
{
    for (size_t i = 0; i < n; i++, p += 24) {
        put_bytes(p, actions[i].start, 4);
        put_bytes(p + 4, actions[i].end, 4);
        put_bytes(p + 8, actions[i].command, 4);
        put_bytes(p + 12, actions[i].delay, 4);
        put_bytes(p + 16, actions[i].real, 4);
        put_bytes(p + 20, actions[i].standard, 4);
    }
    return 24 * n;
}

#endif
