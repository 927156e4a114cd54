/* Exact totals: calls loftsplice_totals with good and bad input, and compares every number of every answer and every place of every output, also with sums that
 * are made here by adding the elements one after the other. The last line says how many comparisons were made; the exit status is 1 if one failed. */
#include "loftsplice.h"

#include <inttypes.h>
#include <stdio.h>

static unsigned long made, failed;

static void same_at(const char *what, int line, int64_t got, int64_t wanted) {
    made++;
    if (got != wanted) {
        failed++;
        fprintf(stderr, "totals.c:%d: %s is %" PRId64 ", not %" PRId64 "\n", line, what, got, wanted);
    }
}
#define SAME(got, wanted) same_at(#got, __LINE__, (int64_t)(got), (int64_t)(wanted))

/* One window more than there may be, and what the outputs hold before a call. */
enum { over_windows = LOFTSPLICE_MAX_WINDOWS + 1, held = 99, held_below = -77 };

static uint64_t from[over_windows], to[over_windows], counts[over_windows], lows[over_windows];
static int64_t leasts[over_windows], greatests[over_windows], highs[over_windows];

static void hold(void) {
    for (size_t i = 0; i < over_windows; i++) counts[i] = lows[i] = held, leasts[i] = greatests[i] = highs[i] = held_below;
}

/* The places of the outputs from one on hold what they held. */
static void held_from_at(int line, size_t i) {
    for (; i < over_windows; i++) {
        same_at("a place of counts", line, (int64_t)counts[i], held), same_at("a place of lows", line, (int64_t)lows[i], held);
        same_at("a place of leasts", line, leasts[i], held_below), same_at("a place of greatests", line, greatests[i], held_below);
        same_at("a place of highs", line, highs[i], held_below);
    }
}
#define HELD_FROM(i) held_from_at(__LINE__, i)

/* A column, as three lists of one length; the totals of its first so many windows, into outputs of so many places, which hold the same before. */
typedef struct column {
    const int64_t *starts;
    const uint64_t *ends;
    const int16_t *steps;
    size_t runs;
} column;

static loftsplice_totalled totals(column c, size_t windows, size_t places) {
    hold();
    return loftsplice_totals(c.starts, c.runs, c.ends, c.runs, c.steps, c.runs, from, windows, to, windows, counts, places, leasts, places, greatests, places,
        highs, places, lows, places);
}

/* A refusal has no number, and leaves all places. */
static void refused_at(int line, loftsplice_totalled all, uint32_t refusal) {
    same_at("the refusal", line, all.refusal, refusal), same_at("found", line, all.found, 0), same_at("the count", line, (int64_t)all.count, 0);
    same_at("the least", line, all.least, 0), same_at("the greatest", line, all.greatest, 0);
    same_at("the high", line, all.high, 0), same_at("the low", line, (int64_t)all.low, 0);
    held_from_at(line, 0);
}
#define REFUSED(all, refusal) refused_at(__LINE__, all, refusal)

/* 10 15 20 25, 30, 31, 40 140 240: document 01's column C. */
static const int64_t c_starts[] = {10, 30, 31, 40};
static const uint64_t c_ends[] = {4, 5, 6, 9};
static const int16_t c_steps[] = {5, 0, -3, 100};
static const column C = {c_starts, c_ends, c_steps, 4};

static const int64_t low_starts[] = {5, 2};
static const uint64_t low_ends[] = {4, 6};
static const int16_t low_steps[] = {-4, 0};
static const column low = {low_starts, low_ends, low_steps, 2}; /* 5 1 -3 -7, 2 2 */

static void windows(void) {
    /* two windows, one that is empty, one that occurs twice, one that begins past the end */
    from[0] = 1, to[0] = 4, from[1] = 7, to[1] = 7, from[2] = 1, to[2] = 4, from[3] = UINT64_MAX, to[3] = 9;
    loftsplice_totalled all = totals(C, 4, 5);
    SAME(all.refusal, 0), SAME(all.found, 1), SAME(all.count, 6), SAME(all.least, 15), SAME(all.greatest, 25), SAME(all.high, 0), SAME(all.low, 120);
    for (size_t i = 0; i < 4; i++) {
        int full = i % 2 == 0;
        SAME(counts[i], full ? 3 : 0), SAME(leasts[i], full ? 15 : held_below), SAME(greatests[i], full ? 25 : held_below);
        SAME(highs[i], 0), SAME(lows[i], full ? 60 : 0);
    }
    HELD_FROM(4);
    /* windows that do not rise, and sums below 0: the high goes down, the low does not */
    from[0] = 0, to[0] = 6, from[1] = 2, to[1] = 3, from[2] = 1, to[2] = 4;
    all = totals(low, 3, 3);
    SAME(all.refusal, 0), SAME(all.count, 10), SAME(all.least, -7), SAME(all.greatest, 5), SAME(all.high, -1), SAME(all.low, 4294967284);
    SAME(counts[0], 6), SAME(leasts[0], -7), SAME(greatests[0], 5), SAME(highs[0], 0), SAME(lows[0], 0);
    SAME(counts[1], 1), SAME(leasts[1], -3), SAME(greatests[1], -3), SAME(highs[1], -1), SAME(lows[1], 4294967293);
    SAME(counts[2], 3), SAME(leasts[2], -7), SAME(greatests[2], 1), SAME(highs[2], -1), SAME(lows[2], 4294967287);
    HELD_FROM(3);
    /* no window, and empty ones alone: neither least nor greatest */
    all = totals(low, 0, 0);
    SAME(all.refusal, 0), SAME(all.found, 0), SAME(all.count, 0), SAME(all.least, 0), SAME(all.greatest, 0), SAME(all.high, 0), SAME(all.low, 0);
    HELD_FROM(0);
    from[0] = 6, to[0] = 6, from[1] = 3, to[1] = 2;
    all = totals(low, 2, 2);
    SAME(all.refusal, 0), SAME(all.found, 0), SAME(all.count, 0), SAME(counts[1], 0), SAME(lows[1], 0), SAME(leasts[1], held_below);
    /* a column without a run */
    static const column none = {NULL, NULL, NULL, 0};
    from[0] = 0, to[0] = 0;
    all = totals(none, 1, 1);
    SAME(all.refusal, 0), SAME(all.found, 0), SAME(all.count, 0), SAME(counts[0], 0), SAME(highs[0], 0);
    to[0] = 1;
    REFUSED(totals(none, 1, 1), LOFTSPLICE_WINDOW);
}

/* Every window of both columns, against the elements, which are all of small size. */
static void one_by_one(void) {
    const column both[] = {C, low};
    for (size_t k = 0; k < 2; k++) {
        column c = both[k];
        for (uint64_t start = 0; start <= c.ends[c.runs - 1]; start++) {
            for (uint64_t end = 0; end <= c.ends[c.runs - 1]; end++) {
                int64_t sum = 0, least = held_below, greatest = held_below;
                uint64_t count = 0;
                for (uint64_t i = start; i < end; i++, count++) {
                    int64_t value = loftsplice_get(c.starts, c.runs, c.ends, c.runs, c.steps, c.runs, i).value;
                    sum += value;
                    if (i == start || value < least) least = value;
                    if (i == start || greatest < value) greatest = value;
                }
                from[0] = start, to[0] = end;
                loftsplice_totalled all = totals(c, 1, 1);
                SAME(all.refusal, 0), SAME(all.count, count), SAME(counts[0], count), SAME(leasts[0], least), SAME(greatests[0], greatest);
                SAME(all.found, count > 0), SAME(all.least, count > 0 ? least : 0), SAME(all.greatest, count > 0 ? greatest : 0);
                SAME(all.high, sum < 0 ? -1 : 0), SAME(all.low, (uint32_t)sum), SAME(highs[0], all.high), SAME(lows[0], all.low);
            }
        }
    }
}

/* As long as a column may be, of one number; and sums at the edges of what has a high. */
static void edges(void) {
    static const uint64_t most = LOFTSPLICE_MAX_ELEMENTS;
    static const int16_t level = 0;
    static const struct { int64_t number, high; uint64_t low; } rows[] = {{INT64_MAX, INT64_C(9223372034707292159), 1},
        {INT64_MIN, INT64_C(-9223372034707292160), 0}, {-1, -1, 1}, {1, 0, 4294967295}};
    for (size_t i = 0; i < sizeof rows / sizeof *rows; i++) {
        column c = {&rows[i].number, &most, &level, 1};
        for (size_t k = 0; k < over_windows; k++) from[k] = 0, to[k] = most;
        loftsplice_totalled all = totals(c, 1, 1);
        SAME(all.refusal, 0), SAME(all.count, most), SAME(all.least, rows[i].number), SAME(all.greatest, rows[i].number);
        SAME(all.high, rows[i].high), SAME(all.low, rows[i].low), SAME(highs[0], rows[i].high), SAME(lows[0], rows[i].low);
        /* twice the greatest or the least has no high, and is refused before a room that is short; 256 times -1 or 1 has one */
        if (rows[i].number == 1 || rows[i].number == -1) {
            all = totals(c, LOFTSPLICE_MAX_WINDOWS, LOFTSPLICE_MAX_WINDOWS);
            SAME(all.refusal, 0), SAME(all.count, most * LOFTSPLICE_MAX_WINDOWS), SAME(lows[LOFTSPLICE_MAX_WINDOWS - 1], rows[i].low);
            SAME(all.high, rows[i].number == 1 ? 255 : -256), SAME(all.low, rows[i].number == 1 ? 4294967040 : 256);
        } else {
            REFUSED(totals(c, 2, 0), LOFTSPLICE_TOTAL);
            REFUSED(totals(c, LOFTSPLICE_MAX_WINDOWS, LOFTSPLICE_MAX_WINDOWS), LOFTSPLICE_TOTAL);
        }
    }
    /* -2^63 taken 2^32 times is -2^95; one less is out of range, and comes back by 1 */
    static const int64_t starts[] = {INT64_MIN, -1, 1};
    static const uint64_t ends[] = {LOFTSPLICE_MAX_ELEMENTS - 2, LOFTSPLICE_MAX_ELEMENTS - 1, LOFTSPLICE_MAX_ELEMENTS};
    static const int16_t steps[] = {0, 0, 0};
    const column least = {starts, ends, steps, 3};
    from[0] = 0, to[0] = most - 2, from[1] = 0, to[1] = 3, from[2] = most - 2, to[2] = most - 1, from[3] = most - 1, to[3] = most;
    loftsplice_totalled all = totals(least, 2, 2);
    SAME(all.refusal, 0), SAME(all.high, INT64_MIN), SAME(all.low, 0), SAME(all.count, most + 1);
    REFUSED(totals(least, 3, 3), LOFTSPLICE_TOTAL);
    all = totals(least, 4, 4);
    SAME(all.refusal, 0), SAME(all.high, INT64_MIN), SAME(all.low, 0), SAME(all.least, INT64_MIN), SAME(all.greatest, 1);
}

/* 1, 2, 3, 8, 5, 18, 10: each where those behind it would be given too, but 18, which is above. */
static void refusals(void) {
    for (size_t i = 0; i < over_windows; i++) from[i] = 0, to[i] = 10;
    static const uint64_t short_ends[] = {4, 5, 5, 9};
    static const int64_t far_starts[] = {INT64_MAX, 30, 31, 40};
    const column standing = {far_starts, short_ends, c_steps, 4}, far = {far_starts, c_ends, c_steps, 4};
    hold();
    REFUSED(loftsplice_totals(far_starts, 4, short_ends, 4, c_steps, 3, from, over_windows, to, 2, counts, 1, leasts, 1, greatests, 1, highs, 1, lows, 1),
        LOFTSPLICE_SHAPE);
    REFUSED(totals(standing, over_windows, 1), LOFTSPLICE_ENDS);
    REFUSED(totals(far, over_windows, 1), LOFTSPLICE_REACH);
    REFUSED(totals(C, over_windows, 1), LOFTSPLICE_BOUNDS);
    REFUSED(loftsplice_totals(c_starts, 4, c_ends, 4, c_steps, 4, from, 2, to, 3, counts, 1, leasts, 1, greatests, 1, highs, 1, lows, 1), LOFTSPLICE_BOUNDS);
    REFUSED(totals(C, LOFTSPLICE_MAX_WINDOWS, 1), LOFTSPLICE_WINDOW);
    from[0] = 11;
    REFUSED(totals(C, 1, 0), LOFTSPLICE_WINDOW);
    from[0] = 0, to[0] = to[1] = 9;
    REFUSED(totals(C, 2, 1), LOFTSPLICE_ROOM);
    /* each of the five by itself */
    for (size_t k = 0; k < 5; k++) {
        REFUSED(loftsplice_totals(c_starts, 4, c_ends, 4, c_steps, 4, from, 2, to, 2, counts, 2 - (k == 0), leasts, 2 - (k == 1), greatests, 2 - (k == 2), highs,
            2 - (k == 3), lows, 2 - (k == 4)), LOFTSPLICE_ROOM);
    }
    /* empty windows need their places too */
    from[0] = from[1] = 9;
    REFUSED(totals(C, 2, 1), LOFTSPLICE_ROOM);
}

int main(void) {
    windows();
    one_by_one();
    edges();
    refusals();
    printf("c-test, totals: %lu comparisons, %lu failed\n", made, failed);
    return failed != 0;
}
