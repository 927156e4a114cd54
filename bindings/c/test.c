/* Calls every function of loftsplice.h but those of profiles and totals (profiles.c, totals.c), with good and bad input, and compares every number of every answer.
 * P1 to P12 are the examples of document 01. The last line says how many comparisons were made; the exit status is 1 if one failed. */
#include "loftsplice.h"

#include <inttypes.h>
#include <stdio.h>
#include <stdlib.h>
#include <string.h>

static unsigned long made, failed;

static void same_at(const char *what, int line, int64_t got, int64_t wanted) {
    made++;
    if (got != wanted) {
        failed++;
        fprintf(stderr, "test.c:%d: %s is %" PRId64 ", not %" PRId64 "\n", line, what, got, wanted);
    }
}
#define SAME(got, wanted) same_at(#got, __LINE__, (int64_t)(got), (int64_t)(wanted))

/* A column, as three lists. */
typedef struct column {
    const int64_t *starts;
    size_t starts_len;
    const uint64_t *ends;
    size_t ends_len;
    const int16_t *steps;
    size_t steps_len;
} column;
#define LISTS(c) (c).starts, (c).starts_len, (c).ends, (c).ends_len, (c).steps, (c).steps_len
#define COLUMN(starts, ends, steps) {starts, sizeof starts / sizeof *starts, ends, sizeof ends / sizeof *ends, steps, sizeof steps / sizeof *steps}

/* Document 01's columns C and D, and bad ones. */
static const int64_t c_starts[] = {10, 30, 31, 40};
static const uint64_t c_ends[] = {4, 5, 6, 9};
static const int16_t c_steps[] = {5, 0, -3, 100};
static const column C = COLUMN(c_starts, c_ends, c_steps);

static const int64_t d_starts[] = {10, 6};
static const uint64_t d_ends[] = {2, 5};
static const int16_t d_steps[] = {-5, 1};
static const column D = COLUMN(d_starts, d_ends, d_steps);

static const column none = {NULL, 0, NULL, 0, NULL, 0};
static const column uneven = {c_starts, 4, c_ends, 3, c_steps, 4};

static const uint64_t flat_ends[] = {4, 5, 5, 9};
static const column standing = COLUMN(c_starts, flat_ends, c_steps);

static const int64_t edge_starts[] = {INT64_C(9223372036854775800)};
static const uint64_t edge_8[] = {8}, edge_9[] = {9};
static const int16_t edge_steps[] = {1};
static const column edge = COLUMN(edge_starts, edge_8, edge_steps);
static const column past_edge = COLUMN(edge_starts, edge_9, edge_steps);

/* The most bounds in a list, and one too many of each. */
enum { most_bounds = LOFTSPLICE_MAX_BOUNDS, over_bounds, over_inputs = LOFTSPLICE_MAX_INPUTS + 1, over_windows = LOFTSPLICE_MAX_WINDOWS + 1 };

/* Two scans, number by number. */
static void same_scan_at(int line, loftsplice_scan got, loftsplice_scan wanted) {
    same_at("scan.start", line, (int64_t)got.start, (int64_t)wanted.start);
    same_at("scan.end", line, (int64_t)got.end, (int64_t)wanted.end);
    same_at("scan.index", line, (int64_t)got.index, (int64_t)wanted.index);
    same_at("scan.value", line, got.value, wanted.value);
    same_at("scan.state", line, got.state, wanted.state);
    same_at("scan.found", line, got.found, wanted.found);
}
/* At no index, and at one with the value that is carried. */
#define SCAN(got, start, end, state) same_scan_at(__LINE__, got, (loftsplice_scan){start, end, 0, 0, state, 0})
#define SCAN_AT(got, start, end, index, value) same_scan_at(__LINE__, got, (loftsplice_scan){start, end, index, value, LOFTSPLICE_AT, 1})

static void same_answer_at(int line, loftsplice_answer got, uint32_t refusal, uint32_t found, int64_t value) {
    same_at("answer.refusal", line, got.refusal, refusal);
    same_at("answer.found", line, got.found, found);
    same_at("answer.value", line, got.value, value);
}
#define VALUE(got, value) same_answer_at(__LINE__, got, 0, 1, value)
#define NONE(got) same_answer_at(__LINE__, got, 0, 0, 0)
#define REFUSED(got, refusal) same_answer_at(__LINE__, got, refusal, 0, 0)

static void same_limit_at(int line, loftsplice_limit got, uint32_t kind, int64_t value) {
    same_at("limit.kind", line, got.kind, kind);
    same_at("limit.value", line, got.value, value);
}
#define LIMIT(got, kind, value) same_limit_at(__LINE__, got, kind, value)

/* Two filters, number by number. */
static void same_filter_at(int line, loftsplice_filter got, loftsplice_filter wanted) {
    same_scan_at(line, got.scan, wanted.scan);
    same_limit_at(line, got.lower, wanted.lower.kind, wanted.lower.value);
    same_limit_at(line, got.upper, wanted.upper.kind, wanted.upper.value);
    same_limit_at(line, got.kept, wanted.kept.kind, wanted.kept.value);
    same_at("filter.state", line, got.state, wanted.state);
    same_at("filter.mode", line, got.mode, wanted.mode);
}
#define FILTER(got, wanted) same_filter_at(__LINE__, got, wanted)

/* A run of calls into an output of 12 places, of which it is handed some; each holds -77 before. */
enum { places = 12 };
static int64_t *unwritten(int64_t *out) {
    for (size_t i = 0; i < places; i++) out[i] = -77;
    return out;
}
static loftsplice_ran nexts_of(loftsplice_scan s, column c, int64_t *out, size_t out_len) {
    return loftsplice_scan_next_run(s, LISTS(c), unwritten(out), out_len);
}
static loftsplice_ran seeks_of(loftsplice_scan s, column c, const int64_t *targets, size_t targets_len, int64_t *out, size_t out_len) {
    return loftsplice_scan_seek_run(s, LISTS(c), targets, targets_len, unwritten(out), out_len);
}
static void same_out_at(int line, const int64_t *out, const int64_t *values, size_t count) {
    for (size_t i = 0; i < places; i++) same_at("out", line, out[i], i < count ? values[i] : -77);
}
static void same_run_at(int line, loftsplice_ran got, const int64_t *out, uint32_t refusal, loftsplice_scan scan, const int64_t *values, size_t count) {
    same_at("ran.refusal", line, got.refusal, refusal);
    same_at("ran.count", line, (int64_t)got.count, (int64_t)count);
    same_scan_at(line, got.scan, scan);
    same_out_at(line, out, values, count);
}

/* Each call on a scan that takes the column, all with the same refusal, and the scan as it went in; a run of no calls too. */
static void scan_refused_at(int line, column c, loftsplice_scan s, uint32_t refusal) {
    static const int64_t targets[] = {7, 8};
    int64_t out[places];
    for (size_t calls = 0; calls < 3; calls++) {
        same_run_at(line, nexts_of(s, c, out, calls), out, refusal, s, NULL, 0);
        same_run_at(line, seeks_of(s, c, targets, calls, out, calls), out, refusal, s, NULL, 0);
    }
    loftsplice_moved moved[] = {
        loftsplice_scan_next(s, LISTS(c)), loftsplice_scan_seek(s, LISTS(c), 7), loftsplice_scan_narrow(s, LISTS(c), 0, 1),
        loftsplice_scan_reset(s, LISTS(c))};
    for (size_t i = 0; i < sizeof moved / sizeof *moved; i++) {
        same_answer_at(line, moved[i].answer, refusal, 0, 0);
        same_scan_at(line, moved[i].scan, s);
    }
    loftsplice_position p = loftsplice_scan_pos(s, LISTS(c));
    same_at("position.refusal", line, p.refusal, refusal);
    same_at("position.found", line, p.found, 0);
    same_at("position.index", line, (int64_t)p.index, 0);
}
#define SCAN_REFUSED(c, s, refusal) scan_refused_at(__LINE__, c, s, refusal)
/* .. and its current */
#define ALL_REFUSED(c, s, refusal) (SCAN_REFUSED(c, s, refusal), REFUSED(loftsplice_scan_current(s), refusal))

/* Lists of variable bounds and inputs. */
typedef struct lists {
    const uint64_t *lower;
    size_t lower_len;
    const uint8_t *lower_kinds;
    size_t lower_kinds_len;
    const uint64_t *upper;
    size_t upper_len;
    const uint8_t *upper_kinds;
    size_t upper_kinds_len;
    const int64_t *values;
    size_t values_len;
    const uint8_t *found;
    size_t found_len;
} lists;
#define VARIABLES(l)                                                                                                                            \
    (l).lower, (l).lower_len, (l).lower_kinds, (l).lower_kinds_len, (l).upper, (l).upper_len, (l).upper_kinds, (l).upper_kinds_len, (l).values,     \
        (l).values_len, (l).found, (l).found_len
static const lists no_lists;

static loftsplice_sifted next_of(loftsplice_filter f, column c, lists l) { return loftsplice_filter_next(f, LISTS(c), VARIABLES(l)); }
static loftsplice_sifted seek_of(loftsplice_filter f, column c, int64_t target, lists l) {
    return loftsplice_filter_seek(f, LISTS(c), target, VARIABLES(l));
}

/* Runs of a filter's calls, into such an output. */
static loftsplice_filter_ran sifts_of(loftsplice_filter f, column c, lists l, int64_t *out, size_t out_len) {
    return loftsplice_filter_next_run(f, LISTS(c), VARIABLES(l), unwritten(out), out_len);
}
static loftsplice_filter_ran sought_of(loftsplice_filter f, column c, const int64_t *targets, size_t targets_len, lists l, int64_t *out, size_t out_len) {
    return loftsplice_filter_seek_run(f, LISTS(c), targets, targets_len, VARIABLES(l), unwritten(out), out_len);
}
static void same_filter_run_at(int line, loftsplice_filter_ran got, const int64_t *out, uint32_t refusal, loftsplice_filter filter, const int64_t *values,
    size_t count) {
    same_at("filter_ran.refusal", line, got.refusal, refusal);
    same_at("filter_ran.count", line, (int64_t)got.count, (int64_t)count);
    same_filter_at(line, got.filter, filter);
    same_out_at(line, out, values, count);
}

/* next and seek, both with the same refusal, and the filter as it went in; runs of them too, also of no calls. */
static void call_refused_at(int line, column c, loftsplice_filter f, lists l, uint32_t refusal) {
    static const int64_t targets[] = {7, 8};
    int64_t out[places];
    for (size_t calls = 0; calls < 3; calls++) {
        same_filter_run_at(line, sifts_of(f, c, l, out, calls), out, refusal, f, NULL, 0);
        same_filter_run_at(line, sought_of(f, c, targets, calls, l, out, calls), out, refusal, f, NULL, 0);
    }
    loftsplice_sifted sifted[] = {next_of(f, c, l), seek_of(f, c, 7, l)};
    for (size_t i = 0; i < 2; i++) {
        same_answer_at(line, sifted[i].answer, refusal, 0, 0);
        same_filter_at(line, sifted[i].filter, f);
    }
}
#define CALL_REFUSED(c, f, l, refusal) call_refused_at(__LINE__, c, f, l, refusal)

static loftsplice_scan fresh(column c) {
    loftsplice_new_scan made_scan = loftsplice_scan_new(LISTS(c));
    SAME(made_scan.refusal, 0);
    return made_scan.scan;
}

static loftsplice_filter fitted_in(uint32_t mode, loftsplice_scan s, const int64_t *lows, const uint8_t *low_kinds, size_t low_len, const int64_t *ups,
    const uint8_t *up_kinds, size_t up_len) {
    loftsplice_new_filter made_filter = loftsplice_filter_new(s, mode, lows, low_len, low_kinds, low_len, ups, up_len, up_kinds, up_len);
    SAME(made_filter.refusal, 0), SAME(made_filter.filter.mode, mode);
    return made_filter.filter;
}
#define fitted(...) fitted_in(LOFTSPLICE_INCLUSIVE_WINS, __VA_ARGS__)

static void columns(void) {
    SAME(loftsplice_check(LISTS(C)), 0);
    SAME(loftsplice_check(LISTS(D)), 0);
    SAME(loftsplice_check(LISTS(none)), 0);
    SAME(loftsplice_check(LISTS(uneven)), LOFTSPLICE_SHAPE);
    SAME(loftsplice_check(LISTS(standing)), LOFTSPLICE_ENDS);
    /* P12 */
    SAME(loftsplice_check(LISTS(edge)), 0);
    SAME(loftsplice_check(LISTS(past_edge)), LOFTSPLICE_REACH);

    loftsplice_length l = loftsplice_len(LISTS(C));
    SAME(l.refusal, 0), SAME(l.length, 9);
    l = loftsplice_len(LISTS(none));
    SAME(l.refusal, 0), SAME(l.length, 0);
    l = loftsplice_len(LISTS(past_edge));
    SAME(l.refusal, LOFTSPLICE_REACH), SAME(l.length, 0);

    loftsplice_emptiness e = loftsplice_is_empty(LISTS(C));
    SAME(e.refusal, 0), SAME(e.empty, 0);
    e = loftsplice_is_empty(LISTS(none));
    SAME(e.refusal, 0), SAME(e.empty, 1);
    e = loftsplice_is_empty(LISTS(standing));
    SAME(e.refusal, LOFTSPLICE_ENDS), SAME(e.empty, 0);

    /* P2 */
    loftsplice_placed p = loftsplice_place(LISTS(C), 4);
    SAME(p.refusal, 0), SAME(p.run, 1), SAME(p.offset, 0), SAME(p.follows, 1);
    p = loftsplice_place(LISTS(C), 8);
    SAME(p.refusal, 0), SAME(p.run, 3), SAME(p.offset, 2), SAME(p.follows, 1);
    p = loftsplice_place(LISTS(C), 9);
    SAME(p.refusal, 0), SAME(p.run, 4), SAME(p.offset, 0), SAME(p.follows, 0);
    p = loftsplice_place(LISTS(C), 10);
    SAME(p.refusal, LOFTSPLICE_INDEX), SAME(p.run, 0), SAME(p.offset, 0), SAME(p.follows, 0);
    p = loftsplice_place(LISTS(uneven), 10);
    SAME(p.refusal, LOFTSPLICE_SHAPE), SAME(p.run, 0), SAME(p.offset, 0), SAME(p.follows, 0);
    p = loftsplice_place(LISTS(none), 0);
    SAME(p.refusal, 0), SAME(p.run, 0), SAME(p.offset, 0), SAME(p.follows, 0);
    /* from 0 by what follows: each run once, in order, to the length */
    uint64_t at = 0;
    for (uint64_t run = 0; run < 4; run++) {
        p = loftsplice_place(LISTS(C), at);
        SAME(p.refusal, 0), SAME(p.run, run), SAME(p.offset, 0);
        at += p.follows;
    }
    SAME(at, 9);

    /* P1 */
    VALUE(loftsplice_get(LISTS(C), 3), 25);
    VALUE(loftsplice_get(LISTS(C), 8), 240);
    REFUSED(loftsplice_get(LISTS(C), 9), LOFTSPLICE_INDEX);
    REFUSED(loftsplice_get(LISTS(C), UINT64_MAX), LOFTSPLICE_INDEX);
    VALUE(loftsplice_get(LISTS(edge), 7), INT64_MAX);
    VALUE(loftsplice_get(LISTS(D), 1), 5);
    REFUSED(loftsplice_get(LISTS(past_edge), 0), LOFTSPLICE_REACH);

    loftsplice_difference d = loftsplice_diff_step(0, 32767);
    SAME(d.found, 1), SAME(d.step, 32767);
    d = loftsplice_diff_step(0, 32768);
    SAME(d.found, 0), SAME(d.step, 0);
    d = loftsplice_diff_step(0, -32768);
    SAME(d.found, 1), SAME(d.step, -32768);
    d = loftsplice_diff_step(0, -32769);
    SAME(d.found, 0), SAME(d.step, 0);
    d = loftsplice_diff_step(INT64_MIN, INT64_MAX);
    SAME(d.found, 0), SAME(d.step, 0);
}

static void scans(void) {
    loftsplice_scan s = fresh(C);
    SCAN(s, 0, 9, LOFTSPLICE_FRESH);
    NONE(loftsplice_scan_current(s));

    /* P3 */
    loftsplice_moved m = loftsplice_scan_seek(s, LISTS(C), 16);
    VALUE(m.answer, 20), SCAN_AT(m.scan, 0, 9, 2, 20);
    VALUE(loftsplice_scan_current(m.scan), 20);
    loftsplice_position p = loftsplice_scan_pos(m.scan, LISTS(C));
    SAME(p.refusal, 0), SAME(p.found, 1), SAME(p.index, 2);
    p = loftsplice_scan_pos(s, LISTS(C));
    SAME(p.refusal, 0), SAME(p.found, 0), SAME(p.index, 0);
    /* P4 */
    m = loftsplice_scan_seek(s, LISTS(C), 26);
    VALUE(m.answer, 30), SCAN_AT(m.scan, 0, 9, 4, 30);
    /* P5 */
    m = loftsplice_scan_seek(s, LISTS(C), 241);
    NONE(m.answer), SCAN(m.scan, 0, 9, LOFTSPLICE_ENDED);
    m = loftsplice_scan_next(m.scan, LISTS(C));
    NONE(m.answer), SCAN(m.scan, 0, 9, LOFTSPLICE_ENDED);
    m = loftsplice_scan_reset(m.scan, LISTS(C));
    NONE(m.answer), SCAN(m.scan, 0, 9, LOFTSPLICE_FRESH);
    /* P6 */
    loftsplice_scan at_5 = {0, 9, 5, 31, LOFTSPLICE_AT, 1};
    m = loftsplice_scan_seek(at_5, LISTS(C), 12);
    VALUE(m.answer, 31), SCAN_AT(m.scan, 0, 9, 5, 31);
    /* P7 */
    m = loftsplice_scan_narrow(s, LISTS(C), 3, 8);
    NONE(m.answer), SCAN(m.scan, 3, 8, LOFTSPLICE_FRESH);
    m = loftsplice_scan_next(m.scan, LISTS(C));
    VALUE(m.answer, 25), SCAN_AT(m.scan, 3, 8, 3, 25);
    m = loftsplice_scan_seek(m.scan, LISTS(C), 200);
    NONE(m.answer), SCAN(m.scan, 3, 8, LOFTSPLICE_ENDED);
    /* P8 */
    m = loftsplice_scan_next(loftsplice_scan_narrow(s, LISTS(C), 3, 3).scan, LISTS(C));
    NONE(m.answer), SCAN(m.scan, 3, 3, LOFTSPLICE_ENDED);
    m = loftsplice_scan_next(loftsplice_scan_narrow(s, LISTS(C), 8, 2).scan, LISTS(C));
    NONE(m.answer), SCAN(m.scan, 8, 2, LOFTSPLICE_ENDED);
    m = loftsplice_scan_narrow(at_5, LISTS(C), 0, 10);
    REFUSED(m.answer, LOFTSPLICE_WINDOW), SCAN_AT(m.scan, 0, 9, 5, 31);
    /* P9 */
    m = loftsplice_scan_seek(fresh(D), LISTS(D), 6);
    REFUSED(m.answer, LOFTSPLICE_ORDER), SCAN(m.scan, 0, 5, LOFTSPLICE_FRESH);
    m = loftsplice_scan_seek(loftsplice_scan_narrow(fresh(D), LISTS(D), 1, 5).scan, LISTS(D), 6);
    VALUE(m.answer, 6), SCAN_AT(m.scan, 1, 5, 2, 6);

    /* all elements, by next alone */
    static const int64_t elements[] = {10, 15, 20, 25, 30, 31, 40, 140, 240};
    for (size_t i = 0; i < 9; i++) {
        m = loftsplice_scan_next(s, LISTS(C));
        VALUE(m.answer, elements[i]);
        s = m.scan;
    }
    NONE(loftsplice_scan_next(s, LISTS(C)).answer);

    /* bad columns and scans; an index and a value that are not read come back too */
    loftsplice_scan ended = {0, 9, 77, 66, LOFTSPLICE_ENDED, 0}, odd = {0, 9, 77, 66, 3, 0}, far = {4, 5, 6, 66, 256, 1};
    SCAN_REFUSED(uneven, ended, LOFTSPLICE_SHAPE);
    SCAN_REFUSED(standing, ended, LOFTSPLICE_ENDS);
    SCAN_REFUSED(past_edge, ended, LOFTSPLICE_REACH);
    loftsplice_scan long_one = {0, 10, 0, 0, LOFTSPLICE_FRESH, 0}, outside = {2, 9, 1, 15, LOFTSPLICE_AT, 1}, at_end = {0, 9, 9, 240, LOFTSPLICE_AT, 1};
    SCAN_REFUSED(C, long_one, LOFTSPLICE_SCAN);
    SCAN_REFUSED(C, outside, LOFTSPLICE_SCAN);
    SCAN_REFUSED(C, at_end, LOFTSPLICE_SCAN);
    m = loftsplice_scan_next(ended, LISTS(C));
    NONE(m.answer), SCAN(m.scan, 0, 9, LOFTSPLICE_ENDED);

    /* no state: 100, also before 1; never taken for ended */
    ALL_REFUSED(C, odd, LOFTSPLICE_FORM);
    ALL_REFUSED(C, far, LOFTSPLICE_FORM);
    ALL_REFUSED(uneven, odd, LOFTSPLICE_FORM);
    for (uint32_t state = 3; state < 260; state++) {
        loftsplice_scan bad = {0, 9, 0, 0, state, 0};
        ALL_REFUSED(C, bad, LOFTSPLICE_FORM);
    }

    /* a scan that could not be made can't be used */
    loftsplice_new_scan refused = loftsplice_scan_new(LISTS(uneven));
    SAME(refused.refusal, LOFTSPLICE_SHAPE);
    SCAN(refused.scan, 0, 0, LOFTSPLICE_NO_STATE);
    ALL_REFUSED(C, refused.scan, LOFTSPLICE_FORM);
}

/* What a scan carries: 6 for a value that does not belong there, by every call that has the column; `current` has none and sees less. */
static void carried(void) {
    loftsplice_scan at_2 = {0, 9, 2, 20, LOFTSPLICE_AT, 1}, fresh_with = {0, 9, 0, 10, LOFTSPLICE_FRESH, 1}, ended_with = {0, 9, 0, 240, LOFTSPLICE_ENDED, 1};
    loftsplice_scan missing = {0, 9, 2, 20, LOFTSPLICE_AT, 0}, wrong = {0, 9, 2, 21, LOFTSPLICE_AT, 1}, lowest = {0, 9, 2, INT64_MIN, LOFTSPLICE_AT, 1};
    VALUE(loftsplice_scan_current(at_2), 20);
    VALUE(loftsplice_scan_next(at_2, LISTS(C)).answer, 25);

    /* a value when fresh or ended, none at an index: current too */
    ALL_REFUSED(C, fresh_with, LOFTSPLICE_SCAN);
    ALL_REFUSED(C, ended_with, LOFTSPLICE_SCAN);
    ALL_REFUSED(C, missing, LOFTSPLICE_SCAN);

    /* not the element at that index: every call but current, which answers it; narrow and reset do not repair it */
    SCAN_REFUSED(C, wrong, LOFTSPLICE_SCAN);
    VALUE(loftsplice_scan_current(wrong), 21);
    SCAN_REFUSED(C, lowest, LOFTSPLICE_SCAN);
    VALUE(loftsplice_scan_current(lowest), INT64_MIN);
    SCAN_REFUSED(D, at_2, LOFTSPLICE_SCAN);

    /* current looks at no window and no length */
    loftsplice_scan beyond = {5, 1000, 4, 7, LOFTSPLICE_AT, 1}, long_one = {0, 1000, 0, 0, LOFTSPLICE_FRESH, 0};
    VALUE(loftsplice_scan_current(beyond), 7);
    SCAN_REFUSED(C, beyond, LOFTSPLICE_SCAN);
    NONE(loftsplice_scan_current(long_one));
    SCAN_REFUSED(C, long_one, LOFTSPLICE_SCAN);

    /* 1, 2 and 3 come before */
    SCAN_REFUSED(uneven, wrong, LOFTSPLICE_SHAPE);
    SCAN_REFUSED(standing, missing, LOFTSPLICE_ENDS);
    SCAN_REFUSED(past_edge, fresh_with, LOFTSPLICE_REACH);

    /* found that is neither 1 nor 0: 100, never taken for one of them */
    for (uint32_t found = 2; found < 260; found++) {
        loftsplice_scan bad = {0, 9, 2, 20, LOFTSPLICE_AT, found}, none_there = {0, 9, 0, 0, LOFTSPLICE_FRESH, found};
        ALL_REFUSED(C, bad, LOFTSPLICE_FORM);
        ALL_REFUSED(uneven, none_there, LOFTSPLICE_FORM);
    }
    loftsplice_scan most = {0, 9, 0, 0, LOFTSPLICE_ENDED, UINT32_MAX};
    ALL_REFUSED(C, most, LOFTSPLICE_FORM);

    /* a value that is not there is not read, and comes back as 0 */
    loftsplice_scan unread = {0, 9, 0, 66, LOFTSPLICE_FRESH, 0};
    NONE(loftsplice_scan_current(unread));
    loftsplice_moved m = loftsplice_scan_narrow(unread, LISTS(C), 2, 4);
    NONE(m.answer), SCAN(m.scan, 2, 4, LOFTSPLICE_FRESH);
    m = loftsplice_scan_reset(at_2, LISTS(C));
    NONE(m.answer), SCAN(m.scan, 0, 9, LOFTSPLICE_FRESH);

    /* the filter's calls: next and seek in any state, after 3 and before 8; current in any state, what is carried only when Within */
    loftsplice_scan bad[] = {fresh_with, ended_with, missing, wrong};
    static const uint32_t states[] = {LOFTSPLICE_BEFORE, LOFTSPLICE_WITHIN, LOFTSPLICE_AFTER};
    static uint64_t many_inputs[over_bounds];
    static uint8_t many_kinds[over_bounds];
    memset(many_kinds, LOFTSPLICE_INCLUSIVE, sizeof many_kinds);
    lists long_bounds = no_lists;
    long_bounds.upper = many_inputs, long_bounds.upper_len = over_bounds, long_bounds.upper_kinds = many_kinds, long_bounds.upper_kinds_len = over_bounds;
    for (size_t i = 0; i < 4; i++)
        for (size_t k = 0; k < 3; k++) {
            loftsplice_filter f = fitted(bad[i], NULL, NULL, 0, NULL, NULL, 0);
            f.state = states[k];
            CALL_REFUSED(C, f, no_lists, LOFTSPLICE_SCAN);
            CALL_REFUSED(C, f, long_bounds, LOFTSPLICE_SCAN);
            CALL_REFUSED(uneven, f, long_bounds, LOFTSPLICE_SHAPE);
            if (i < 3) REFUSED(loftsplice_filter_current(f), LOFTSPLICE_SCAN);
            else if (states[k] == LOFTSPLICE_WITHIN) VALUE(loftsplice_filter_current(f), 21);
            else NONE(loftsplice_filter_current(f));
            loftsplice_reset r = loftsplice_filter_reset(f);
            SAME(r.refusal, 0);
            f.state = LOFTSPLICE_BEFORE;
            FILTER(r.filter, f);
        }
    loftsplice_filter within_fresh = fitted(fresh(C), NULL, NULL, 0, NULL, NULL, 0);
    within_fresh.state = LOFTSPLICE_WITHIN;
    NONE(loftsplice_filter_current(within_fresh));
    loftsplice_scan odd = {0, 9, 2, 20, LOFTSPLICE_AT, 2};
    SAME(loftsplice_filter_new(odd, LOFTSPLICE_INCLUSIVE_WINS, NULL, 0, NULL, 0, NULL, 0, NULL, 0).refusal, LOFTSPLICE_FORM);
}

/* A run of nexts against single calls, one after the other. */
static void nexts_at(int line, column c, loftsplice_scan s, size_t calls) {
    int64_t out[places], values[places];
    loftsplice_ran ran = nexts_of(s, c, out, calls);
    loftsplice_moved m = {s, {0, 1, 0}};
    size_t count = 0;
    for (size_t i = 0; i < calls && m.answer.found; i++) {
        m = loftsplice_scan_next(m.scan, LISTS(c));
        if (m.answer.found) values[count++] = m.answer.value;
    }
    same_run_at(line, ran, out, 0, m.scan, values, count);
}

/* A run of seeks likewise, with as many places as there are values; with fewer it is refused 10. */
static void seeks_at(int line, column c, loftsplice_scan s, const int64_t *targets, size_t calls) {
    int64_t out[places], values[places];
    loftsplice_moved m = {s, {0, 1, 0}};
    size_t count = 0;
    for (size_t i = 0; i < calls && m.answer.found; i++) {
        m = loftsplice_scan_seek(m.scan, LISTS(c), targets[i]);
        if (m.answer.found) values[count++] = m.answer.value;
    }
    for (size_t more = 0; count + more <= places; more++)
        same_run_at(line, seeks_of(s, c, targets, calls, out, count + more), out, 0, m.scan, values, count);
    for (size_t less = 0; less < count; less++)
        same_run_at(line, seeks_of(s, c, targets, calls, out, less), out, LOFTSPLICE_ROOM, s, NULL, 0);
}

static void runs(void) {
    static const int64_t elements[] = {10, 15, 20, 25, 30, 31, 40, 140, 240}, falling[] = {10, 5, 6, 7, 8};
    int64_t out[places];
    loftsplice_scan s = fresh(C), at_2 = {0, 9, 2, 20, LOFTSPLICE_AT, 1}, at_8 = {0, 9, 8, 240, LOFTSPLICE_AT, 1}, ended = {0, 9, 0, 0, LOFTSPLICE_ENDED, 0};

    /* all elements in one call: with as many places the scan is at the last, with one more it has ended */
    same_run_at(__LINE__, nexts_of(s, C, out, 9), out, 0, at_8, elements, 9);
    same_run_at(__LINE__, nexts_of(s, C, out, 10), out, 0, ended, elements, 9);
    same_run_at(__LINE__, nexts_of(s, C, out, 3), out, 0, at_2, elements, 3);
    same_run_at(__LINE__, nexts_of(at_2, C, out, 12), out, 0, ended, elements + 3, 6);
    /* next asks for no order */
    loftsplice_scan d_ended = {0, 5, 0, 0, LOFTSPLICE_ENDED, 0};
    same_run_at(__LINE__, nexts_of(fresh(D), D, out, 12), out, 0, d_ended, falling, 5);

    /* the logs 9, 10, 11, 26 and 241: 10 alone is carried, 241 ends the scan; targets that fall stay */
    static const int64_t logs[] = {9, 10, 11, 26, 241, 3}, found[] = {10, 10, 15, 30}, down[] = {26, 12, INT64_MIN, 31, 30}, stays[] = {30, 30, 30, 31, 31};
    loftsplice_scan at_4 = {0, 9, 4, 30, LOFTSPLICE_AT, 1}, at_5 = {0, 9, 5, 31, LOFTSPLICE_AT, 1};
    same_run_at(__LINE__, seeks_of(s, C, logs, 4, out, 4), out, 0, at_4, found, 4);
    same_run_at(__LINE__, seeks_of(s, C, logs, 6, out, 4), out, 0, ended, found, 4);
    same_run_at(__LINE__, seeks_of(s, C, logs, 6, out, 3), out, LOFTSPLICE_ROOM, s, NULL, 0);
    same_run_at(__LINE__, seeks_of(s, C, down, 5, out, 12), out, 0, at_5, stays, 5);
    same_run_at(__LINE__, seeks_of(s, C, logs + 4, 1, out, 0), out, 0, ended, NULL, 0);

    /* a run of no calls changes nothing: what is not read comes back as 0, as from every call */
    loftsplice_scan unread = {0, 9, 77, 66, LOFTSPLICE_ENDED, 0};
    same_run_at(__LINE__, nexts_of(at_2, C, out, 0), out, 0, at_2, NULL, 0);
    same_run_at(__LINE__, seeks_of(at_2, C, NULL, 0, out, 12), out, 0, at_2, NULL, 0);
    same_run_at(__LINE__, nexts_of(unread, C, out, 0), out, 0, ended, NULL, 0);

    /* 7: seeks alone, also where there is no target; 6, 3, 2, 1 before it, and 10 after */
    same_run_at(__LINE__, seeks_of(fresh(D), D, NULL, 0, out, 0), out, LOFTSPLICE_ORDER, fresh(D), NULL, 0);
    same_run_at(__LINE__, seeks_of(fresh(D), D, logs, 1, out, 0), out, LOFTSPLICE_ORDER, fresh(D), NULL, 0);

    /* against single calls, from every index, in two windows, in every number of calls */
    for (uint64_t end = 7; end <= 9; end += 2)
        for (uint64_t at = 0; at <= end + 1; at++)
            for (size_t calls = 0; calls <= places; calls++) {
                loftsplice_scan from = {0, end, 0, 0, at == end ? LOFTSPLICE_FRESH : LOFTSPLICE_ENDED, 0};
                if (at < end) from = (loftsplice_scan){0, end, at, elements[at], LOFTSPLICE_AT, 1};
                nexts_at(__LINE__, C, from, calls);
                if (calls <= 6) seeks_at(__LINE__, C, from, logs, calls);
                if (calls <= 5) seeks_at(__LINE__, C, from, down, calls);
            }
}

static void filters(void) {
    static const uint8_t inclusive[] = {LOFTSPLICE_INCLUSIVE, LOFTSPLICE_INCLUSIVE}, exclusive[] = {LOFTSPLICE_EXCLUSIVE};
    static const uint8_t both[] = {LOFTSPLICE_INCLUSIVE, LOFTSPLICE_EXCLUSIVE};
    static const int64_t at_10[] = {10}, at_40[] = {40}, at_15[] = {15, 15};
    loftsplice_scan s = fresh(C);

    /* P10 */
    loftsplice_filter f = fitted(s, at_10, exclusive, 1, at_40, inclusive, 1);
    SCAN(f.scan, 0, 9, LOFTSPLICE_FRESH);
    LIMIT(f.lower, LOFTSPLICE_EXCLUSIVE, 10), LIMIT(f.upper, LOFTSPLICE_INCLUSIVE, 40), LIMIT(f.kept, LOFTSPLICE_FREE, 0);
    SAME(f.state, LOFTSPLICE_BEFORE);
    NONE(loftsplice_filter_current(f));
    static const int64_t p10[] = {15, 20, 25, 30, 31, 40};
    loftsplice_filter walking = f;
    loftsplice_sifted m;
    for (size_t i = 0; i < 6; i++) {
        m = next_of(walking, C, no_lists);
        VALUE(m.answer, p10[i]);
        walking = m.filter;
        SAME(walking.state, LOFTSPLICE_WITHIN), LIMIT(walking.kept, LOFTSPLICE_INCLUSIVE, 40);
        VALUE(loftsplice_filter_current(walking), p10[i]);
    }
    SCAN_AT(walking.scan, 0, 9, 6, 40);
    m = next_of(walking, C, no_lists);
    NONE(m.answer), SAME(m.filter.state, LOFTSPLICE_AFTER), LIMIT(m.filter.kept, LOFTSPLICE_FREE, 0);
    SCAN_AT(m.filter.scan, 0, 9, 7, 140);
    NONE(loftsplice_filter_current(m.filter));
    NONE(next_of(m.filter, C, no_lists).answer);
    m = seek_of(walking, C, 20, no_lists);
    VALUE(m.answer, 40);

    /* reset: Before, and the scan where it stands */
    loftsplice_reset r = loftsplice_filter_reset(walking);
    SAME(r.refusal, 0), SAME(r.filter.state, LOFTSPLICE_BEFORE), SCAN_AT(r.filter.scan, 0, 9, 6, 40);
    LIMIT(r.filter.lower, LOFTSPLICE_EXCLUSIVE, 10), LIMIT(r.filter.upper, LOFTSPLICE_INCLUSIVE, 40), LIMIT(r.filter.kept, LOFTSPLICE_FREE, 0);

    /* P11 */
    f = fitted(s, NULL, NULL, 0, at_15, both, 2);
    LIMIT(f.lower, LOFTSPLICE_FREE, 0), LIMIT(f.upper, LOFTSPLICE_INCLUSIVE, 15);
    m = next_of(f, C, no_lists);
    VALUE(m.answer, 10);
    m = next_of(m.filter, C, no_lists);
    VALUE(m.answer, 15);
    NONE(next_of(m.filter, C, no_lists).answer);
    f = fitted(s, NULL, NULL, 0, NULL, NULL, 0);
    m = seek_of(f, C, 100, no_lists);
    VALUE(m.answer, 10), LIMIT(m.filter.kept, LOFTSPLICE_FREE, 0), SAME(m.filter.state, LOFTSPLICE_WITHIN);
    m = seek_of(m.filter, C, 100, no_lists);
    VALUE(m.answer, 140), SCAN_AT(m.filter.scan, 0, 9, 7, 140);

    /* its strict twin: both bounds mean both; the mode is kept by calls and by reset */
    loftsplice_filter strict = fitted_in(LOFTSPLICE_EXCLUSIVE_WINS, s, NULL, NULL, 0, at_15, both, 2);
    LIMIT(strict.upper, LOFTSPLICE_EXCLUSIVE, 15);
    m = next_of(strict, C, no_lists);
    VALUE(m.answer, 10), SAME(m.filter.mode, LOFTSPLICE_EXCLUSIVE_WINS), LIMIT(m.filter.kept, LOFTSPLICE_EXCLUSIVE, 15);
    m = next_of(m.filter, C, no_lists);
    NONE(m.answer), SAME(m.filter.state, LOFTSPLICE_AFTER), SAME(m.filter.mode, LOFTSPLICE_EXCLUSIVE_WINS);
    r = loftsplice_filter_reset(m.filter);
    SAME(r.refusal, 0), SAME(r.filter.mode, LOFTSPLICE_EXCLUSIVE_WINS), LIMIT(r.filter.upper, LOFTSPLICE_EXCLUSIVE, 15);
    /* a constant and a variable bound of one value, in both modes; lower bounds go by the same order in both */
    static const uint64_t input_0[] = {0};
    static const int64_t twenty[] = {20};
    static const uint8_t there[] = {1};
    lists at_most_20 = {NULL, 0, NULL, 0, input_0, 1, inclusive, 1, twenty, 1, there, 1};
    for (uint32_t mode = LOFTSPLICE_INCLUSIVE_WINS; mode <= LOFTSPLICE_EXCLUSIVE_WINS; mode++) {
        m = next_of(fitted_in(mode, s, NULL, NULL, 0, twenty, exclusive, 1), C, at_most_20);
        VALUE(m.answer, 10), LIMIT(m.filter.kept, mode, 20), LIMIT(m.filter.upper, LOFTSPLICE_EXCLUSIVE, 20);
        LIMIT(fitted_in(mode, s, at_15, both, 2, NULL, NULL, 0).lower, LOFTSPLICE_EXCLUSIVE, 15);
    }

    /* variable bounds: above input 1, at most input 0 */
    static const uint64_t name_0[] = {0}, name_1[] = {1}, name_2[] = {2};
    static const int64_t values[] = {30, 20, 5};
    static const uint8_t all_there[] = {1, 1, 1}, one_missing[] = {1, 0, 1}, no_bit[] = {1, 2, 1};
    lists l = {name_1, 1, exclusive, 1, name_0, 1, inclusive, 1, values, 2, all_there, 2};
    m = next_of(f, C, l);
    VALUE(m.answer, 25), LIMIT(m.filter.kept, LOFTSPLICE_INCLUSIVE, 30), LIMIT(m.filter.upper, LOFTSPLICE_FREE, 0);
    m = next_of(m.filter, C, no_lists);
    VALUE(m.answer, 30);
    NONE(next_of(m.filter, C, no_lists).answer);
    m = seek_of(f, C, 26, l);
    VALUE(m.answer, 30);

    /* 9: a missing input, one without a value; read Before only */
    lists missing = l, empty = l;
    missing.lower = name_2;
    empty.found = one_missing;
    CALL_REFUSED(C, f, missing, LOFTSPLICE_INPUT);
    CALL_REFUSED(C, f, empty, LOFTSPLICE_INPUT);
    loftsplice_filter within = next_of(f, C, l).filter;
    VALUE(next_of(within, C, missing).answer, 30);

    /* 8: one bound or input too many, whatever the last is; 7 and 6 by their place in the order */
    static int64_t many[over_bounds];
    static uint64_t many_inputs[over_bounds];
    static uint8_t many_kinds[over_bounds], many_found[over_inputs];
    memset(many_kinds, LOFTSPLICE_INCLUSIVE, sizeof many_kinds);
    loftsplice_new_filter n = loftsplice_filter_new(s, LOFTSPLICE_INCLUSIVE_WINS, many, over_bounds, many_kinds, over_bounds, NULL, 0, NULL, 0);
    SAME(n.refusal, LOFTSPLICE_BOUNDS);
    loftsplice_limit free_limit = {0, LOFTSPLICE_FREE};
    loftsplice_filter no_filter = {{0, 0, 0, 0, LOFTSPLICE_NO_STATE, 0}, free_limit, free_limit, free_limit, LOFTSPLICE_NO_STATE, 0};
    FILTER(n.filter, no_filter);
    n = loftsplice_filter_new(s, LOFTSPLICE_INCLUSIVE_WINS, NULL, 0, NULL, 0, many, over_bounds, many_kinds, over_bounds);
    SAME(n.refusal, LOFTSPLICE_BOUNDS);
    n = loftsplice_filter_new(s, LOFTSPLICE_INCLUSIVE_WINS, many, most_bounds, many_kinds, most_bounds, many, most_bounds, many_kinds, most_bounds);
    SAME(n.refusal, 0), LIMIT(n.filter.lower, LOFTSPLICE_INCLUSIVE, 0);
    many[most_bounds - 1] = 12;
    n = loftsplice_filter_new(s, LOFTSPLICE_INCLUSIVE_WINS, many, most_bounds, many_kinds, most_bounds, NULL, 0, NULL, 0);
    SAME(n.refusal, 0), LIMIT(n.filter.lower, LOFTSPLICE_INCLUSIVE, 12);
    lists long_bounds = no_lists, long_inputs = no_lists;
    long_bounds.upper = many_inputs, long_bounds.upper_len = over_bounds, long_bounds.upper_kinds = many_kinds, long_bounds.upper_kinds_len = over_bounds;
    long_inputs.values = many, long_inputs.values_len = over_inputs, long_inputs.found = many_found, long_inputs.found_len = over_inputs;
    CALL_REFUSED(C, f, long_bounds, LOFTSPLICE_BOUNDS);
    CALL_REFUSED(C, f, long_inputs, LOFTSPLICE_BOUNDS);
    loftsplice_filter over_d = fitted(fresh(D), NULL, NULL, 0, NULL, NULL, 0);
    CALL_REFUSED(D, over_d, no_lists, LOFTSPLICE_ORDER);
    CALL_REFUSED(D, over_d, missing, LOFTSPLICE_ORDER);
    CALL_REFUSED(D, over_d, long_bounds, LOFTSPLICE_BOUNDS);
    CALL_REFUSED(uneven, f, long_bounds, LOFTSPLICE_SHAPE);
    loftsplice_scan bad_scan = {0, 10, 0, 0, LOFTSPLICE_FRESH, 0};
    loftsplice_filter over_bad = fitted(bad_scan, NULL, NULL, 0, NULL, NULL, 0);
    CALL_REFUSED(C, over_bad, long_bounds, LOFTSPLICE_SCAN);
    NONE(loftsplice_filter_current(over_bad));

    /* 100: lists of unequal length, kinds that are none, also in a list that is too long; before all others */
    n = loftsplice_filter_new(s, LOFTSPLICE_INCLUSIVE_WINS, at_15, 2, both, 1, NULL, 0, NULL, 0);
    SAME(n.refusal, LOFTSPLICE_FORM);
    FILTER(n.filter, no_filter);
    n = loftsplice_filter_new(s, LOFTSPLICE_INCLUSIVE_WINS, NULL, 0, NULL, 0, at_15, 1, both, 2);
    SAME(n.refusal, LOFTSPLICE_FORM);
    many_kinds[most_bounds] = LOFTSPLICE_FREE;
    n = loftsplice_filter_new(s, LOFTSPLICE_INCLUSIVE_WINS, many, over_bounds, many_kinds, over_bounds, NULL, 0, NULL, 0);
    SAME(n.refusal, LOFTSPLICE_FORM);
    many_kinds[most_bounds] = LOFTSPLICE_EXCLUSIVE;
    for (unsigned kind = 0; kind < 256; kind++) {
        uint8_t k = (uint8_t)kind;
        int good = kind == LOFTSPLICE_INCLUSIVE || kind == LOFTSPLICE_EXCLUSIVE;
        n = loftsplice_filter_new(s, LOFTSPLICE_INCLUSIVE_WINS, at_10, 1, &k, 1, NULL, 0, NULL, 0);
        SAME(n.refusal, good ? 0 : LOFTSPLICE_FORM);
        lists one = l;
        one.upper_kinds = &k;
        if (!good) CALL_REFUSED(uneven, f, one, LOFTSPLICE_FORM);
    }
    static const uint32_t no_mode[] = {0, 3, 4, 100, UINT32_MAX};
    for (size_t i = 0; i < sizeof no_mode / sizeof *no_mode; i++) {
        n = loftsplice_filter_new(s, no_mode[i], many, over_bounds, many_kinds, over_bounds, NULL, 0, NULL, 0);
        SAME(n.refusal, LOFTSPLICE_FORM);
        FILTER(n.filter, no_filter);
    }
    loftsplice_scan odd = {0, 9, 0, 0, 3, 0};
    n = loftsplice_filter_new(odd, LOFTSPLICE_INCLUSIVE_WINS, NULL, 0, NULL, 0, NULL, 0, NULL, 0);
    SAME(n.refusal, LOFTSPLICE_FORM);
    lists short_found = l, bad_found = l, short_kinds = l;
    short_found.found_len = 1, bad_found.found = no_bit, short_kinds.lower_kinds_len = 0;
    CALL_REFUSED(C, f, short_found, LOFTSPLICE_FORM);
    CALL_REFUSED(C, f, bad_found, LOFTSPLICE_FORM);
    CALL_REFUSED(C, f, short_kinds, LOFTSPLICE_FORM);

    /* every number of a filter that is to be a state, a kind, found or the mode, and is none */
    loftsplice_filter bad[8] = {f, f, f, f, f, f, f, f};
    bad[0].scan.state = 3, bad[1].state = 3, bad[2].lower.kind = 3, bad[3].upper.kind = UINT32_MAX, bad[4].kept.kind = 4;
    bad[5].mode = 0, bad[6].mode = 3, bad[7].scan.found = 2;
    for (size_t i = 0; i < 8; i++) {
        bad[i].kept.value = 99;
        CALL_REFUSED(C, bad[i], no_lists, LOFTSPLICE_FORM);
        CALL_REFUSED(uneven, bad[i], long_bounds, LOFTSPLICE_FORM);
        REFUSED(loftsplice_filter_current(bad[i]), LOFTSPLICE_FORM);
        r = loftsplice_filter_reset(bad[i]);
        SAME(r.refusal, LOFTSPLICE_FORM);
        FILTER(r.filter, bad[i]);
    }
    CALL_REFUSED(C, no_filter, no_lists, LOFTSPLICE_FORM);
}

/* A run of a filter's nexts against single calls, one after the other, each handed the same lists. */
static void sifts_at(int line, column c, loftsplice_filter f, lists l, size_t calls) {
    int64_t out[places], values[places];
    loftsplice_filter_ran ran = sifts_of(f, c, l, out, calls);
    loftsplice_sifted m = {f, {0, 1, 0}};
    size_t count = 0;
    for (size_t i = 0; i < calls && m.answer.found; i++) {
        m = next_of(m.filter, c, l);
        if (m.answer.found) values[count++] = m.answer.value;
    }
    same_filter_run_at(line, ran, out, 0, m.filter, values, count);
}

/* A run of a filter's seeks likewise, with as many places as there are values and with more; with fewer it is refused 10. */
static void sought_at(int line, column c, loftsplice_filter f, lists l, const int64_t *targets, size_t calls) {
    int64_t out[places], values[places];
    loftsplice_sifted m = {f, {0, 1, 0}};
    size_t count = 0;
    for (size_t i = 0; i < calls && m.answer.found; i++) {
        m = seek_of(m.filter, c, targets[i], l);
        if (m.answer.found) values[count++] = m.answer.value;
    }
    for (size_t more = 0; count + more <= places; more++)
        same_filter_run_at(line, sought_of(f, c, targets, calls, l, out, count + more), out, 0, m.filter, values, count);
    for (size_t less = 0; less < count; less++)
        same_filter_run_at(line, sought_of(f, c, targets, calls, l, out, less), out, LOFTSPLICE_ROOM, f, NULL, 0);
}

/* Both runs, in every number of calls up to 12 and 6, with targets that rise and that fall. */
static void filter_runs_from(int line, column c, loftsplice_filter f, lists l) {
    static const int64_t up[] = {9, 12, 20, 21, 31, 141}, down[] = {26, 12, INT64_MIN, 31, INT64_MAX, 30};
    for (size_t calls = 0; calls <= places; calls++) sifts_at(line, c, f, l, calls);
    for (size_t calls = 0; calls <= 6; calls++) {
        sought_at(line, c, f, l, up, calls);
        sought_at(line, c, f, l, down, calls);
    }
}

static void filter_runs(void) {
    static const uint8_t inclusive[] = {LOFTSPLICE_INCLUSIVE}, exclusive[] = {LOFTSPLICE_EXCLUSIVE}, there[] = {1, 1}, not_there[] = {0, 0};
    static const int64_t at_10[] = {10}, at_15[] = {15}, at_40[] = {40}, met[] = {15, 20, 25, 30, 31, 40};
    int64_t out[places];
    loftsplice_scan s = fresh(C);
    loftsplice_limit at_most_40 = {40, LOFTSPLICE_INCLUSIVE}, free_limit = {0, LOFTSPLICE_FREE};

    /* P10 in one call: with as many places the filter is Within, at 40; with one more After, its scan where it fell out */
    loftsplice_filter f = fitted(s, at_10, exclusive, 1, at_40, inclusive, 1), within = f, after = f;
    within.scan = (loftsplice_scan){0, 9, 6, 40, LOFTSPLICE_AT, 1}, within.kept = at_most_40, within.state = LOFTSPLICE_WITHIN;
    after.scan = (loftsplice_scan){0, 9, 7, 140, LOFTSPLICE_AT, 1}, after.state = LOFTSPLICE_AFTER;
    same_filter_run_at(__LINE__, sifts_of(f, C, no_lists, out, 6), out, 0, within, met, 6);
    same_filter_run_at(__LINE__, sifts_of(f, C, no_lists, out, 7), out, 0, after, met, 6);
    same_filter_run_at(__LINE__, sifts_of(within, C, no_lists, out, 12), out, 0, after, NULL, 0);
    same_filter_run_at(__LINE__, sifts_of(after, C, no_lists, out, 12), out, 0, after, NULL, 0);

    /* the logs 9, 16, 12 and 41: none of them is carried; 41 lies past the bound, and ends the run before 15 is asked */
    static const int64_t logs[] = {9, 16, 12, 41, 15}, found[] = {15, 20, 20};
    loftsplice_filter at_20 = within;
    at_20.scan = (loftsplice_scan){0, 9, 2, 20, LOFTSPLICE_AT, 1};
    same_filter_run_at(__LINE__, sought_of(f, C, logs, 3, no_lists, out, 3), out, 0, at_20, found, 3);
    same_filter_run_at(__LINE__, sought_of(f, C, logs, 5, no_lists, out, 12), out, 0, after, found, 3);
    same_filter_run_at(__LINE__, sought_of(f, C, logs, 5, no_lists, out, 3), out, 0, after, found, 3);
    same_filter_run_at(__LINE__, sought_of(f, C, logs, 5, no_lists, out, 2), out, LOFTSPLICE_ROOM, f, NULL, 0);
    same_filter_run_at(__LINE__, sought_of(f, C, logs + 3, 2, no_lists, out, 0), out, 0, after, NULL, 0);

    /* P11: Before without a lower bound the first target is ignored */
    static const int64_t hundreds[] = {100, 100, 100}, first_ignored[] = {10, 140, 140};
    loftsplice_filter open = fitted(s, NULL, NULL, 0, NULL, NULL, 0), at_140 = open;
    at_140.scan = after.scan, at_140.kept = free_limit, at_140.state = LOFTSPLICE_WITHIN;
    same_filter_run_at(__LINE__, sought_of(open, C, hundreds, 3, no_lists, out, 12), out, 0, at_140, first_ignored, 3);

    /* above input 1, at most input 0: read by the first call, if the filter is Before, and by no other; the lower list and the upper are two */
    static const uint64_t name_0[] = {0}, name_1[] = {1};
    static const int64_t values[] = {30, 20}, between[] = {25, 30};
    lists l = {name_1, 1, exclusive, 1, name_0, 1, inclusive, 1, values, 2, there, 2}, empty = l, turned = l;
    empty.found = not_there;
    turned.lower = name_0, turned.upper = name_1;
    loftsplice_filter fell_out = open;
    fell_out.scan = (loftsplice_scan){0, 9, 5, 31, LOFTSPLICE_AT, 1}, fell_out.state = LOFTSPLICE_AFTER;
    same_filter_run_at(__LINE__, sifts_of(open, C, l, out, 12), out, 0, fell_out, between, 2);
    same_filter_run_at(__LINE__, sifts_of(open, C, turned, out, 12), out, 0, fell_out, NULL, 0);
    CALL_REFUSED(C, open, empty, LOFTSPLICE_INPUT);
    same_filter_run_at(__LINE__, sifts_of(next_of(open, C, l).filter, C, empty, out, 12), out, 0, fell_out, between + 1, 1);

    /* a run of no calls changes nothing, but that what is not read comes back as 0, as from every call */
    loftsplice_filter unread = after, read = after;
    unread.kept = (loftsplice_limit){77, LOFTSPLICE_EXCLUSIVE}, read.kept = free_limit;
    same_filter_run_at(__LINE__, sifts_of(f, C, l, out, 0), out, 0, f, NULL, 0);
    same_filter_run_at(__LINE__, sought_of(within, C, NULL, 0, l, out, 12), out, 0, within, NULL, 0);
    same_filter_run_at(__LINE__, sifts_of(unread, C, no_lists, out, 0), out, 0, read, NULL, 0);

    /* 7 stands before 9 and 10, also where there is no target */
    loftsplice_filter over_d = fitted(fresh(D), NULL, NULL, 0, NULL, NULL, 0);
    same_filter_run_at(__LINE__, sought_of(over_d, D, logs, 1, empty, out, 0), out, LOFTSPLICE_ORDER, over_d, NULL, 0);
    same_filter_run_at(__LINE__, sought_of(open, C, logs, 1, empty, out, 0), out, LOFTSPLICE_INPUT, open, NULL, 0);
    same_filter_run_at(__LINE__, sought_of(open, C, logs, 1, l, out, 0), out, LOFTSPLICE_ROOM, open, NULL, 0);

    /* against single calls: with constant bounds, with variable ones and with both, in both modes, from Before, Within at each element, and After */
    const lists all_lists[] = {no_lists, l, turned};
    for (uint32_t mode = LOFTSPLICE_INCLUSIVE_WINS; mode <= LOFTSPLICE_EXCLUSIVE_WINS; mode++)
        for (size_t which = 0; which < 3; which++)
            for (size_t bounds = 0; bounds < 4; bounds++) {
                loftsplice_scan narrow = s;
                if (bounds == 3) narrow = loftsplice_scan_narrow(s, LISTS(C), 1, 7).scan;
                loftsplice_filter from = fitted_in(mode, narrow, at_15, exclusive, bounds & 1, bounds == 2 ? at_15 : at_40, exclusive, bounds >> 1);
                for (size_t moves = 0; moves <= 10; moves++) {
                    filter_runs_from(__LINE__, C, from, all_lists[which]);
                    from = next_of(from, C, all_lists[which]).filter;
                }
                filter_runs_from(__LINE__, C, loftsplice_filter_reset(from).filter, all_lists[which]);
            }
}

/* A listing into 8 places of output and 4 of counts, which hold -77 and 99 before; the first of them are compared with what is wanted. */
static void listing_at(int line, column c, const uint64_t *from, size_t from_len, const uint64_t *to, size_t to_len, const int64_t *low, size_t low_len,
    const uint8_t *low_kinds, size_t low_kinds_len, size_t out_len, size_t counts_len, uint32_t refusal, const int64_t *values, size_t sum,
    const uint64_t *counts_wanted, size_t windows) {
    static const int64_t at_most[] = {140};
    static const uint8_t kinds[] = {LOFTSPLICE_INCLUSIVE};
    int64_t out[8];
    uint64_t counts[4];
    for (size_t i = 0; i < 8; i++) out[i] = -77;
    for (size_t i = 0; i < 4; i++) counts[i] = 99;
    loftsplice_listed l = loftsplice_list(LISTS(c), from, from_len, to, to_len, LOFTSPLICE_INCLUSIVE_WINS, low, low_len, low_kinds, low_kinds_len, at_most, 1, kinds, 1, out,
        out_len, counts, counts_len);
    same_at("listed.refusal", line, l.refusal, refusal);
    same_at("listed.sum", line, (int64_t)l.sum, (int64_t)sum);
    for (size_t i = 0; i < 8; i++) same_at("out", line, out[i], i < sum ? values[i] : -77);
    for (size_t i = 0; i < 4; i++) same_at("counts", line, (int64_t)counts[i], i < windows ? (int64_t)counts_wanted[i] : 99);
}
#define LISTING(...) listing_at(__LINE__, __VA_ARGS__)

static void listings(void) {
    static const uint64_t from[] = {3, 7, 3}, to[] = {6, 9, 5}, past[] = {6, 10, 5};
    static const int64_t above[] = {25}, all[] = {30, 31, 140, 30};
    static const uint64_t counts[] = {2, 1, 1};
    static const uint8_t exclusive[] = {LOFTSPLICE_EXCLUSIVE, LOFTSPLICE_EXCLUSIVE}, no_kind[] = {LOFTSPLICE_FREE};
    LISTING(C, from, 3, to, 3, above, 1, exclusive, 1, 8, 4, 0, all, 4, counts, 3);
    LISTING(C, from, 3, to, 3, above, 1, exclusive, 1, 4, 3, 0, all, 4, counts, 3);
    LISTING(C, NULL, 0, NULL, 0, above, 1, exclusive, 1, 0, 0, 0, all, 0, counts, 0);
    LISTING(C, from, 3, to, 3, above, 1, exclusive, 1, 3, 4, LOFTSPLICE_ROOM, all, 0, counts, 0);
    LISTING(C, from, 3, to, 3, above, 1, exclusive, 1, 8, 2, LOFTSPLICE_ROOM, all, 0, counts, 0);
    LISTING(C, from, 3, past, 3, above, 1, exclusive, 1, 8, 4, LOFTSPLICE_WINDOW, all, 0, counts, 0);
    LISTING(C, from, 3, to, 2, above, 1, exclusive, 1, 8, 4, LOFTSPLICE_BOUNDS, all, 0, counts, 0);
    LISTING(D, from, 0, to, 0, above, 1, exclusive, 1, 8, 4, 0, all, 0, counts, 0);
    static const uint64_t zero[] = {0}, five[] = {5};
    LISTING(D, zero, 1, five, 1, above, 1, exclusive, 1, 8, 4, LOFTSPLICE_ORDER, all, 0, counts, 0);
    LISTING(uneven, from, 3, to, 2, above, 1, exclusive, 1, 8, 4, LOFTSPLICE_SHAPE, all, 0, counts, 0);
    LISTING(uneven, from, 3, to, 2, above, 1, exclusive, 2, 8, 4, LOFTSPLICE_FORM, all, 0, counts, 0);
    LISTING(C, from, 3, to, 3, above, 1, no_kind, 1, 8, 4, LOFTSPLICE_FORM, all, 0, counts, 0);
    /* at most 31 and below 31: in the one mode 30 and 31, in the other 30; a number that is no mode is refused before all else */
    static const int64_t at_31[] = {31, 31};
    static const uint8_t both[] = {LOFTSPLICE_INCLUSIVE, LOFTSPLICE_EXCLUSIVE};
    for (uint32_t mode = 0; mode < 5; mode++) {
        int64_t out[2] = {-77, -77};
        uint64_t number[1] = {99};
        loftsplice_listed l = loftsplice_list(LISTS(mode == 0 ? uneven : C), from, 1, to, 1, mode, above, 1, exclusive, 1, at_31, 2, both, 2, out, 2, number, 1);
        int good = mode == LOFTSPLICE_INCLUSIVE_WINS || mode == LOFTSPLICE_EXCLUSIVE_WINS, two = mode == LOFTSPLICE_INCLUSIVE_WINS;
        SAME(l.refusal, good ? 0 : LOFTSPLICE_FORM), SAME(l.sum, good ? 1 + two : 0), SAME(number[0], good ? 1 + two : 99);
        SAME(out[0], good ? 30 : -77), SAME(out[1], two ? 31 : -77);
    }
    static uint64_t many[over_windows];
    LISTING(C, many, over_windows, many, over_windows, above, 1, exclusive, 1, 8, 4, LOFTSPLICE_BOUNDS, all, 0, counts, 0);
}

/* Request 13 of document 02: a window and its cuts, cuts[0]..cuts[1]..cuts[parts], each part a window of one listing: its output of 12 places that hold -77
 * before, its counts of 4 that hold 99, and what it answers. */
typedef struct limits {
    int64_t low[1], up[2];
    uint8_t low_kinds[1], up_kinds[2];
    size_t lows, ups;
} limits;
typedef struct parted {
    loftsplice_listed listed;
    int64_t out[12];
    uint64_t counts[4];
} parted;

static parted part_at(column c, uint32_t mode, const limits *l, const uint64_t *cuts, size_t parts) {
    parted p;
    for (size_t i = 0; i < 12; i++) p.out[i] = -77;
    for (size_t i = 0; i < 4; i++) p.counts[i] = 99;
    p.listed = loftsplice_list(LISTS(c), cuts, parts, cuts + 1, parts, mode, l->low, l->lows, l->low_kinds, l->lows, l->up, l->ups, l->up_kinds, l->ups, p.out, 12,
        p.counts, 4);
    return p;
}

/* The parts, listed in one call, against the whole: the answer, every byte of the output, the counts' sum, and the counts beyond. */
static void joined(column c, uint32_t mode, const limits *l, const uint64_t *cuts, size_t parts) {
    const uint64_t ends[] = {cuts[0], cuts[parts]};
    parted whole = part_at(c, mode, l, ends, 1), cut = part_at(c, mode, l, cuts, parts);
    SAME(whole.listed.refusal, 0), SAME(cut.listed.refusal, 0), SAME(cut.listed.sum, whole.listed.sum);
    SAME(memcmp(cut.out, whole.out, sizeof whole.out), 0);
    uint64_t sum = 0;
    for (size_t i = 0; i < parts; i++) sum += cut.counts[i];
    SAME(sum, whole.counts[0]);
    for (size_t i = parts; i < 4; i++) SAME(cut.counts[i], 99);
    /* and each in a call of its own, the last part first, joined afterwards */
    int64_t out[12];
    for (size_t i = 0; i < 12; i++) out[i] = -77;
    for (size_t i = parts, end = whole.listed.sum; i > 0; i--) {
        parted one = part_at(c, mode, l, cuts + i - 1, 1);
        SAME(one.listed.refusal, 0), SAME(one.listed.sum, cut.counts[i - 1]);
        end -= one.listed.sum;
        memcpy(out + end, one.out, one.listed.sum * sizeof *out);
    }
    SAME(memcmp(out, whole.out, sizeof whole.out), 0);
}

/* Every window of a rising column, at every middle, both ends allowed, and at every two. */
static void cut_everywhere(column c, uint64_t length, uint32_t mode, const limits *l) {
    for (uint64_t start = 0; start <= length; start++) {
        for (uint64_t end = start; end <= length; end++) {
            for (uint64_t one = start; one <= end; one++) {
                const uint64_t cut[] = {start, one, end};
                joined(c, mode, l, cut, 2);
                for (uint64_t two = one; two <= end; two++) {
                    const uint64_t cuts[] = {start, one, two, end};
                    joined(c, mode, l, cuts, 3);
                }
            }
        }
    }
}

static void cut_windows(void) {
    const uint8_t in = LOFTSPLICE_INCLUSIVE, ex = LOFTSPLICE_EXCLUSIVE;
    const limits all[] = {{{0}, {0, 0}, {0}, {0, 0}, 0, 0}, {{15}, {140, 0}, {ex}, {in, 0}, 1, 1}, {{16}, {31, 31}, {in}, {in, ex}, 1, 2}, {{300}, {5, 0}, {in}, {in, 0}, 1, 1}};
    const limits last = {{INT64_MAX - 3}, {INT64_MAX, 0}, {ex}, {in, 0}, 1, 1};
    for (uint32_t mode = LOFTSPLICE_INCLUSIVE_WINS; mode <= LOFTSPLICE_EXCLUSIVE_WINS; mode++) {
        for (size_t i = 0; i < sizeof all / sizeof *all; i++) cut_everywhere(C, 9, mode, &all[i]), cut_everywhere(none, 0, mode, &all[i]);
        cut_everywhere(edge, 8, mode, &last);
    }
    /* 256 parts pass, 257 do not */
    for (size_t parts = 256; parts <= 257; parts++) {
        uint64_t cuts[258] = {0}, counts[257] = {0};
        int64_t out[9];
        cuts[parts] = 9;
        loftsplice_listed l = loftsplice_list(LISTS(C), cuts, parts, cuts + 1, parts, LOFTSPLICE_INCLUSIVE_WINS, NULL, 0, NULL, 0, NULL, 0, NULL, 0, out, 9, counts, 257);
        SAME(l.refusal, parts == 256 ? 0 : LOFTSPLICE_BOUNDS), SAME(l.sum, parts == 256 ? 9 : 0), SAME(counts[parts - 1], parts == 256 ? 9 : 0);
    }
    /* a middle outside 0..0 lists 10, which the whole does not have; D falls at 1, and both of its parts rise; a damaged column is refused in parts as whole */
    const uint64_t outside[] = {0, 1, 0}, fall[] = {0, 1, 5}, whole[] = {0, 5};
    parted p = part_at(C, LOFTSPLICE_INCLUSIVE_WINS, &all[0], outside, 2);
    SAME(p.listed.refusal, 0), SAME(p.listed.sum, 1), SAME(p.out[0], 10);
    SAME(part_at(D, LOFTSPLICE_INCLUSIVE_WINS, &all[0], whole, 1).listed.refusal, LOFTSPLICE_ORDER);
    SAME(part_at(D, LOFTSPLICE_INCLUSIVE_WINS, &all[0], fall, 2).listed.sum, 5);
    for (size_t parts = 1; parts <= 2; parts++) {
        const uint64_t *cuts = parts == 1 ? whole : fall;
        SAME(part_at(uneven, LOFTSPLICE_INCLUSIVE_WINS, &all[0], cuts, parts).listed.refusal, LOFTSPLICE_SHAPE);
        SAME(part_at(standing, LOFTSPLICE_INCLUSIVE_WINS, &all[0], cuts, parts).listed.refusal, LOFTSPLICE_ENDS);
        SAME(part_at(past_edge, LOFTSPLICE_INCLUSIVE_WINS, &all[0], cuts, parts).listed.refusal, LOFTSPLICE_REACH);
    }
}

/* A first target and then a second that is not below it, against the second at once: answer and scan, from any scan. */
static void chained_from(column c, loftsplice_scan s) {
    static const int64_t targets[] = {INT64_MIN, -1, 9, 10, 11, 20, 25, 26, 31, 32, 140, 240, 241, INT64_MAX};
    for (size_t first = 0; first < sizeof targets / sizeof *targets; first++) {
        for (size_t second = first; second < sizeof targets / sizeof *targets; second++) {
            loftsplice_moved m = loftsplice_scan_seek(s, LISTS(c), targets[first]), n = loftsplice_scan_seek(m.scan, LISTS(c), targets[second]);
            loftsplice_moved once = loftsplice_scan_seek(s, LISTS(c), targets[second]);
            same_answer_at(__LINE__, n.answer, once.answer.refusal, once.answer.found, once.answer.value);
            same_scan_at(__LINE__, n.scan, once.scan);
        }
    }
}

static void chained_seeks(void) {
    static const int64_t elements[] = {10, 15, 20, 25, 30, 31, 40, 140, 240};
    for (uint64_t start = 0; start <= 9; start++) {
        for (uint64_t end = start; end <= 9; end++) {
            chained_from(C, (loftsplice_scan){start, end, 0, 0, LOFTSPLICE_FRESH, 0}), chained_from(C, (loftsplice_scan){start, end, 0, 0, LOFTSPLICE_ENDED, 0});
            for (uint64_t i = start; i < end; i++) chained_from(C, (loftsplice_scan){start, end, i, elements[i], LOFTSPLICE_AT, 1});
        }
    }
    /* refused 7, 6 and 1: the first seek leaves the scan */
    chained_from(D, (loftsplice_scan){0, 5, 0, 0, LOFTSPLICE_FRESH, 0}), chained_from(C, (loftsplice_scan){0, 9, 1, 16, LOFTSPLICE_AT, 1});
    chained_from(uneven, (loftsplice_scan){0, 9, 0, 0, LOFTSPLICE_FRESH, 0});
    /* a filter that is Before with no lower bound ignores the first target alone: 10 and then 11 end at 15, 11 at once is 10 */
    loftsplice_new_filter made = loftsplice_filter_new((loftsplice_scan){0, 9, 0, 0, LOFTSPLICE_FRESH, 0}, LOFTSPLICE_INCLUSIVE_WINS, NULL, 0, NULL, 0, NULL, 0, NULL, 0);
    VALUE(seek_of(seek_of(made.filter, C, 10, no_lists).filter, C, 11, no_lists).answer, 15);
    VALUE(seek_of(made.filter, C, 11, no_lists).answer, 10);
}

static void records(void) {
    static const uint8_t stored[] = {0x10, 0, 0, 0, 1, 0, 0x0A, 0, 0, 0, 0, 0, 0, 0, 0xFB, 0xFF, 2, 0, 0, 0, 0x77};
    int64_t starts[2] = {7, 7};
    uint64_t ends[2] = {7, 7};
    int16_t steps[2] = {7, 7};
    loftsplice_read r = loftsplice_read_record(stored, 21, starts, 2, ends, 2, steps, 2);
    SAME(r.refusal, 0), SAME(r.runs, 1), SAME(r.used, 20);
    SAME(starts[0], 10), SAME(ends[0], 2), SAME(steps[0], -5), SAME(starts[1], 7), SAME(ends[1], 7), SAME(steps[1], 7);
    uint8_t out[21];
    memset(out, 0xAA, sizeof out);
    loftsplice_written w = loftsplice_write_record(starts, 1, ends, 1, steps, 1, out, 21);
    SAME(w.refusal, 0), SAME(w.bytes, 20), SAME(memcmp(out, stored, 20), 0), SAME(out[20], 0xAA);
    w = loftsplice_write_record(starts, 1, ends, 1, steps, 1, out, 19);
    SAME(w.refusal, LOFTSPLICE_ROOM), SAME(w.bytes, 0);
    w = loftsplice_write_record(starts, 1, ends, 2, steps, 1, out, 21);
    SAME(w.refusal, LOFTSPLICE_SHAPE), SAME(w.bytes, 0);
    static const struct { size_t len; size_t places; uint8_t at, byte; uint32_t refusal; } bad[] = {
        {3, 2, 20, 0, LOFTSPLICE_CUT}, {19, 2, 20, 0, LOFTSPLICE_CUT}, {20, 2, 4, 2, LOFTSPLICE_KIND}, {21, 2, 0, 0x11, LOFTSPLICE_SIZE},
        {21, 2, 0, 1, LOFTSPLICE_SIZE}, {20, 0, 20, 0, LOFTSPLICE_ROOM}, {20, 2, 16, 0, LOFTSPLICE_ENDS}};
    for (size_t i = 0; i < sizeof bad / sizeof *bad; i++) {
        uint8_t bytes[21];
        memcpy(bytes, stored, sizeof bytes);
        bytes[bad[i].at] = bad[i].byte;
        int64_t s = 7;
        uint64_t e = 7;
        int16_t t = 7;
        size_t places = bad[i].places != 0;
        r = loftsplice_read_record(bytes, bad[i].len, &s, places, &e, places, &t, places);
        SAME(r.refusal, bad[i].refusal);
        SAME(r.runs, 0), SAME(r.used, 0), SAME(s, 7), SAME(e, 7), SAME(t, 7);
    }
}

/* The rule of a plain list, said another way: the runs of n values, each as long as it can be. */
static size_t plain_runs(const int64_t *values, size_t n, int64_t *starts, uint64_t *ends, int16_t *steps) {
    size_t runs = 0;
    for (size_t i = 0; i < n; runs++) {
        size_t end = i + 1;
        loftsplice_difference first = {0, 0};
        if (end < n) first = loftsplice_diff_step(values[i], values[end]);
        starts[runs] = values[i];
        steps[runs] = first.found ? (int16_t)first.step : 0;
        for (loftsplice_difference d = first; d.found && d.step == first.step && ++end < n;) d = loftsplice_diff_step(values[end - 1], values[end]);
        ends[runs] = i = end;
    }
    return runs;
}

/* Builds from n values into room for some runs in each list, all of it and the places behind compared; elements are the values again. */
enum { most_built = 16 };
static void built_at(int line, const int64_t *values, size_t n, size_t a, size_t b, size_t c) {
    int64_t starts[most_built + 1], plain_starts[most_built];
    uint64_t ends[most_built + 1], plain_ends[most_built];
    int16_t steps[most_built + 1], plain_steps[most_built];
    for (size_t i = 0; i <= most_built; i++) starts[i] = 7, ends[i] = 7, steps[i] = 7;
    size_t runs = plain_runs(values, n, plain_starts, plain_ends, plain_steps);
    int short_of = a < runs || b < runs || c < runs;
    loftsplice_built r = loftsplice_build(values, n, starts, a, ends, b, steps, c);
    same_at("refusal", line, r.refusal, short_of ? LOFTSPLICE_ROOM : 0);
    same_at("runs", line, (int64_t)r.runs, short_of ? 0 : (int64_t)runs);
    for (size_t i = 0; i <= most_built; i++) {
        int filled = !short_of && i < runs;
        same_at("start", line, starts[i], filled ? plain_starts[i] : 7);
        same_at("end", line, (int64_t)ends[i], filled ? (int64_t)plain_ends[i] : 7);
        same_at("step", line, steps[i], filled ? plain_steps[i] : 7);
    }
    if (short_of) return;
    same_at("check", line, loftsplice_check(starts, runs, ends, runs, steps, runs), 0);
    same_at("length", line, (int64_t)loftsplice_len(starts, runs, ends, runs, steps, runs).length, (int64_t)n);
    for (size_t i = 0; i < n; i++) same_at("element", line, loftsplice_get(starts, runs, ends, runs, steps, runs, i).value, values[i]);
}
#define BUILT(...) do { \
    static const int64_t list[] = {__VA_ARGS__}; \
    built_at(__LINE__, list, sizeof list / sizeof *list, most_built, most_built, most_built); \
} while (0)

static void builds(void) {
    static const int64_t values[] = {10, 15, 20, 25, 30, 31, 40, 140, 240};
    int64_t starts[4] = {7, 7, 7, 7};
    uint64_t ends[4] = {7, 7, 7, 7};
    int16_t steps[4] = {7, 7, 7, 7};
    loftsplice_built r = loftsplice_build(values, 9, starts, 4, ends, 3, steps, 4);
    SAME(r.refusal, 0), SAME(r.runs, 3);
    SAME(starts[0], 10), SAME(ends[0], 5), SAME(steps[0], 5), SAME(starts[1], 31), SAME(ends[1], 7), SAME(steps[1], 9);
    SAME(starts[2], 140), SAME(ends[2], 9), SAME(steps[2], 100), SAME(starts[3], 7), SAME(ends[3], 7), SAME(steps[3], 7);
    for (size_t a = 2; a < 5; a++)
        for (size_t b = 2; b < 5; b++)
            for (size_t c = 2; c < 5; c++) built_at(__LINE__, values, 9, a, b, c);
    /* no value, one, two, equal ones, falling ones; a step is kept from no run before; the edges of a step and of an i64, where a difference wraps */
    r = loftsplice_build(NULL, 0, NULL, 0, NULL, 0, NULL, 0);
    SAME(r.refusal, 0), SAME(r.runs, 0);
    BUILT(5);
    BUILT(5, 5);
    BUILT(5, 5, 5, 4, 3, 2, 2, 2);
    BUILT(1, 2, 3, 100000, 100001, 100002);
    BUILT(1, 2, 3, 5, 7, 10, 11, 12, 14);
    BUILT(0, 32767, 65534, 98302);
    BUILT(0, 32768, 65536);
    BUILT(0, -32768, -65536);
    BUILT(0, -32769, -65538);
    BUILT(INT64_MIN, INT64_MAX, INT64_MIN, INT64_MAX);
    BUILT(INT64_MAX - 1, INT64_MAX, INT64_MIN, INT64_MIN + 1);
    BUILT(INT64_MIN + 1, INT64_MIN, INT64_MAX, INT64_MAX - 1);
    BUILT(INT64_MAX - 32767, INT64_MAX, INT64_MIN + 32766);
    BUILT(INT64_MIN + 32768, INT64_MIN, INT64_MAX - 32767);
    /* every list of eight of these */
    static const int64_t from[] = {INT64_MIN, INT64_MAX, 0, 1};
    for (unsigned k = 0; k < 65536; k++) {
        int64_t list[8];
        for (unsigned i = 0; i < 8; i++) list[i] = from[k >> 2 * i & 3];
        built_at(__LINE__, list, 8, most_built, most_built, most_built);
    }
    /* the most runs, and one more: that is 1, also without room, and nothing is written */
    static int64_t far[LOFTSPLICE_MAX_RUNS + 1], s[LOFTSPLICE_MAX_RUNS];
    static uint64_t e[LOFTSPLICE_MAX_RUNS];
    static int16_t t[LOFTSPLICE_MAX_RUNS];
    for (int i = 0; i <= LOFTSPLICE_MAX_RUNS; i++) far[i] = i * INT64_C(100000);
    r = loftsplice_build(far, LOFTSPLICE_MAX_RUNS + 1, s, LOFTSPLICE_MAX_RUNS, e, LOFTSPLICE_MAX_RUNS, t, LOFTSPLICE_MAX_RUNS);
    SAME(r.refusal, LOFTSPLICE_SHAPE), SAME(r.runs, 0), SAME(e[0], 0), SAME(s[1], 0);
    r = loftsplice_build(far, LOFTSPLICE_MAX_RUNS + 1, NULL, 0, NULL, 0, NULL, 0);
    SAME(r.refusal, LOFTSPLICE_SHAPE), SAME(r.runs, 0);
    r = loftsplice_build(far, LOFTSPLICE_MAX_RUNS, s, LOFTSPLICE_MAX_RUNS, e, LOFTSPLICE_MAX_RUNS - 1, t, LOFTSPLICE_MAX_RUNS);
    SAME(r.refusal, LOFTSPLICE_ROOM), SAME(r.runs, 0), SAME(e[0], 0), SAME(s[1], 0);
    r = loftsplice_build(far, LOFTSPLICE_MAX_RUNS, s, LOFTSPLICE_MAX_RUNS, e, LOFTSPLICE_MAX_RUNS, t, LOFTSPLICE_MAX_RUNS);
    SAME(r.refusal, 0), SAME(r.runs, LOFTSPLICE_MAX_RUNS), SAME(e[LOFTSPLICE_MAX_RUNS - 1], LOFTSPLICE_MAX_RUNS), SAME(s[1], 100000), SAME(t[1], 0);
}

/* Document 02, request 3: a bitmap of ten records with 0, 2, 5, 6, 7, 8 present, as another writer of the Arrow family stores it. */
static void bitmaps(void) {
    static const uint8_t bytes[] = {0xE5, 0xFD};
    int64_t starts[4] = {7, 7, 7, 7};
    uint64_t ends[4] = {7, 7, 7, 7};
    int16_t steps[4] = {7, 7, 7, 7};
    /* bit 10 and those above it are past the count; 0 2 | 5 6 7 8 */
    loftsplice_imported in = loftsplice_import(bytes, 2, 10, starts, 4, ends, 4, steps, 4);
    SAME(in.refusal, 0), SAME(in.runs, 2), SAME(in.ones, 6);
    SAME(starts[0], 0), SAME(ends[0], 2), SAME(steps[0], 2), SAME(starts[1], 5), SAME(ends[1], 6), SAME(steps[1], 1);
    SAME(starts[2], 7), SAME(ends[2], 7), SAME(steps[2], 7);
    uint8_t out[3] = {0xAA, 0xAA, 0xAA};
    loftsplice_exported ex = loftsplice_export(starts, 2, ends, 2, steps, 2, 10, out, 3);
    SAME(ex.refusal, 0), SAME(ex.bytes, 2), SAME(out[0], 0xE5), SAME(out[1], 0x01), SAME(out[2], 0xAA);
    /* the count alone says what is a record */
    in = loftsplice_import(bytes, 2, 11, starts, 4, ends, 4, steps, 4);
    SAME(in.runs, 3), SAME(in.ones, 7), SAME(starts[2], 10), SAME(ends[2], 7), SAME(steps[2], 0);
    in = loftsplice_import(bytes, 0, 0, starts, 0, ends, 0, steps, 0);
    SAME(in.refusal, 0), SAME(in.runs, 0), SAME(in.ones, 0);
    /* refusals in their order: 14, 11, 1, 10 */
    in = loftsplice_import(bytes, 0, LOFTSPLICE_MAX_RECORDS + 1, starts, 0, ends, 0, steps, 0);
    SAME(in.refusal, LOFTSPLICE_COUNT), SAME(in.runs, 0), SAME(in.ones, 0);
    in = loftsplice_import(bytes, 1, 9, starts, 0, ends, 0, steps, 0);
    SAME(in.refusal, LOFTSPLICE_CUT);
    in = loftsplice_import(bytes, 2, 10, starts, 4, ends, 1, steps, 4);
    SAME(in.refusal, LOFTSPLICE_ROOM), SAME(in.runs, 0);
    static uint8_t wide[LOFTSPLICE_MAX_RECORDS / 8];
    for (size_t i = 0; i < sizeof wide; i++) wide[i] = i % 2 ? 0x0B : 0x80; /* no two gaps alike: a run of two each time */
    in = loftsplice_import(wide, sizeof wide, LOFTSPLICE_MAX_RECORDS, starts, 0, ends, 0, steps, 0);
    SAME(in.refusal, LOFTSPLICE_SHAPE), SAME(in.ones, 0);
    /* 14, 1, 2, 3, 7, 15, 10 */
    static const struct { int64_t start; uint64_t end; int16_t step; uint64_t count; size_t runs, room; uint32_t refusal; } bad[] = {
        {-5, 0, 0, LOFTSPLICE_MAX_RECORDS + 1, 2, 0, LOFTSPLICE_COUNT}, {-5, 0, 0, 10, 2, 0, LOFTSPLICE_SHAPE}, {-5, 0, 0, 10, 1, 0, LOFTSPLICE_ENDS},
        {INT64_MIN, 2, -1, 10, 1, 0, LOFTSPLICE_REACH}, {-5, 2, -1, 10, 1, 0, LOFTSPLICE_ORDER}, {-5, 2, 1, 10, 1, 0, LOFTSPLICE_RANGE},
        {9, 2, 1, 10, 1, 0, LOFTSPLICE_RANGE}, {0, 1, -1, 0, 1, 0, LOFTSPLICE_RANGE}, {8, 2, 1, 10, 1, 1, LOFTSPLICE_ROOM}};
    for (size_t i = 0; i < sizeof bad / sizeof *bad; i++) {
        out[0] = 0xAA;
        ex = loftsplice_export(&bad[i].start, 1, &bad[i].end, bad[i].runs == 2 ? 0 : 1, &bad[i].step, 1, bad[i].count, out, bad[i].room);
        SAME(ex.refusal, bad[i].refusal), SAME(ex.bytes, 0), SAME(out[0], 0xAA);
    }
    /* a run of one may have any step; an empty column has a bitmap of zeros */
    static const int64_t one = 3;
    static const uint64_t end = 1;
    static const int16_t step = -4;
    ex = loftsplice_export(&one, 1, &end, 1, &step, 1, 4, out, 1);
    SAME(ex.refusal, 0), SAME(ex.bytes, 1), SAME(out[0], 0x08);
    ex = loftsplice_export(&one, 0, &end, 0, &step, 0, 9, out, 2);
    SAME(ex.refusal, 0), SAME(ex.bytes, 2), SAME(out[0], 0), SAME(out[1], 0);
}

int main(void) {
    columns();
    scans();
    carried();
    runs();
    filters();
    filter_runs();
    listings();
    cut_windows();
    chained_seeks();
    records();
    builds();
    bitmaps();
    printf("c-test: %lu comparisons, %lu failed\n", made, failed);
    return failed != 0;
}
