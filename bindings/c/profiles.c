/* The calls by profile of loftsplice.h (document 02, request 7), with good and bad input, against asking record by record. The last line says how many
 * comparisons were made; the exit status is 1 if one failed. */
#include "loftsplice.h"

#include <inttypes.h>
#include <stdio.h>

static unsigned long made, failed;

static void same_at(const char *what, int line, uint64_t got, uint64_t wanted) {
    made++;
    if (got != wanted) {
        failed++;
        fprintf(stderr, "profiles.c:%d: %s is %" PRIu64 ", not %" PRIu64 "\n", line, what, got, wanted);
    }
}
#define SAME(got, wanted) same_at(#got, __LINE__, (uint64_t)(got), (uint64_t)(wanted))

/* 3 4 5 6, 8 10 12, 20, 25 32: gaps before, between and after runs and within them; a run of one may have any step. Thirty-five records. */
enum { runs = 4, count = 35, held = 77, places = count + 3 };
static const int64_t starts[runs] = {3, 8, 20, 25};
static const uint64_t ends[runs] = {4, 7, 8, 10};
static const int16_t steps[runs] = {1, 2, -9, 7};
static const uint64_t elements[] = {3, 4, 5, 6, 8, 10, 12, 20, 25, 32};
#define COLUMN starts, runs, ends, runs, steps, runs

static int is_element(uint64_t record) {
    for (size_t i = 0; i < sizeof elements / sizeof *elements; i++) {
        if (elements[i] == record) return 1;
    }
    return 0;
}

typedef loftsplice_records (*listing)(uint32_t, uint64_t, const int64_t *, size_t, const uint64_t *, size_t, const int16_t *, size_t, uint64_t, uint64_t,
    uint64_t *, size_t);

static uint64_t out[places];

static void clear(void) {
    for (size_t i = 0; i < places; i++) out[i] = held;
}

/* How many places from this one on hold what they held. */
static size_t untouched(size_t from) {
    size_t still = 0;
    while (from + still < places && out[from + still] == held) still++;
    return still;
}

/* One list of one window: each record that belongs there, in order, and nothing else; with just room enough, and with a place too few. */
static void window(listing list, uint32_t profile, int listed, uint64_t start, uint64_t end) {
    uint64_t number = 0;
    clear();
    loftsplice_records got = list(profile, count, COLUMN, start, end, out, places);
    for (uint64_t record = start; record < end; record++) {
        if (is_element(record) == listed) SAME(out[number], record), number++;
    }
    SAME(got.refusal, 0), SAME(got.written, number), SAME(untouched(number), places - number);
    clear();
    got = list(profile, count, COLUMN, start, end, out, number);
    SAME(got.refusal, 0), SAME(got.written, number), SAME(untouched(number), places - number);
    if (number == 0) return;
    clear();
    got = list(profile, count, COLUMN, start, end, out, number - 1);
    SAME(got.refusal, LOFTSPLICE_ROOM), SAME(got.written, 0), SAME(untouched(0), places);
}

/* Every window of the records, and empty ones whose start lies beyond its end, and beyond every record. */
static void windows(void) {
    for (uint64_t end = 0; end <= count; end++) {
        for (uint64_t start = 0; start <= count + 2; start++) {
            window(loftsplice_carrying, LOFTSPLICE_LISTS_CARRYING, 1, start, end);
            window(loftsplice_filled, LOFTSPLICE_LISTS_CARRYING, 0, start, end);
            window(loftsplice_carrying, LOFTSPLICE_LISTS_EMPTY, 0, start, end);
            window(loftsplice_filled, LOFTSPLICE_LISTS_EMPTY, 1, start, end);
        }
    }
    window(loftsplice_filled, LOFTSPLICE_LISTS_CARRYING, 0, UINT64_MAX, count);
}

/* Every record, by both profiles; beside a scan's seek. */
static void records(void) {
    loftsplice_scan fresh = loftsplice_scan_new(COLUMN).scan;
    for (uint64_t record = 0; record < count; record++) {
        loftsplice_carried one = loftsplice_carries(LOFTSPLICE_LISTS_CARRYING, count, COLUMN, record);
        SAME(one.refusal, 0), SAME(one.carries, is_element(record));
        loftsplice_carried two = loftsplice_carries(LOFTSPLICE_LISTS_EMPTY, count, COLUMN, record);
        SAME(two.refusal, 0), SAME(two.carries, 1 - is_element(record));
        loftsplice_answer sought = loftsplice_scan_seek(fresh, COLUMN, (int64_t)record).answer;
        SAME(sought.found == 1 && sought.value == (int64_t)record, one.carries);
    }
}

/* No run, and no record. */
static void nothing(void) {
    SAME(loftsplice_carries(LOFTSPLICE_LISTS_CARRYING, 1, NULL, 0, NULL, 0, NULL, 0, 0).carries, 0);
    SAME(loftsplice_carries(LOFTSPLICE_LISTS_EMPTY, 1, NULL, 0, NULL, 0, NULL, 0, 0).carries, 1);
    clear();
    SAME(loftsplice_filled(LOFTSPLICE_LISTS_CARRYING, 3, NULL, 0, NULL, 0, NULL, 0, 1, 3, out, places).written, 2);
    SAME(out[0], 1), SAME(out[1], 2), SAME(out[2], held);
    loftsplice_records none = loftsplice_carrying(LOFTSPLICE_LISTS_EMPTY, 0, NULL, 0, NULL, 0, NULL, 0, 0, 0, NULL, 0);
    SAME(none.refusal, 0), SAME(none.written, 0);
}

/* A case refused by each number in turn: each has what the next is refused for as well, and the last is accepted. */
static const struct {
    uint32_t profile;
    uint64_t count;
    int64_t start;
    uint64_t end;
    int16_t step;
    size_t ends_len;
    uint64_t asked;
    size_t room;
    uint32_t single, list;
} bad[] = {
    {0, LOFTSPLICE_MAX_PROFILE_RECORDS + 1, INT64_MIN, 0, -1, 0, 11, 0, LOFTSPLICE_PROFILE, LOFTSPLICE_PROFILE},
    {3, LOFTSPLICE_MAX_PROFILE_RECORDS + 1, INT64_MIN, 0, -1, 0, 11, 0, LOFTSPLICE_PROFILE, LOFTSPLICE_PROFILE},
    {257, 10, 0, 1, 1, 1, 1, 9, LOFTSPLICE_PROFILE, LOFTSPLICE_PROFILE}, /* 1, were it cut to a byte */
    {UINT32_MAX - 253, 10, 0, 1, 1, 1, 1, 9, LOFTSPLICE_PROFILE, LOFTSPLICE_PROFILE}, /* 2, were it cut to a byte */
    {1, LOFTSPLICE_MAX_PROFILE_RECORDS + 1, INT64_MIN, 0, -1, 0, 11, 0, LOFTSPLICE_COUNT, LOFTSPLICE_COUNT},
    {2, UINT64_MAX, INT64_MIN, 0, -1, 0, 11, 0, LOFTSPLICE_COUNT, LOFTSPLICE_COUNT},
    {1, 10, INT64_MIN, 0, -1, 0, 11, 0, LOFTSPLICE_SHAPE, LOFTSPLICE_SHAPE},
    {2, 10, INT64_MIN, 0, -1, 1, 11, 0, LOFTSPLICE_ENDS, LOFTSPLICE_ENDS},
    {1, 10, INT64_MIN, 2, -1, 1, 11, 0, LOFTSPLICE_REACH, LOFTSPLICE_REACH},
    {2, 10, -1, 2, -1, 1, 11, 0, LOFTSPLICE_ORDER, LOFTSPLICE_ORDER},
    {1, 10, -1, 2, 1, 1, 11, 0, LOFTSPLICE_RANGE, LOFTSPLICE_RANGE},
    {2, 10, 9, 2, 1, 1, 11, 0, LOFTSPLICE_RANGE, LOFTSPLICE_RANGE},
    {1, 10, 4, 2, 1, 1, 11, 0, LOFTSPLICE_INDEX, LOFTSPLICE_WINDOW},
    {1, 10, 4, 2, 1, 1, 10, 0, LOFTSPLICE_INDEX, LOFTSPLICE_ROOM},
    {1, 10, 4, 2, 1, 1, 9, 9, 0, 0},
};

static void refusals(void) {
    for (size_t i = 0; i < sizeof bad / sizeof *bad; i++) {
        const int64_t *start = &bad[i].start;
        const uint64_t *end = &bad[i].end;
        const int16_t *step = &bad[i].step;
        loftsplice_carried one = loftsplice_carries(bad[i].profile, bad[i].count, start, 1, end, bad[i].ends_len, step, 1, bad[i].asked);
        SAME(one.refusal, bad[i].single), SAME(one.carries, 0);
        clear();
        loftsplice_records do_list = loftsplice_carrying(bad[i].profile, bad[i].count, start, 1, end, bad[i].ends_len, step, 1, 0, bad[i].asked, out,
            bad[i].room);
        SAME(do_list.refusal, bad[i].list);
        if (bad[i].list != 0) SAME(do_list.written, 0), SAME(untouched(0), places);
        clear();
        loftsplice_records dont = loftsplice_filled(bad[i].profile, bad[i].count, start, 1, end, bad[i].ends_len, step, 1, 0, bad[i].asked, out, bad[i].room);
        SAME(dont.refusal, bad[i].list);
        if (bad[i].list != 0) SAME(dont.written, 0), SAME(untouched(0), places);
    }
}

/* The most records: one run of nearly all of them, and windows at either end. */
static void many(void) {
    static const int64_t start = 1;
    static const uint64_t end = LOFTSPLICE_MAX_PROFILE_RECORDS - 2;
    static const int16_t step = 1;
    const uint64_t most = LOFTSPLICE_MAX_PROFILE_RECORDS;
    clear();
    loftsplice_records got = loftsplice_filled(LOFTSPLICE_LISTS_CARRYING, most, &start, 1, &end, 1, &step, 1, 0, most, out, 2);
    SAME(got.refusal, 0), SAME(got.written, 2), SAME(out[0], 0), SAME(out[1], most - 1), SAME(out[2], held);
    clear();
    got = loftsplice_carrying(LOFTSPLICE_LISTS_CARRYING, most, &start, 1, &end, 1, &step, 1, most - 3, most, out, places);
    SAME(got.written, 2), SAME(out[0], most - 3), SAME(out[1], most - 2), SAME(out[2], held);
    got = loftsplice_carrying(LOFTSPLICE_LISTS_CARRYING, most, &start, 1, &end, 1, &step, 1, 0, most, out, places);
    SAME(got.refusal, LOFTSPLICE_ROOM);
}

int main(void) {
    records();
    windows();
    nothing();
    refusals();
    many();
    printf("c-test, profiles: %lu comparisons, %lu failed\n", made, failed);
    return failed != 0;
}
