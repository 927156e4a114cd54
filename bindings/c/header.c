/* What the header says by itself: names, limits, alignment, beside README's example. Written in what C99, C11 and C++11 share: scripts/c-test compiles
 * and runs it as each. The last line says how many comparisons were made; the exit status is 1 if one failed. */
#include "loftsplice.h"
#include "loftsplice.h" /* a second time does no harm */

#include <stdio.h>
#include <string.h>

static unsigned long made, failed;

static void holds_at(const char *what, int line, int is) {
    made++;
    if (!is) {
        failed++;
        fprintf(stderr, "header.c:%d: not so: %s\n", line, what);
    }
}
#define HOLDS(test) holds_at(#test, __LINE__, (test) ? 1 : 0)

#if LOFTSPLICE_MAX_RUNS < LOFTSPLICE_MAX_WINDOWS || LOFTSPLICE_MAX_BOUNDS < LOFTSPLICE_MAX_INPUTS || LOFTSPLICE_MAX_RECORD < LOFTSPLICE_MAX_RUNS
#error "the limits are numbers for the preprocessor too"
#endif

enum { over_runs = LOFTSPLICE_MAX_RUNS + 1, over_bounds = LOFTSPLICE_MAX_BOUNDS + 1, over_inputs = LOFTSPLICE_MAX_INPUTS + 1 };
enum { over_windows = LOFTSPLICE_MAX_WINDOWS + 1 };

static int64_t starts[over_runs];
static uint64_t ends[over_runs];
static int16_t steps[over_runs];

static uint32_t check(size_t runs) { return loftsplice_check(starts, runs, ends, runs, steps, runs); }

/* Each limit: met, and passed by one. */
static void column_limits(void) {
    for (size_t i = 0; i < over_runs; i++) starts[i] = (int64_t)i, ends[i] = i + 1;
    HOLDS(check(LOFTSPLICE_MAX_RUNS) == 0);
    HOLDS(check(over_runs) == LOFTSPLICE_SHAPE);
    static uint8_t bytes[LOFTSPLICE_MAX_RECORD];
    loftsplice_written written = loftsplice_write_record(starts, LOFTSPLICE_MAX_RUNS, ends, LOFTSPLICE_MAX_RUNS, steps, LOFTSPLICE_MAX_RUNS, bytes,
        sizeof bytes);
    HOLDS(written.refusal == 0 && written.bytes == LOFTSPLICE_MAX_RECORD);
    written = loftsplice_write_record(starts, LOFTSPLICE_MAX_RUNS, ends, LOFTSPLICE_MAX_RUNS, steps, LOFTSPLICE_MAX_RUNS, bytes, sizeof bytes - 1);
    HOLDS(written.refusal == LOFTSPLICE_ROOM);
    loftsplice_read read = loftsplice_read_record(bytes, sizeof bytes, starts, over_runs, ends, over_runs, steps, over_runs);
    HOLDS(read.refusal == 0 && read.runs == LOFTSPLICE_MAX_RUNS && read.used == LOFTSPLICE_MAX_RECORD);
    /* the length that a record of one run more would have */
    uint32_t length = LOFTSPLICE_MAX_RECORD - 4 + 14;
    for (int i = 0; i < 4; i++) bytes[i] = (uint8_t)(length >> 8 * i);
    HOLDS(loftsplice_read_record(bytes, sizeof bytes, starts, over_runs, ends, over_runs, steps, over_runs).refusal == LOFTSPLICE_SIZE);
    steps[0] = 0;
    ends[0] = LOFTSPLICE_MAX_ELEMENTS;
    HOLDS(check(1) == 0);
    ends[0]++;
    HOLDS(check(1) == LOFTSPLICE_ENDS);
}

static void bitmap_limits(void) {
    static uint8_t bytes[LOFTSPLICE_MAX_RECORDS / 8];
    HOLDS(loftsplice_import(bytes, sizeof bytes, LOFTSPLICE_MAX_RECORDS, starts, 0, ends, 0, steps, 0).refusal == 0);
    HOLDS(loftsplice_import(bytes, sizeof bytes, LOFTSPLICE_MAX_RECORDS + 1, starts, 0, ends, 0, steps, 0).refusal == LOFTSPLICE_COUNT);
    HOLDS(loftsplice_export(starts, 0, ends, 0, steps, 0, LOFTSPLICE_MAX_RECORDS, bytes, sizeof bytes).bytes == sizeof bytes);
    HOLDS(loftsplice_export(starts, 0, ends, 0, steps, 0, LOFTSPLICE_MAX_RECORDS + 1, bytes, sizeof bytes).refusal == LOFTSPLICE_COUNT);
}

static void profile_limits(void) {
    uint64_t most = LOFTSPLICE_MAX_PROFILE_RECORDS, last[2] = {7, 7};
    HOLDS(loftsplice_carries(LOFTSPLICE_LISTS_CARRYING, most, starts, 0, ends, 0, steps, 0, most - 1).refusal == 0);
    HOLDS(loftsplice_carries(LOFTSPLICE_LISTS_CARRYING, most, starts, 0, ends, 0, steps, 0, most).refusal == LOFTSPLICE_INDEX);
    HOLDS(loftsplice_carries(LOFTSPLICE_LISTS_CARRYING, most + 1, starts, 0, ends, 0, steps, 0, 0).refusal == LOFTSPLICE_COUNT);
    HOLDS(loftsplice_filled(LOFTSPLICE_LISTS_CARRYING, most, starts, 0, ends, 0, steps, 0, most - 1, most, last, 2).written == 1);
    HOLDS(last[0] == most - 1 && last[1] == 7);
    HOLDS(loftsplice_filled(LOFTSPLICE_LISTS_CARRYING, most + 1, starts, 0, ends, 0, steps, 0, most - 1, most, last, 2).refusal == LOFTSPLICE_COUNT);
    HOLDS(loftsplice_carrying(LOFTSPLICE_LISTS_EMPTY, most, starts, 0, ends, 0, steps, 0, 0, most + 1, last, 2).refusal == LOFTSPLICE_WINDOW);
}

/* The refusal of so many empty windows' totals. */
static uint32_t totals(size_t windows) {
    static uint64_t from[over_windows], to[over_windows], counts[over_windows], lows[over_windows];
    static int64_t leasts[over_windows], greatests[over_windows], highs[over_windows];
    return loftsplice_totals(starts, 0, ends, 0, steps, 0, from, windows, to, windows, counts, windows, leasts, windows, greatests, windows, highs, windows,
        lows, windows).refusal;
}

static void window_limits(void) {
    HOLDS(totals(LOFTSPLICE_MAX_WINDOWS) == 0);
    HOLDS(totals(over_windows) == LOFTSPLICE_BOUNDS);
}

static void other_limits(void) {
    static int64_t values[over_bounds];
    static uint8_t kinds[over_bounds], found[over_inputs];
    static uint64_t windows[over_windows], counts[over_windows];
    memset(kinds, LOFTSPLICE_INCLUSIVE, sizeof kinds);
    starts[0] = 0, ends[0] = 1, steps[0] = 0;
    loftsplice_scan scan = loftsplice_scan_new(starts, 1, ends, 1, steps, 1).scan;
    for (size_t more = 0; more < 2; more++) {
        size_t bounds = LOFTSPLICE_MAX_BOUNDS + more, inputs = LOFTSPLICE_MAX_INPUTS + more, number = LOFTSPLICE_MAX_WINDOWS + more;
        uint32_t refusal = more == 0 ? 0 : LOFTSPLICE_BOUNDS;
        HOLDS(loftsplice_filter_new(scan, LOFTSPLICE_INCLUSIVE_WINS, values, bounds, kinds, bounds, NULL, 0, NULL, 0).refusal == refusal);
        loftsplice_filter filter = loftsplice_filter_new(scan, LOFTSPLICE_INCLUSIVE_WINS, NULL, 0, NULL, 0, NULL, 0, NULL, 0).filter;
        HOLDS(loftsplice_filter_next(filter, starts, 1, ends, 1, steps, 1, NULL, 0, NULL, 0, NULL, 0, NULL, 0, values, inputs, found, inputs)
                  .answer.refusal == refusal);
        HOLDS(loftsplice_list(starts, 1, ends, 1, steps, 1, windows, number, windows, number, LOFTSPLICE_INCLUSIVE_WINS, NULL, 0, NULL, 0, NULL, 0, NULL,
                  0, NULL, 0, counts, over_windows).refusal == refusal);
    }
}

#define NAME(word) {LOFTSPLICE_##word, #word}
static const struct { uint32_t number; const char *name; } names[] = {{0, "accepted"}, NAME(SHAPE), NAME(ENDS), NAME(REACH), NAME(INDEX), NAME(WINDOW),
    NAME(SCAN), NAME(ORDER), NAME(BOUNDS), NAME(INPUT), NAME(ROOM), NAME(CUT), NAME(KIND), NAME(SIZE), NAME(COUNT), NAME(RANGE),
    NAME(PROFILE), NAME(FALLING), NAME(TOTAL), NAME(FORM)};

static void refusal_names(void) {
    for (uint32_t number = 0; number < 1000; number++) {
        const char *wanted = "unknown";
        for (size_t i = 0; i < sizeof names / sizeof *names; i++)
            if (names[i].number == number) wanted = names[i].name;
        HOLDS(strcmp(loftsplice_refusal_name(number), wanted) == 0);
    }
    HOLDS(strcmp(loftsplice_refusal_name(UINT32_MAX), "unknown") == 0);
}

/* One of two neighbours in each list is aligned as its type is and no more, and one of two bytes is at an odd address. */
static void alignment(void) {
    static int64_t start_room[2];
    static uint64_t end_room[2];
    static int16_t step_room[2];
    static const uint8_t record[] = {0x10, 0, 0, 0, 1, 0, 0x0A, 0, 0, 0, 0, 0, 0, 0, 0xFB, 0xFF, 2, 0, 0, 0};
    static uint8_t bytes[sizeof record + 2];
    for (size_t shift = 0; shift < 2; shift++) {
        int64_t *at_starts = start_room + shift;
        uint64_t *at_ends = end_room + shift;
        int16_t *at_steps = step_room + shift;
        memcpy(bytes + shift, record, sizeof record);
        loftsplice_read read = loftsplice_read_record(bytes + shift, sizeof record, at_starts, 1, at_ends, 1, at_steps, 1);
        HOLDS(read.refusal == 0 && *at_starts == 10 && *at_ends == 2 && *at_steps == -5);
        HOLDS(loftsplice_get(at_starts, 1, at_ends, 1, at_steps, 1, 1).value == 5);
        memset(bytes, 0, sizeof bytes);
        loftsplice_written written = loftsplice_write_record(at_starts, 1, at_ends, 1, at_steps, 1, bytes + shift, sizeof record);
        HOLDS(written.refusal == 0 && memcmp(bytes + shift, record, sizeof record) == 0);
    }
}

static void readme(void) {
    int64_t few_starts[] = {10, 30};
    uint64_t few_ends[] = {4, 5};
    int16_t few_steps[] = {5, 0};
    loftsplice_new_scan made_scan = loftsplice_scan_new(few_starts, 2, few_ends, 2, few_steps, 2);
    loftsplice_moved moved = loftsplice_scan_seek(made_scan.scan, few_starts, 2, few_ends, 2, few_steps, 2, 16);
    HOLDS(moved.answer.refusal == 0 && moved.answer.found == 1 && moved.answer.value == 20);
    moved = loftsplice_scan_seek(made_scan.scan, few_starts, 2, few_ends, 1, few_steps, 2, 16);
    HOLDS(strcmp(loftsplice_refusal_name(moved.answer.refusal), "SHAPE") == 0);
}

int main(void) {
    column_limits();
    bitmap_limits();
    profile_limits();
    window_limits();
    other_limits();
    refusal_names();
    alignment();
    readme();
    printf("header: %lu comparisons, %lu failed\n", made, failed);
    return failed != 0;
}
