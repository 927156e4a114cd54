/* Loftsplice: run-length columns (i64) whose every answer is proved. The C interface.
 *
 * Link libloftsplice.a, which `bash scripts/archive` writes to target/staticlib (x86-64 Linux).
 *
 * Every call is total and keeps nothing: any numbers and lists of any lengths may be handed over, and what can't be answered is refused, by
 * number, in `refusal` (0: accepted). A refused call changes nothing; a scan or filter comes back as it went in, every number of it.
 * What an answer does not give is 0.
 *
 * A list is a pointer and the number of its elements; the pointer has to be good for that many, and is not read where that is 0.
 * A column is three lists: run starts, run ends (counted from the column's beginning) and steps. It goes with each call that looks at it.
 * Lists that are written (`out`, `counts`, ..) may not overlap with others.
 *
 * Alignment: a list is aligned as its elements' type is: what is declared as an array of it and what malloc gives are; bytes may stand anywhere.
 *
 * Threads: the library keeps nothing between calls, has no data of its own that is written, and writes into the lists that are handed over for it and
 * nowhere else. So any number of threads may call at once, also on one column, as long as nobody writes to its lists meanwhile.
 *
 * Cost: each call's comment ends with it. R is the number of runs, W of windows, T of targets, V of values to build from, N of elements or
 * records written, B of a bitmap's bytes, E of a column's elements; bounds and inputs, of which there are few, count as constant. The O(R) is the check
 * of the whole column that each call on one begins with. The costs are read off the code; answers are proved.
 */
#ifndef LOFTSPLICE_H
#define LOFTSPLICE_H

#include <stddef.h>
#include <stdint.h>

/* The version, as the file VERSION of the repository has it. */
#define LOFTSPLICE_VERSION "0.1.0"

#ifdef __cplusplus
extern "C" {
#endif

/* ---- limits: the most that there may be, and the refusal of more */

#define LOFTSPLICE_MAX_RUNS 4096                     /* runs of a column: LOFTSPLICE_SHAPE */
#define LOFTSPLICE_MAX_ELEMENTS UINT64_C(4294967295) /* elements of a column: LOFTSPLICE_ENDS */
#define LOFTSPLICE_MAX_RECORD 57350                  /* bytes of a record, of LOFTSPLICE_MAX_RUNS runs then: LOFTSPLICE_SIZE */
#define LOFTSPLICE_MAX_BOUNDS 16                     /* bounds in a list: LOFTSPLICE_BOUNDS */
#define LOFTSPLICE_MAX_INPUTS 8                      /* inputs: LOFTSPLICE_BOUNDS */
#define LOFTSPLICE_MAX_WINDOWS 256                   /* windows of a listing, or of totals: LOFTSPLICE_BOUNDS */
#define LOFTSPLICE_MAX_RECORDS 524288                /* records of a bitmap: LOFTSPLICE_COUNT */
#define LOFTSPLICE_MAX_PROFILE_RECORDS UINT64_C(4294967295) /* records that a profile is read of: LOFTSPLICE_COUNT */

/* ---- numbers */

/* Refusals. Each call's line says which it gives, in the order in which they are tried. */
enum {
    LOFTSPLICE_SHAPE = 1,   /* list lengths of the column differ, or over LOFTSPLICE_MAX_RUNS runs; build, import: that many runs are needed; build: over
                             * LOFTSPLICE_MAX_ELEMENTS values */
    LOFTSPLICE_ENDS = 2,    /* an end is not above the one before (the first: above 0), or is over LOFTSPLICE_MAX_ELEMENTS */
    LOFTSPLICE_REACH = 3,   /* a run's last element is outside i64 */
    LOFTSPLICE_INDEX = 4,   /* element asked at index >= length; place asked above length; profile: record not below the count */
    LOFTSPLICE_WINDOW = 5,  /* window end above length; profile: above the count */
    LOFTSPLICE_SCAN = 6,    /* the scan's window end is above length, its index is outside its window, or it does not carry the element that it is at */
    LOFTSPLICE_ORDER = 7,   /* seek, run of seeks, filter or listing over a window that doesn't rise; export or profile of a column that doesn't */
    LOFTSPLICE_BOUNDS = 8,  /* over LOFTSPLICE_MAX_BOUNDS bounds in a list, over LOFTSPLICE_MAX_INPUTS inputs; over LOFTSPLICE_MAX_WINDOWS windows, or
                             * window lists of unequal length */
    LOFTSPLICE_INPUT = 9,   /* Before only: a variable bound names an input that isn't there or has no value */
    LOFTSPLICE_ROOM = 10,   /* an output has fewer places than the answer needs */
    LOFTSPLICE_CUT = 11,    /* record: fewer than 4 bytes, or fewer than the length says; bitmap: fewer bytes than the count needs */
    LOFTSPLICE_KIND = 12,   /* record: kind is not 1 */
    LOFTSPLICE_SIZE = 13,   /* record: length under 2 or over LOFTSPLICE_MAX_RECORD - 4, or length minus 2 no multiple of 14 */
    LOFTSPLICE_COUNT = 14,  /* bitmap: over LOFTSPLICE_MAX_RECORDS records; profile: over LOFTSPLICE_MAX_PROFILE_RECORDS */
    LOFTSPLICE_RANGE = 15,  /* export, profile: an element that is no record number */
    LOFTSPLICE_PROFILE = 16, /* a profile that is neither 1 nor 2 */
    LOFTSPLICE_FALLING = 17, /* given by no call yet */
    LOFTSPLICE_TOTAL = 18,  /* totals: the sum over all windows is below -2^95 or not below 2^95, so that it has no high */
    LOFTSPLICE_FORM = 100   /* a number that is no state, kind, mode or found, or two lists that belong together and differ in length */
};

/* A refusal's name, which is its word above without LOFTSPLICE_: "SHAPE" for 1; "accepted" for 0, "unknown" for any other number. O(1). */
static inline const char *loftsplice_refusal_name(uint32_t number) {
    switch (number) {
    case 0: return "accepted";
    case LOFTSPLICE_SHAPE: return "SHAPE";
    case LOFTSPLICE_ENDS: return "ENDS";
    case LOFTSPLICE_REACH: return "REACH";
    case LOFTSPLICE_INDEX: return "INDEX";
    case LOFTSPLICE_WINDOW: return "WINDOW";
    case LOFTSPLICE_SCAN: return "SCAN";
    case LOFTSPLICE_ORDER: return "ORDER";
    case LOFTSPLICE_BOUNDS: return "BOUNDS";
    case LOFTSPLICE_INPUT: return "INPUT";
    case LOFTSPLICE_ROOM: return "ROOM";
    case LOFTSPLICE_CUT: return "CUT";
    case LOFTSPLICE_KIND: return "KIND";
    case LOFTSPLICE_SIZE: return "SIZE";
    case LOFTSPLICE_COUNT: return "COUNT";
    case LOFTSPLICE_RANGE: return "RANGE";
    case LOFTSPLICE_PROFILE: return "PROFILE";
    case LOFTSPLICE_FALLING: return "FALLING";
    case LOFTSPLICE_TOTAL: return "TOTAL";
    case LOFTSPLICE_FORM: return "FORM";
    default: return "unknown";
    }
}

/* The state of a scan. */
enum { LOFTSPLICE_FRESH = 0, LOFTSPLICE_AT = 1, LOFTSPLICE_ENDED = 2 };

/* The state of a filter. */
enum { LOFTSPLICE_BEFORE = 0, LOFTSPLICE_WITHIN = 1, LOFTSPLICE_AFTER = 2 };

/* The kind of a bound. In a list of bounds each is inclusive or exclusive; free, no bound, is for the limits that a filter holds. */
enum { LOFTSPLICE_FREE = 0, LOFTSPLICE_INCLUSIVE = 1, LOFTSPLICE_EXCLUSIVE = 2 };

/* The mode of a filter or listing: which of two upper bounds of one value wins. With "at most 15" beside "below 15" the first lets 15 through, as the
 * Rust does; the second means both. The number is the kind of the bound that wins. Lower bounds are the same in both. */
enum { LOFTSPLICE_INCLUSIVE_WINS = 1, LOFTSPLICE_EXCLUSIVE_WINS = 2 };

/* The profile by which an optional field's column is read: it lists the records that carry the field, or those that leave it empty. */
enum { LOFTSPLICE_LISTS_CARRYING = 1, LOFTSPLICE_LISTS_EMPTY = 2 };

/* The state in a scan or filter that was refused when it was made: no state, so that each call on it is refused LOFTSPLICE_FORM. */
#define LOFTSPLICE_NO_STATE UINT32_C(4294967295)

/* ---- what is handed over and given */

/* A window start..end and a state; the index is read only when LOFTSPLICE_AT, and given as 0 otherwise.
 * And what the scan carries: found 1 and the element that it is at, or found 0, when fresh or ended; any other found is refused LOFTSPLICE_FORM. The
 * value is read only where found is 1, and given as 0 where it is 0. */
typedef struct loftsplice_scan {
    uint64_t start;
    uint64_t end;
    uint64_t index;
    int64_t value;
    uint32_t state;
    uint32_t found;
} loftsplice_scan;

/* A bound, or none: kind LOFTSPLICE_FREE. */
typedef struct loftsplice_limit {
    int64_t value;
    uint32_t kind;
} loftsplice_limit;

/* A scan, the folded constant bounds, a state and the mode that it was made in; the kept bound is read only when LOFTSPLICE_WITHIN, and given as free
 * otherwise. */
typedef struct loftsplice_filter {
    loftsplice_scan scan;
    loftsplice_limit lower;
    loftsplice_limit upper;
    loftsplice_limit kept;
    uint32_t state;
    uint32_t mode;
} loftsplice_filter;

/* The number of elements. */
typedef struct loftsplice_length {
    uint32_t refusal;
    uint64_t length;
} loftsplice_length;

/* 1 if there is no element, else 0. */
typedef struct loftsplice_emptiness {
    uint32_t refusal;
    uint32_t empty;
} loftsplice_emptiness;

/* The run that an index lies in, from 0, its offset there, and how many elements there are from that index to the end of the run. */
typedef struct loftsplice_placed {
    uint32_t refusal;
    uint64_t run;
    uint64_t offset;
    uint64_t follows;
} loftsplice_placed;

/* found 1 and the step, or found 0: there is none. */
typedef struct loftsplice_difference {
    uint32_t found;
    int16_t step;
} loftsplice_difference;

/* found 1 and the element, or found 0: none. */
typedef struct loftsplice_answer {
    uint32_t refusal;
    uint32_t found;
    int64_t value;
} loftsplice_answer;

/* found 1 and the index, or found 0: none. */
typedef struct loftsplice_position {
    uint32_t refusal;
    uint32_t found;
    uint64_t index;
} loftsplice_position;

/* A new scan. */
typedef struct loftsplice_new_scan {
    uint32_t refusal;
    loftsplice_scan scan;
} loftsplice_new_scan;

/* The scan as the call leaves it, and the answer. */
typedef struct loftsplice_moved {
    loftsplice_scan scan;
    loftsplice_answer answer;
} loftsplice_moved;

/* The scan as a run of calls leaves it, and the number of values that they gave. */
typedef struct loftsplice_ran {
    loftsplice_scan scan;
    uint32_t refusal;
    uint64_t count;
} loftsplice_ran;

/* A new filter. */
typedef struct loftsplice_new_filter {
    uint32_t refusal;
    loftsplice_filter filter;
} loftsplice_new_filter;

/* The filter as the call leaves it, and the answer. */
typedef struct loftsplice_sifted {
    loftsplice_filter filter;
    loftsplice_answer answer;
} loftsplice_sifted;

/* The filter as a run of calls leaves it, and the number of values that they gave. */
typedef struct loftsplice_filter_ran {
    loftsplice_filter filter;
    uint32_t refusal;
    uint64_t count;
} loftsplice_filter_ran;

/* The filter after its reset. */
typedef struct loftsplice_reset {
    uint32_t refusal;
    loftsplice_filter filter;
} loftsplice_reset;

/* The number of values written. */
typedef struct loftsplice_listed {
    uint32_t refusal;
    uint64_t sum;
} loftsplice_listed;

/* The run count, and the bytes that the record takes. */
typedef struct loftsplice_read {
    uint32_t refusal;
    uint64_t runs;
    uint64_t used;
} loftsplice_read;

/* The number of bytes written. */
typedef struct loftsplice_written {
    uint32_t refusal;
    uint64_t bytes;
} loftsplice_written;

/* The run count. */
typedef struct loftsplice_built {
    uint32_t refusal;
    uint64_t runs;
} loftsplice_built;

/* The run count, and how many records are present. */
typedef struct loftsplice_imported {
    uint32_t refusal;
    uint64_t runs;
    uint64_t ones;
} loftsplice_imported;

/* The number of bytes written. */
typedef struct loftsplice_exported {
    uint32_t refusal;
    uint64_t bytes;
} loftsplice_exported;

/* 1 if the record carries the field, else 0. */
typedef struct loftsplice_carried {
    uint32_t refusal;
    uint32_t carries;
} loftsplice_carried;

/* The number of records written. */
typedef struct loftsplice_records {
    uint32_t refusal;
    uint64_t written;
} loftsplice_records;

/* Over all windows: how many elements there are; found 1 and the least and the greatest, or found 0: there is none, and both are given as 0; and the exact
 * sum, which is high * 4294967296 + low, with low below 4294967296. */
typedef struct loftsplice_totalled {
    uint32_t refusal;
    uint32_t found;
    uint64_t count;
    int64_t least;
    int64_t greatest;
    int64_t high;
    uint64_t low;
} loftsplice_totalled;

/* ---- layout: these are the sizes and places that the library has (x86-64 Linux). Where a compiler lays a struct out otherwise, it fails here: by a
 * static assertion since C11 and C++11, by an array of a size below 0 before. */

#if defined(__cplusplus) && __cplusplus >= 201103L
#define LOFTSPLICE_LAYOUT_HOLDS(name, test) static_assert(test, #name " is not laid out as the library has it")
#elif !defined(__cplusplus) && __STDC_VERSION__ >= 201112L
#define LOFTSPLICE_LAYOUT_HOLDS(name, test) _Static_assert(test, #name " is not laid out as the library has it")
#else
#define LOFTSPLICE_LAYOUT_HOLDS(name, test) typedef char name##_is_laid_out_as_the_library_has_it[(test) ? 1 : -1]
#endif
#define LOFTSPLICE_LAYOUT_SIZE(type, size) LOFTSPLICE_LAYOUT_HOLDS(type, sizeof(type) == (size))
#define LOFTSPLICE_LAYOUT_FIELD(type, field, place) LOFTSPLICE_LAYOUT_HOLDS(type##_##field, offsetof(type, field) == (place))
#define LOFTSPLICE_LAYOUT_2(type, size, a, at_a, b, at_b)                                                                                          \
    LOFTSPLICE_LAYOUT_SIZE(type, size);                                                                                                            \
    LOFTSPLICE_LAYOUT_FIELD(type, a, at_a);                                                                                                        \
    LOFTSPLICE_LAYOUT_FIELD(type, b, at_b)
#define LOFTSPLICE_LAYOUT_3(type, size, a, at_a, b, at_b, c, at_c)                                                                                 \
    LOFTSPLICE_LAYOUT_2(type, size, a, at_a, b, at_b);                                                                                             \
    LOFTSPLICE_LAYOUT_FIELD(type, c, at_c)
#define LOFTSPLICE_LAYOUT_4(type, size, a, at_a, b, at_b, c, at_c, d, at_d)                                                                        \
    LOFTSPLICE_LAYOUT_3(type, size, a, at_a, b, at_b, c, at_c);                                                                                    \
    LOFTSPLICE_LAYOUT_FIELD(type, d, at_d)
#define LOFTSPLICE_LAYOUT_6(type, size, a, at_a, b, at_b, c, at_c, d, at_d, e, at_e, f, at_f)                                                      \
    LOFTSPLICE_LAYOUT_4(type, size, a, at_a, b, at_b, c, at_c, d, at_d);                                                                           \
    LOFTSPLICE_LAYOUT_FIELD(type, e, at_e);                                                                                                        \
    LOFTSPLICE_LAYOUT_FIELD(type, f, at_f)
#define LOFTSPLICE_LAYOUT_7(type, size, a, at_a, b, at_b, c, at_c, d, at_d, e, at_e, f, at_f, g, at_g)                                             \
    LOFTSPLICE_LAYOUT_6(type, size, a, at_a, b, at_b, c, at_c, d, at_d, e, at_e, f, at_f);                                                         \
    LOFTSPLICE_LAYOUT_FIELD(type, g, at_g)

LOFTSPLICE_LAYOUT_6(loftsplice_scan, 40, start, 0, end, 8, index, 16, value, 24, state, 32, found, 36);
LOFTSPLICE_LAYOUT_2(loftsplice_limit, 16, value, 0, kind, 8);
LOFTSPLICE_LAYOUT_6(loftsplice_filter, 96, scan, 0, lower, 40, upper, 56, kept, 72, state, 88, mode, 92);
LOFTSPLICE_LAYOUT_2(loftsplice_length, 16, refusal, 0, length, 8);
LOFTSPLICE_LAYOUT_2(loftsplice_emptiness, 8, refusal, 0, empty, 4);
LOFTSPLICE_LAYOUT_4(loftsplice_placed, 32, refusal, 0, run, 8, offset, 16, follows, 24);
LOFTSPLICE_LAYOUT_2(loftsplice_difference, 8, found, 0, step, 4);
LOFTSPLICE_LAYOUT_3(loftsplice_answer, 16, refusal, 0, found, 4, value, 8);
LOFTSPLICE_LAYOUT_3(loftsplice_position, 16, refusal, 0, found, 4, index, 8);
LOFTSPLICE_LAYOUT_2(loftsplice_new_scan, 48, refusal, 0, scan, 8);
LOFTSPLICE_LAYOUT_2(loftsplice_moved, 56, scan, 0, answer, 40);
LOFTSPLICE_LAYOUT_3(loftsplice_ran, 56, scan, 0, refusal, 40, count, 48);
LOFTSPLICE_LAYOUT_2(loftsplice_new_filter, 104, refusal, 0, filter, 8);
LOFTSPLICE_LAYOUT_2(loftsplice_sifted, 112, filter, 0, answer, 96);
LOFTSPLICE_LAYOUT_3(loftsplice_filter_ran, 112, filter, 0, refusal, 96, count, 104);
LOFTSPLICE_LAYOUT_2(loftsplice_reset, 104, refusal, 0, filter, 8);
LOFTSPLICE_LAYOUT_2(loftsplice_listed, 16, refusal, 0, sum, 8);
LOFTSPLICE_LAYOUT_3(loftsplice_read, 24, refusal, 0, runs, 8, used, 16);
LOFTSPLICE_LAYOUT_2(loftsplice_written, 16, refusal, 0, bytes, 8);
LOFTSPLICE_LAYOUT_2(loftsplice_built, 16, refusal, 0, runs, 8);
LOFTSPLICE_LAYOUT_3(loftsplice_imported, 24, refusal, 0, runs, 8, ones, 16);
LOFTSPLICE_LAYOUT_2(loftsplice_exported, 16, refusal, 0, bytes, 8);
LOFTSPLICE_LAYOUT_2(loftsplice_carried, 8, refusal, 0, carries, 4);
LOFTSPLICE_LAYOUT_2(loftsplice_records, 16, refusal, 0, written, 8);
LOFTSPLICE_LAYOUT_7(loftsplice_totalled, 48, refusal, 0, found, 4, count, 8, least, 16, greatest, 24, high, 32, low, 40);

#undef LOFTSPLICE_LAYOUT_HOLDS
#undef LOFTSPLICE_LAYOUT_SIZE
#undef LOFTSPLICE_LAYOUT_FIELD
#undef LOFTSPLICE_LAYOUT_2
#undef LOFTSPLICE_LAYOUT_3
#undef LOFTSPLICE_LAYOUT_4
#undef LOFTSPLICE_LAYOUT_6
#undef LOFTSPLICE_LAYOUT_7

/* ---- the column */

/* Whether the three lists are a column: 0, or refused 1, 2, 3. O(R). */
uint32_t loftsplice_check(const int64_t *starts, size_t starts_len, const uint64_t *ends, size_t ends_len, const int16_t *steps, size_t steps_len);

/* The number of elements; or refused 1, 2, 3. O(R). */
loftsplice_length loftsplice_len(const int64_t *starts, size_t starts_len, const uint64_t *ends, size_t ends_len, const int16_t *steps, size_t steps_len);

/* Whether there is no element; or refused 1, 2, 3. O(R). */
loftsplice_emptiness loftsplice_is_empty(const int64_t *starts, size_t starts_len, const uint64_t *ends, size_t ends_len, const int16_t *steps,
    size_t steps_len);

/* The place of an index, (run count, 0, 0) for the length; or refused 1, 2, 3, 4. O(R). */
loftsplice_placed loftsplice_place(const int64_t *starts, size_t starts_len, const uint64_t *ends, size_t ends_len, const int16_t *steps,
    size_t steps_len, uint64_t index);

/* The element at an index, found 1; or refused 1, 2, 3, 4. O(R). */
loftsplice_answer loftsplice_get(const int64_t *starts, size_t starts_len, const uint64_t *ends, size_t ends_len, const int16_t *steps,
    size_t steps_len, uint64_t index);

/* The step from one value to another, if current minus previous is a step (-32,768..32,767). O(1). */
loftsplice_difference loftsplice_diff_step(int64_t previous, int64_t current);

/* Builds a column whose elements are the values, in their order, into the first places of the three lists, which may differ in length, and answers its
 * runs. A run starts with one value and step 0; its second value joins if the difference is a step, which becomes the run's; later values join while
 * the difference equals it; otherwise a new run starts. No column with these elements has fewer runs. Or refused 1, 10, and then nothing is written.
 * O(V). */
loftsplice_built loftsplice_build(const int64_t *values, size_t values_len, int64_t *starts, size_t starts_len, uint64_t *ends, size_t ends_len,
    int16_t *steps, size_t steps_len);

/* ---- the scan */

/* A fresh scan over the whole column; or refused 1, 2, 3, and then the scan's state is LOFTSPLICE_NO_STATE. O(R). */
loftsplice_new_scan loftsplice_scan_new(const int64_t *starts, size_t starts_len, const uint64_t *ends, size_t ends_len, const int16_t *steps,
    size_t steps_len);

/* To the next element, or none at the window's end; or refused 100, 1, 2, 3, 6. O(R). */
loftsplice_moved loftsplice_scan_next(loftsplice_scan scan, const int64_t *starts, size_t starts_len, const uint64_t *ends, size_t ends_len,
    const int16_t *steps, size_t steps_len);

/* To the first element from here on that is not below the target, or none; or refused 100, 1, 2, 3, 6, 7. After a seek of a target that is not above its
 * own it answers and leaves what it would at once. O(R). */
loftsplice_moved loftsplice_scan_seek(loftsplice_scan scan, const int64_t *starts, size_t starts_len, const uint64_t *ends, size_t ends_len,
    const int16_t *steps, size_t steps_len, int64_t target);

/* To another window start..end of the column, fresh, answering none; or refused 100, 1, 2, 3, 6, 5. O(R). */
loftsplice_moved loftsplice_scan_narrow(loftsplice_scan scan, const int64_t *starts, size_t starts_len, const uint64_t *ends, size_t ends_len,
    const int16_t *steps, size_t steps_len, uint64_t start, uint64_t end);

/* Fresh in the same window, answering none; or refused 100, 1, 2, 3, 6. O(R). */
loftsplice_moved loftsplice_scan_reset(loftsplice_scan scan, const int64_t *starts, size_t starts_len, const uint64_t *ends, size_t ends_len,
    const int16_t *steps, size_t steps_len);

/* What the scan carries: the element that it is at, or none; or refused 100, 6. It looks at no column, so 6 is given only where a value is there when
 * fresh or ended, or is missing at an index. O(1). */
loftsplice_answer loftsplice_scan_current(loftsplice_scan scan);

/* The index that the scan is at, or none; or refused 100, 1, 2, 3, 6. O(R). */
loftsplice_position loftsplice_scan_pos(loftsplice_scan scan, const int64_t *starts, size_t starts_len, const uint64_t *ends, size_t ends_len,
    const int16_t *steps, size_t steps_len);

/* Many moves of a scan behind one check of its column: the values are the answers of the single calls one after the other, the scan is the one that the
 * last of them leaves. Each run stops at the first none. The values stand in the first places of out, and `count` is their number; places beyond stay. A
 * run of no calls changes nothing and is still checked. A refusal writes nothing. */

/* As many loftsplice_scan_next as out has places; or refused 100, 1, 2, 3, 6. O(R + N). */
loftsplice_ran loftsplice_scan_next_run(loftsplice_scan scan, const int64_t *starts, size_t starts_len, const uint64_t *ends, size_t ends_len,
    const int16_t *steps, size_t steps_len, int64_t *out, size_t out_len);

/* A loftsplice_scan_seek of each target in turn, in any order; or refused 100, 1, 2, 3, 6, 7, 10: the last where out has fewer places than there are
 * values, so as many places as targets are always enough. O(R + T). */
loftsplice_ran loftsplice_scan_seek_run(loftsplice_scan scan, const int64_t *starts, size_t starts_len, const uint64_t *ends, size_t ends_len,
    const int16_t *steps, size_t steps_len, const int64_t *targets, size_t targets_len, int64_t *out, size_t out_len);

/* ---- the interval filter. Bounds are two lists: values, or for variable bounds the numbers of inputs (from 0), and a kind for each. Inputs are
 * two lists: values, and for each 1 if it has a value, 0 if none. */

/* A filter over a scan, in a mode, its constant bounds folded; or refused 100, 8, and then the filter's state is LOFTSPLICE_NO_STATE. O(1). */
loftsplice_new_filter loftsplice_filter_new(loftsplice_scan scan, uint32_t mode, const int64_t *lower_values, size_t lower_values_len,
    const uint8_t *lower_kinds, size_t lower_kinds_len, const int64_t *upper_values, size_t upper_values_len, const uint8_t *upper_kinds,
    size_t upper_kinds_len);

/* To the next element that meets the bounds, or none; or refused 100, 1, 2, 3, 6, 8, 7, 9. O(R). */
loftsplice_sifted loftsplice_filter_next(loftsplice_filter filter, const int64_t *starts, size_t starts_len, const uint64_t *ends, size_t ends_len,
    const int16_t *steps, size_t steps_len, const uint64_t *lower_inputs, size_t lower_inputs_len, const uint8_t *lower_kinds,
    size_t lower_kinds_len, const uint64_t *upper_inputs, size_t upper_inputs_len, const uint8_t *upper_kinds, size_t upper_kinds_len,
    const int64_t *input_values, size_t input_values_len, const uint8_t *input_found, size_t input_found_len);

/* To the first element from here on that meets the bounds and is not below the target, which is ignored Before without a lower bound; or refused
 * 100, 1, 2, 3, 6, 8, 7, 9. O(R). */
loftsplice_sifted loftsplice_filter_seek(loftsplice_filter filter, const int64_t *starts, size_t starts_len, const uint64_t *ends, size_t ends_len,
    const int16_t *steps, size_t steps_len, int64_t target, const uint64_t *lower_inputs, size_t lower_inputs_len, const uint8_t *lower_kinds,
    size_t lower_kinds_len, const uint64_t *upper_inputs, size_t upper_inputs_len, const uint8_t *upper_kinds, size_t upper_kinds_len,
    const int64_t *input_values, size_t input_values_len, const uint8_t *input_found, size_t input_found_len);

/* What its scan carries when Within, else none; or refused 100, 6: in any state of the filter where loftsplice_scan_current of its scan is. It looks at
 * no column. O(1). */
loftsplice_answer loftsplice_filter_current(loftsplice_filter filter);

/* Before again, in the same mode, the scan as it stands; or refused 100. O(1). */
loftsplice_reset loftsplice_filter_reset(loftsplice_filter filter);

/* Many moves of a filter in one call, as of a scan above: the values are the answers of the single calls one after the other, the filter is the one that
 * the last of them leaves. The lists are handed over once, and read by the first call of the run if the filter is Before. */

/* As many loftsplice_filter_next as out has places; or refused 100, 1, 2, 3, 6, 8, 7, 9. O(R + N). */
loftsplice_filter_ran loftsplice_filter_next_run(loftsplice_filter filter, const int64_t *starts, size_t starts_len, const uint64_t *ends,
    size_t ends_len, const int16_t *steps, size_t steps_len, const uint64_t *lower_inputs, size_t lower_inputs_len, const uint8_t *lower_kinds,
    size_t lower_kinds_len, const uint64_t *upper_inputs, size_t upper_inputs_len, const uint8_t *upper_kinds, size_t upper_kinds_len,
    const int64_t *input_values, size_t input_values_len, const uint8_t *input_found, size_t input_found_len, int64_t *out, size_t out_len);

/* A loftsplice_filter_seek of each target in turn, in any order; or refused 100, 1, 2, 3, 6, 8, 7, 9, 10: the last where out has fewer places than there
 * are values, so as many places as targets are always enough. O(R + T). */
loftsplice_filter_ran loftsplice_filter_seek_run(loftsplice_filter filter, const int64_t *starts, size_t starts_len, const uint64_t *ends,
    size_t ends_len, const int16_t *steps, size_t steps_len, const int64_t *targets, size_t targets_len, const uint64_t *lower_inputs,
    size_t lower_inputs_len, const uint8_t *lower_kinds, size_t lower_kinds_len, const uint64_t *upper_inputs, size_t upper_inputs_len,
    const uint8_t *upper_kinds, size_t upper_kinds_len, const int64_t *input_values, size_t input_values_len, const uint8_t *input_found,
    size_t input_found_len, int64_t *out, size_t out_len);

/* ---- the batch listing */

/* Writes the values of each window from[i]..to[i] that meet the constant bounds into out, window by window, and each window's number of values into
 * counts; answers their sum. One mode for all windows. What it does not fill stays as it was; a refusal writes nothing. Refused 100, 1, 2, 3, 8, 5, 7,
 * 10. The parts of a window that rises, in one call or in several, in any order and from any threads, joined in their order are the list of the whole.
 * O(R + W * R + N). */
loftsplice_listed loftsplice_list(const int64_t *starts, size_t starts_len, const uint64_t *ends, size_t ends_len, const int16_t *steps,
    size_t steps_len, const uint64_t *from, size_t from_len, const uint64_t *to, size_t to_len, uint32_t mode, const int64_t *lower_values,
    size_t lower_values_len, const uint8_t *lower_kinds, size_t lower_kinds_len, const int64_t *upper_values, size_t upper_values_len,
    const uint8_t *upper_kinds, size_t upper_kinds_len, int64_t *out, size_t out_len, uint64_t *counts, size_t counts_len);

/* ---- the stored record */

/* Reads the record at the front of bytes into the first places of the three lists, and does not read what follows it; or refused 11, 13, 12, 10, 2, 3,
 * and then nothing is written. O(R), runs of the record. */
loftsplice_read loftsplice_read_record(const uint8_t *bytes, size_t bytes_len, int64_t *starts, size_t starts_len, uint64_t *ends, size_t ends_len,
    int16_t *steps, size_t steps_len);

/* Writes a column's record into the first places of out; or refused 1, 2, 3, 10, and then nothing is written. O(R). */
loftsplice_written loftsplice_write_record(const int64_t *starts, size_t starts_len, const uint64_t *ends, size_t ends_len, const int16_t *steps,
    size_t steps_len, uint8_t *out, size_t out_len);

/* ---- presence bitmaps, as Apache Arrow has them: record i is bit i mod 8 of byte i / 8, lowest bit first, 1 for present. A bitmap of `count` records
 * takes (count + 7) / 8 bytes. */

/* The column of the record numbers that are present, into the first places of the three lists, which may differ in length; a run starts with one number
 * and step 0, the next joins if it is a step away, later ones while they are that step apart. Bits past the count, and bytes beyond, are not looked at;
 * or refused 14, 11, 1, 10. O(B + E). */
loftsplice_imported loftsplice_import(const uint8_t *bytes, size_t bytes_len, uint64_t count, int64_t *starts, size_t starts_len, uint64_t *ends,
    size_t ends_len, int16_t *steps, size_t steps_len);

/* The bitmap of a rising column, into the first bytes of out: each is written whole, with zeros past the count, and none beyond is; or refused 14, 1, 2, 3,
 * 7, 15, 10. Importing it gives the same elements. O(R + B + E). */
loftsplice_exported loftsplice_export(const int64_t *starts, size_t starts_len, const uint64_t *ends, size_t ends_len, const int16_t *steps,
    size_t steps_len, uint64_t count, uint8_t *out, size_t out_len);

/* ---- reading profiles: records are numbered from 0 up to `count`, and a rising column of record numbers says of each whether it carries an optional
 * field. By LOFTSPLICE_LISTS_CARRYING the elements are the records that carry it; by LOFTSPLICE_LISTS_EMPTY those that leave it empty, so that each answer
 * is the opposite. A record that does not carry the field is filled. */

/* Whether one record carries the field; or refused 16, 14, 1, 2, 3, 7, 15, 4. O(R). */
loftsplice_carried loftsplice_carries(uint32_t profile, uint64_t count, const int64_t *starts, size_t starts_len, const uint64_t *ends, size_t ends_len,
    const int16_t *steps, size_t steps_len, uint64_t record);

/* Writes those records of the window start..end that carry the field into the first places of out, in their order, and answers their number. A window
 * whose start is not below its end is empty. What it does not fill stays as it was; or refused 16, 14, 1, 2, 3, 7, 15, 5, 10, and then nothing is written.
 * As many places as the window has records are always enough. O(R + N). */
loftsplice_records loftsplice_carrying(uint32_t profile, uint64_t count, const int64_t *starts, size_t starts_len, const uint64_t *ends, size_t ends_len,
    const int16_t *steps, size_t steps_len, uint64_t start, uint64_t end, uint64_t *out, size_t out_len);

/* The same of those that don't carry it, the filled ones. Each record of the window is written by exactly one of these two calls. O(R + N). */
loftsplice_records loftsplice_filled(uint32_t profile, uint64_t count, const int64_t *starts, size_t starts_len, const uint64_t *ends, size_t ends_len,
    const int16_t *steps, size_t steps_len, uint64_t start, uint64_t end, uint64_t *out, size_t out_len);

/* ---- exact totals */

/* Of each window from..to, at most LOFTSPLICE_MAX_WINDOWS of them, into the first places of five lists, a place a window: how many elements it has, the least,
 * the greatest, and the exact sum, that of the elements added one after the other, as highs * 4294967296 + lows, each low below 4294967296. The answer has the
 * same over all windows; one that occurs twice is counted twice. A window need not rise. One whose start is at or above its end is empty: its count, high and
 * low are written as 0, and its places of leasts and greatests are left as they were, so read these only where the count is above 0. A window's sum always has
 * a high; that over all may have none, which is 18, however far the sums on the way went; or refused 1, 2, 3, 8, 5, 18, 10. O(R + W * R). */
loftsplice_totalled loftsplice_totals(const int64_t *starts, size_t starts_len, const uint64_t *ends, size_t ends_len, const int16_t *steps,
    size_t steps_len, const uint64_t *from, size_t from_len, const uint64_t *to, size_t to_len, uint64_t *counts, size_t counts_len, int64_t *leasts,
    size_t leasts_len, int64_t *greatests, size_t greatests_len, int64_t *highs, size_t highs_len, uint64_t *lows, size_t lows_len);

#ifdef __cplusplus
}
#endif

#endif
