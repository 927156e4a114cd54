/* Many threads on one column at once, each with a scan, a filter and an output of its own: all get what one alone gets. The last line says how many
 * answers were compared; the exit status is 1 if one differed, or if a thread could not be started. */
#include "loftsplice.h"

#include <pthread.h>
#include <stdio.h>

enum { threads = 8, rounds = 200, runs = 64, length = 8 * runs };

static int64_t starts[runs];
static uint64_t ends[runs];
static int16_t steps[runs];
#define COLUMN starts, runs, ends, runs, steps, runs

/* What one thread adds up, and the sum that it has to come to: run r has the elements 100 r, 100 r + 10, .., 100 r + 70. */
typedef struct work {
    uint64_t answers;
    int failed;
} work;

static void *walk(void *given) {
    work *mine = given;
    for (int round = 0; round < rounds; round++) {
        loftsplice_scan scan = loftsplice_scan_new(COLUMN).scan;
        loftsplice_filter filter = loftsplice_filter_new(scan, LOFTSPLICE_INCLUSIVE_WINS, NULL, 0, NULL, 0, NULL, 0, NULL, 0).filter;
        int64_t out[length], sifted[length];
        uint64_t from = 0, to = length, count = 0;
        loftsplice_listed listed = loftsplice_list(COLUMN, &from, 1, &to, 1, LOFTSPLICE_INCLUSIVE_WINS, NULL, 0, NULL, 0, NULL, 0, NULL, 0, out, length,
            &count, 1);
        mine->failed |= listed.refusal != 0 || listed.sum != length || count != length;
        loftsplice_filter_ran ran = loftsplice_filter_next_run(filter, COLUMN, NULL, 0, NULL, 0, NULL, 0, NULL, 0, NULL, 0, NULL, 0, sifted, length);
        mine->failed |= ran.refusal != 0 || ran.count != length;
        for (int i = 0; i < length; i++) {
            int64_t element = 100 * (i / 8) + 10 * (i % 8);
            loftsplice_moved moved = i % 2 == 0 ? loftsplice_scan_next(scan, COLUMN) : loftsplice_scan_seek(scan, COLUMN, element - 5);
            scan = moved.scan;
            mine->answers++;
            mine->failed |= moved.answer.refusal != 0 || moved.answer.value != element || out[i] != element || sifted[i] != element;
        }
    }
    return NULL;
}

int main(void) {
    for (int r = 0; r < runs; r++) starts[r] = 100 * r, ends[r] = 8 * (uint64_t)r + 8, steps[r] = 10;
    pthread_t started[threads];
    work works[threads] = {{0, 0}};
    uint64_t answers = 0;
    int failed = 0;
    for (int t = 0; t < threads; t++) {
        if (pthread_create(&started[t], NULL, walk, &works[t]) != 0) return 1;
    }
    for (int t = 0; t < threads; t++) {
        failed |= pthread_join(started[t], NULL) != 0;
        failed |= works[t].failed;
        answers += works[t].answers;
    }
    printf("threads: %d threads, %lu answers, %s\n", threads, (unsigned long)answers, failed ? "some wrong" : "all right");
    return failed || answers != (uint64_t)threads * rounds * length;
}
