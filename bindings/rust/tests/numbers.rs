//! Refusals of numbers and lists that are not good, through `raw`.
use loftsplice::raw;

/// 10 15 20 25, 30, 31, 40 140 240
const C: (&[i64], &[u64], &[i16]) = (&[10, 30, 31, 40], &[4, 5, 6, 9], &[5, 0, -3, 100]);

/// Both runs of calls, and a run of none, with the same refusal; the scan and the output are as they went in.
fn runs_refused(scan: raw::Scan, ends: &[u64], refusal: u32) {
    let (starts, _, steps) = C;
    let mut out = [-77; 2];
    let nexts = raw::scan_next_run(scan, starts, ends, steps, &mut out);
    let seeks = raw::scan_seek_run(scan, starts, ends, steps, &[5, 6], &mut out);
    let none = raw::scan_seek_run(scan, starts, ends, steps, &[], &mut []);
    let count = 0;
    let back = raw::Ran {
        scan,
        refusal,
        count,
    };
    assert_eq!(([nexts, seeks, none], out), ([back; 3], [-77; 2]));
}

/// The same of a filter.
fn filter_runs_refused(filter: raw::Filter, ends: &[u64], refusal: u32) {
    let (starts, _, steps) = C;
    let mut out = [-77; 2];
    let free = raw::Variables::default();
    let nexts = raw::filter_next_run(filter, starts, ends, steps, free, &mut out);
    let seeks = raw::filter_seek_run(filter, starts, ends, steps, &[5, 6], free, &mut out);
    let none = raw::filter_seek_run(filter, starts, ends, steps, &[], free, &mut []);
    let count = 0;
    let back = raw::FilterRan {
        filter,
        refusal,
        count,
    };
    assert_eq!(([nexts, seeks, none], out), ([back; 3], [-77; 2]));
}

#[test]
fn a_value_that_does_not_belong_there_is_refused_and_comes_back() {
    let (starts, ends, steps) = C;
    let refused = |refusal| raw::Answer {
        refusal,
        found: 0,
        value: 0,
    };
    let at = raw::Scan {
        start: 0,
        end: 9,
        index: 2,
        value: 20,
        state: raw::AT,
        found: 1,
    };
    assert_eq!(raw::scan_next(at, starts, ends, steps).answer.value, 25);
    let fresh = raw::Scan {
        state: raw::FRESH,
        ..at
    };
    let ended = raw::Scan {
        state: raw::ENDED,
        ..at
    };
    let missing = raw::Scan { found: 0, ..at };
    let wrong = raw::Scan { value: 21, ..at };
    for (scan, current) in [
        (fresh, None),
        (ended, None),
        (missing, None),
        (wrong, Some(21)),
    ] {
        let answer = refused(6);
        let back = raw::Moved { scan, answer };
        assert_eq!(raw::scan_next(scan, starts, ends, steps), back);
        assert_eq!(raw::scan_seek(scan, starts, ends, steps, 5), back);
        assert_eq!(raw::scan_narrow(scan, starts, ends, steps, 0, 1), back);
        assert_eq!(raw::scan_reset(scan, starts, ends, steps), back);
        assert_eq!(raw::scan_pos(scan, starts, ends, steps).refusal, 6);
        runs_refused(scan, ends, 6);
        runs_refused(scan, &[], 1);
        assert_eq!(raw::scan_next(scan, starts, &[], steps).answer.refusal, 1);
        let said = current.map_or(answer, |value| raw::Answer {
            refusal: 0,
            found: 1,
            value,
        });
        assert_eq!(raw::scan_current(scan), said);
        let made = raw::filter_new(scan, raw::INCLUSIVE_WINS, &[], &[], &[], &[]).filter;
        for state in [raw::BEFORE, raw::WITHIN, raw::AFTER] {
            let filter = raw::Filter { state, ..made };
            assert_eq!(
                raw::filter_next(filter, starts, ends, steps, raw::Variables::default()),
                raw::Sifted { filter, answer }
            );
            filter_runs_refused(filter, ends, 6);
            filter_runs_refused(filter, &[], 1);
            let within = current.filter(|_| state == raw::WITHIN);
            assert_eq!(
                raw::filter_current(filter),
                raw::Answer {
                    refusal: if current.is_none() { 6 } else { 0 },
                    found: u32::from(within.is_some()),
                    value: within.unwrap_or(0)
                }
            );
        }
    }
    for found in (2..300).chain([u32::MAX]) {
        let scan = raw::Scan { found, ..at };
        let answer = refused(raw::FORM);
        assert_eq!(
            raw::scan_next(scan, starts, &[], steps),
            raw::Moved { scan, answer }
        );
        assert_eq!(raw::scan_current(scan), answer);
        assert_eq!(
            raw::filter_new(scan, raw::INCLUSIVE_WINS, &[], &[], &[], &[]).refusal,
            raw::FORM
        );
    }
}

#[test]
fn bad_numbers_are_refused_and_come_back() {
    let (starts, ends, steps) = C;
    for state in (3..300).chain([u32::MAX]) {
        let scan = raw::Scan {
            start: 1,
            end: 9,
            index: 77,
            value: 66,
            state,
            found: 0,
        };
        let answer = raw::Answer {
            refusal: raw::FORM,
            found: 0,
            value: 0,
        };
        assert_eq!(
            raw::scan_next(scan, starts, ends, steps),
            raw::Moved { scan, answer }
        );
        assert_eq!(
            raw::scan_seek(scan, starts, &[], steps, 5),
            raw::Moved { scan, answer }
        );
        runs_refused(scan, &[], raw::FORM);
        assert_eq!(raw::scan_current(scan), answer);
        let made = raw::filter_new(scan, raw::INCLUSIVE_WINS, &[], &[], &[], &[]);
        assert_eq!(
            (made.refusal, made.filter.state),
            (raw::FORM, raw::NO_STATE)
        );
        let kept = raw::Limit {
            value: 5,
            kind: state,
        };
        let free = raw::Limit {
            value: 0,
            kind: raw::FREE,
        };
        let fresh = raw::Scan {
            start: 0,
            end: 9,
            index: 0,
            value: 0,
            state: raw::FRESH,
            found: 0,
        };
        let filter = raw::Filter {
            scan: fresh,
            lower: free,
            upper: free,
            kept,
            state: raw::BEFORE,
            mode: raw::INCLUSIVE_WINS,
        };
        // a number that is no mode, in a filter that is good otherwise
        let unmoded = raw::Filter {
            kept: free,
            mode: state,
            ..filter
        };
        assert_eq!(
            raw::filter_next(unmoded, starts, ends, steps, raw::Variables::default()),
            raw::Sifted {
                filter: unmoded,
                answer
            }
        );
        assert_eq!(
            raw::filter_new(fresh, state, &[], &[], &[], &[]).refusal,
            raw::FORM
        );
        assert_eq!(
            raw::filter_next(filter, starts, ends, steps, raw::Variables::default()),
            raw::Sifted { filter, answer }
        );
        filter_runs_refused(unmoded, &[], raw::FORM);
        filter_runs_refused(filter, ends, raw::FORM);
        assert_eq!(
            raw::filter_reset(filter),
            raw::Reset {
                refusal: raw::FORM,
                filter
            }
        );
    }
}

#[test]
fn bad_kinds_and_lists_of_bounds_are_refused() {
    let (starts, ends, steps) = C;
    let fresh = raw::scan_new(starts, ends, steps).scan;
    for kind in 0..=255 {
        let refusal = if kind == 1 || kind == 2 { 0 } else { raw::FORM };
        assert_eq!(
            raw::filter_new(fresh, raw::INCLUSIVE_WINS, &[], &[], &[5], &[kind]).refusal,
            refusal
        );
    }
    assert_eq!(
        raw::filter_new(fresh, raw::INCLUSIVE_WINS, &[5], &[], &[], &[]).refusal,
        raw::FORM
    );
    assert_eq!(
        raw::filter_new(fresh, raw::INCLUSIVE_WINS, &[5; 17], &[1; 17], &[], &[]).refusal,
        8
    );
    assert_eq!(raw::scan_new(starts, &ends[1..], steps).refusal, 1);
}

#[test]
fn a_refused_listing_writes_nothing() {
    let (starts, ends, steps) = C;
    let (mut out, mut counts) = ([-77; 4], [99; 3]);
    for mode in [0, 3, 100, u32::MAX] {
        let listed = raw::list(
            starts,
            &[],
            steps,
            &[3],
            &[6],
            mode,
            &[],
            &[],
            &[],
            &[],
            &mut out,
            &mut counts,
        );
        assert_eq!(
            (listed.refusal, out, counts),
            (raw::FORM, [-77; 4], [99; 3])
        );
    }
    let listed = raw::list(
        starts,
        ends,
        steps,
        &[0, 3],
        &[9, 6],
        raw::INCLUSIVE_WINS,
        &[],
        &[],
        &[],
        &[],
        &mut out,
        &mut counts,
    );
    assert_eq!(
        (listed, out, counts),
        (
            raw::Listed {
                refusal: 10,
                sum: 0
            },
            [-77; 4],
            [99; 3]
        )
    );
    let listed = raw::list(
        starts,
        ends,
        steps,
        &[3],
        &[6],
        raw::INCLUSIVE_WINS,
        &[],
        &[],
        &[],
        &[],
        &mut out,
        &mut counts,
    );
    assert_eq!(
        (listed, out, counts),
        (
            raw::Listed { refusal: 0, sum: 3 },
            [25, 30, 31, -77],
            [3, 99, 99]
        )
    );
}

/// A refused call hands back the scan that came in, each number in its place.
#[test]
fn scans_come_back_number_by_number() {
    let scan = raw::Scan {
        start: u64::MAX - 1,
        end: 2,
        index: u64::MAX - 3,
        value: i64::MIN + 4,
        state: u32::MAX - 5,
        found: 6,
    };
    for moved in [
        raw::scan_next(scan, &[], &[], &[]),
        raw::scan_seek(scan, &[], &[], &[], 7),
    ] {
        assert_eq!(
            (
                moved.scan,
                moved.answer.refusal,
                moved.answer.found,
                moved.answer.value
            ),
            (scan, 100, 0, 0)
        );
    }
}
