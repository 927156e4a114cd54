//! The model's shortcuts by runs against document 01's sentences taken element by element.
use oracle::calls::*;
use oracle::exhaustive::{Level, columns};
use oracle::model::{Column, Session};

fn small() -> Vec<Runs> {
    columns(Level { lengths: 3, steps: &[-2, 0, 1, 3], gaps: &[-1, 0, 1, 4], runs: 2, depth: 0, every: 1 })
}

/// "A window rises if each element is above the one before", and the first index whose element is not below a target.
#[test]
fn rising_and_first() {
    let mut tried = 0;
    for runs in small() {
        let c = Column::new(&runs);
        let length = c.check().unwrap();
        for end in 0..=length {
            for start in 0..=length + 1 {
                let plain = (start..end).skip(1).all(|i| c.at(i - 1) < c.at(i));
                assert_eq!(c.rises(start, end), plain, "{runs:?} {start}..{end}");
                for target in -6..30 {
                    if plain {
                        let first = (start..end).find(|&i| c.at(i) >= target);
                        assert_eq!(c.first_from(start, end, target), first, "{runs:?} {start}..{end} {target}");
                        tried += 1;
                    }
                }
            }
        }
    }
    assert!(tried > 100_000, "{tried}");
}

/// "the values that a fresh scan and a new filter give", by making that scan and filter.
#[test]
fn listing_is_the_filter() {
    let mut tried = 0;
    for runs in small().into_iter().step_by(7) {
        let c = Column::new(&runs);
        let length = c.check().unwrap();
        let bound = |v: i64| [vec![], vec![Bound { value: v, exclusive: false }], vec![Bound { value: v, exclusive: true }]];
        for (start, end) in (0..=length).flat_map(|e| (0..=e).map(move |s| (s, e))).filter(|&(s, e)| c.rises(s, e)) {
            for lower in (3..9).flat_map(bound) {
                for upper in (4..12).flat_map(bound) {
                    let l = Listing {
                        from: vec![start],
                        to: vec![end],
                        lower: lower.clone(),
                        upper: upper.clone(),
                        room: 50,
                        counts: 1,
                        ..Listing::default()
                    };
                    let mut s = Session::new(&c);
                    s.call(&Call::Narrow(start, end));
                    s.call(&Call::FilterNew(Wins::Inclusive, lower.clone(), upper));
                    let mut out = vec![];
                    while let Said::Value(v) = s.call(&Call::FilterNext(Lists::default())) {
                        out.push(v);
                    }
                    let sum = out.len() as u64;
                    assert_eq!(Session::new(&c).call(&Call::List(l)), Said::Listed { sum, counts: vec![sum], out });
                    tried += 1;
                }
            }
        }
    }
    assert!(tried > 10_000, "{tried}");
}

/// Document 02, request 13: every window that rises, cut at every middle and at every two, is the whole: output, sum and counts; asked one by one too.
#[test]
fn cut_windows() {
    let (mut tried, mut fell) = (0, 0);
    for runs in small().into_iter().step_by(5) {
        let c = Column::new(&runs);
        let length = c.check().unwrap();
        let both = |value: i64| vec![Bound { value, exclusive: false }, Bound { value, exclusive: true }];
        for (lower, upper) in [(vec![], vec![]), (vec![Bound { value: 5, exclusive: true }], both(7)), (both(6), vec![])] {
            for wins in [Wins::Inclusive, Wins::Exclusive] {
                let said = |cuts: &[u64]| {
                    let (from, to) = (cuts[..cuts.len() - 1].to_vec(), cuts[1..].to_vec());
                    let (lower, upper, counts) = (lower.clone(), upper.clone(), from.len());
                    Session::new(&c).call(&Call::List(Listing { from, to, wins, lower, upper, room: 50, counts }))
                };
                // a fresh scan narrowed to the window, a new filter, and next until none
                let asked = |start, end| {
                    let mut s = Session::new(&c);
                    s.call(&Call::Narrow(start, end));
                    s.call(&Call::FilterNew(wins, lower.clone(), upper.clone()));
                    std::iter::from_fn(|| if let Said::Value(v) = s.call(&Call::FilterNext(Lists::default())) { Some(v) } else { None }).collect::<Vec<_>>()
                };
                for (start, end) in (0..=length).flat_map(|e| (0..=e).map(move |s| (s, e))) {
                    let Said::Listed { sum: whole, out: values, .. } = said(&[start, end]) else {
                        // its parts may rise though it falls
                        fell += u32::from((start..=end).any(|m| matches!(said(&[start, m, end]), Said::Listed { .. })));
                        continue;
                    };
                    for middle in start..=end {
                        assert_eq!([asked(start, middle), asked(middle, end)].concat(), values, "{runs:?} {start}..{middle}..{end}");
                        for cuts in std::iter::once(vec![start, middle, end]).chain((middle..=end).map(|m| vec![start, middle, m, end])) {
                            let Said::Listed { sum, counts, out } = said(&cuts) else { panic!("{runs:?} {cuts:?} is refused") };
                            assert_eq!((sum, counts.iter().sum::<u64>(), &out), (whole, whole, &values), "{runs:?} {cuts:?}");
                            tried += 1;
                        }
                    }
                }
            }
        }
    }
    assert!(tried > 10_000 && fell > 100, "{tried}, {fell}");
}

/// Document 02, request 13: from every state of every window, a target and then one that is not below it leave what the second does at once; a filter that is
/// Before without a lower bound does not.
#[test]
fn chained_seeks() {
    let (mut tried, mut refused) = (0, 0);
    for runs in small().into_iter().step_by(3) {
        let c = Column::new(&runs);
        let length = c.check().unwrap();
        for (start, end) in (0..=length).flat_map(|e| (0..=e).map(move |s| (s, e))) {
            for nexts in 0..=end - start + 1 {
                let seeks = |targets: &[i64]| {
                    let mut s = Session::new(&c);
                    s.call(&Call::Narrow(start, end));
                    (0..nexts).for_each(|_| drop(s.call(&Call::Next)));
                    let said = targets.iter().map(|&x| s.call(&Call::Seek(x))).last();
                    (said, s.scan)
                };
                for (first, second) in (3..12).flat_map(|y| (3..=y).map(move |x| (x, y))) {
                    assert_eq!(seeks(&[first, second]), seeks(&[second]), "{runs:?} {start}..{end} after {nexts}: {first}, {second}");
                    tried += 1;
                }
                refused += u32::from(matches!(seeks(&[3]).0, Some(Said::Refused(7))));
            }
        }
    }
    assert!(tried > 100_000 && refused > 1_000, "{tried}, {refused}");
    let ten = Runs::of(&[(10, 0, 1)]);
    let column = Column::new(&ten);
    let asks = |targets: &[i64]| {
        let mut s = Session::new(&column);
        s.call(&Call::FilterNew(Wins::Inclusive, vec![], vec![]));
        targets.iter().map(|&x| s.call(&Call::FilterSeek(x, Lists::default()))).last()
    };
    assert_eq!((asks(&[10, 11]), asks(&[11])), (Some(Said::None), Some(Said::Value(10))));
}

/// In strict mode an element is given exactly if it meets every bound, each one for itself, constant or variable; in the other mode also where it is the
/// least upper value and given both ways.
#[test]
fn strict_means_all() {
    let meets = |v: i64, u: &Constant| v < u.value || (v == u.value && !u.exclusive);
    let (mut tried, mut ties) = (0, 0);
    for runs in small().into_iter().step_by(2) {
        let c = Column::new(&runs);
        let length = c.check().unwrap();
        if !c.rises(0, length) {
            continue;
        }
        let elements: Vec<i64> = (0..length).map(|i| c.at(i)).collect();
        let all: Vec<Constant> = (4..9).flat_map(|value| [false, true].map(|exclusive| Bound { value, exclusive })).collect();
        for three in all.iter().flat_map(|a| all.iter().flat_map(|b| all.iter().map(|c| [*a, *b, *c]))) {
            let lists = Lists { upper: vec![Bound { value: 0, exclusive: three[2].exclusive }], inputs: vec![Some(three[2].value)], ..Lists::default() };
            let tie = |v: i64| three.iter().all(|u| u.value >= v) && [false, true].iter().all(|k| three.contains(&Bound { value: v, exclusive: *k }));
            for wins in [Wins::Inclusive, Wins::Exclusive] {
                let mut s = Session::new(&c);
                s.call(&Call::FilterNew(wins, vec![], three[..2].to_vec()));
                let mut given = vec![];
                while let Said::Value(v) = s.call(&Call::FilterNext(lists.clone())) {
                    given.push(v);
                }
                let through = |v: i64| three.iter().all(|u| meets(v, u)) || (wins == Wins::Inclusive && tie(v));
                let wanted: Vec<i64> = elements.iter().copied().filter(|&v| through(v)).collect();
                assert_eq!(given, wanted, "{runs:?} {three:?} {wins:?}");
                tried += 1;
                ties += u32::from(elements.iter().any(|&v| tie(v)));
            }
        }
    }
    assert!(tried > 10_000 && ties > 1_000, "{tried}, {ties}");
}

/// Document 02, request 1: what the rule makes of a list is a column whose elements are the list again, and no column with these elements has fewer runs.
#[test]
fn built_runs_are_the_list_and_least() {
    // The fewest runs: the best of all ways to cut the list into stretches of one difference, each of which is a step.
    let least = |list: &[i64]| {
        let run = |part: &[i64]| {
            let steps: Vec<_> = part.windows(2).map(|w| oracle::model::diff_step(w[0], w[1])).collect();
            steps.iter().all(|s| s.is_some() && *s == steps[0])
        };
        let mut fewest = vec![0];
        for end in 1..=list.len() {
            let last = (0..end).filter(|&start| run(&list[start..end]));
            fewest.push(last.map(|start| fewest[start] + 1).min().unwrap());
        }
        fewest[list.len()]
    };
    let build = |list: &[i64]| match Session::new(&Column::new(&Runs::default())).call(&Call::Build(list.to_vec(), [list.len(); 3])) {
        Said::Built(runs) => runs,
        other => panic!("{list:?}: {other}"),
    };
    let mut dice = oracle::random::Dice(3);
    let mut tried = 0;
    for _ in 0..4000 {
        let mut list = oracle::lists::random(&mut dice);
        list.truncate(80);
        let runs = build(&list);
        let column = Column::new(&runs);
        assert_eq!(column.check(), Ok(list.len() as u64));
        assert!((0..list.len()).all(|i| column.at(i as u64) == list[i]), "{list:?}");
        assert_eq!(runs.starts.len(), least(&list), "{list:?}");
        tried += u32::from(runs.starts.len() > 2);
    }
    assert!(tried > 500, "{tried}");
}

/// Document 02, request 3: "Import after export gives the same elements and is never refused 1; export after an accepted import gives the same bits below the
/// count"; the ones that are counted are the elements.
#[test]
fn bitmaps_go_there_and_back() {
    let mut dice = oracle::random::Dice(4);
    let (mut imported, mut exported) = (0, 0);
    let import = |bytes: &[u8], count: u64| Session::new(&Column::new(&Runs::default())).call(&Call::Import(bytes.to_vec(), count, [4096; 3]));
    let elements = |runs: &Runs| {
        let column = Column::new(runs);
        let length = column.check().unwrap();
        (0..length).map(|i| column.at(i)).collect::<Vec<_>>()
    };
    for _ in 0..3000 {
        let (bytes, count) = oracle::bitmaps::random(&mut dice);
        if let Said::Imported { ones, runs } = import(&bytes, count) {
            let Said::Written(back) = Session::new(&Column::new(&runs)).call(&Call::Export(count, bytes.len())) else { panic!("refused") };
            let bit = |bytes: &[u8], i: u64| format!("{:08b}", bytes[i as usize / 8]).as_bytes()[7 - i as usize % 8];
            assert!((0..count).all(|i| bit(&back, i) == bit(&bytes, i)));
            assert!((count..8 * back.len() as u64).all(|i| bit(&back, i) == b'0'));
            assert_eq!((0..count).filter(|&i| bit(&bytes, i) == b'1').count() as u64, ones);
            assert_eq!(elements(&runs).len() as u64, ones);
            imported += 1;
        }
        let (runs, counts) = {
            let column = oracle::random::column(&mut dice, 40);
            oracle::bitmaps::moved(&mut dice, &column)
        };
        for count in counts {
            let said = Session::new(&Column::new(&runs)).call(&Call::Export(count, 65_536));
            let Said::Written(bytes) = said else { continue };
            let Said::Imported { ones, runs: again } = import(&bytes, count) else { panic!("refused") };
            assert_eq!(elements(&again), elements(&runs));
            assert!(ones == elements(&runs).len() as u64 && again.ends.len() <= runs.ends.len());
            exported += 1;
        }
    }
    assert!(imported > 2000 && exported > 2000, "{imported}, {exported}");
}

/// Document 02, request 7: each record of a window is in exactly one list, in order, in the one that carries the field exactly if it is an element (profile 1)
/// or is none (profile 2); profile 2 answers the opposite; a window that is cut; a scan's seek; and the bitmap of the column.
#[test]
fn profiles_are_the_elements_and_opposite() {
    let (mut tried, mut refused) = (0, 0);
    for mut runs in columns(Level { lengths: 3, steps: &[0, 1, 2, 3], gaps: &[0, 1, 2, 5], runs: 2, depth: 0, every: 1 }) {
        runs.starts.iter_mut().for_each(|start| *start -= 3);
        let c = Column::new(&runs);
        let elements: Vec<i64> = (0..c.check().unwrap()).map(|i| c.at(i)).collect();
        let count = elements.iter().max().map_or(2, |top| *top as u64 + 3);
        let ask = |call: Call| Session::new(&c).call(&call);
        let list = |profile, start, end, carry| ask(Call::Profile(Fields { profile, count, start, end, carry, places: 99 }));
        let Said::Written(bytes) = ask(Call::Export(count, 99)) else {
            assert_eq!(list(1, 0, count, true), Said::Refused(7));
            refused += 1;
            continue;
        };
        for record in 0..count {
            let mut scan = Session::new(&c);
            let sought = scan.call(&Call::Seek(record as i64)) == Said::Value(record as i64);
            assert_eq!(elements.contains(&(record as i64)), sought);
            assert_eq!(bytes[record as usize / 8] >> (record % 8) & 1 == 1, sought);
            assert_eq!((ask(Call::Carries(1, count, record)), ask(Call::Carries(2, count, record))), (Said::Carries(sought), Said::Carries(!sought)));
        }
        for (start, end) in (0..=count).flat_map(|end| (0..=count).map(move |start| (start, end))) {
            let (own, others): (Vec<i64>, Vec<i64>) = (start as i64..end as i64).partition(|record| elements.contains(record));
            assert_eq!((list(1, start, end, true), list(1, start, end, false)), (Said::Ran(own.clone()), Said::Ran(others.clone())));
            assert_eq!((list(2, start, end, true), list(2, start, end, false)), (Said::Ran(others), Said::Ran(own)));
            tried += 1;
        }
        for middle in 0..=count {
            let parts = [list(1, 0, middle, false), list(1, middle, count, false)];
            let parts = parts.map(|said| if let Said::Ran(records) = said { records } else { panic!("{said}") });
            assert_eq!(Said::Ran(parts.concat()), list(1, 0, count, false));
        }
    }
    assert!(tried > 40_000 && refused > 200, "{tried}, {refused}");
}

/// Document 02, request 11: "The total equals adding the elements one after the other", also where a stretch is long; of a cut window the totals are those of
/// its parts together, and a window that occurs twice is counted twice.
#[test]
fn totals_are_added_up() {
    let worth = |t: &Total| i128::from(t.high) * (1 << 32) + i128::from(t.low);
    let ask = |column: &Column, windows: &[(u64, u64)]| {
        let (from, to): (Vec<u64>, Vec<u64>) = windows.iter().copied().unzip();
        match Session::new(column).call(&Call::Totals(from, to, [windows.len(); 5])) {
            Said::Totalled { all, windows } => (all, windows),
            other => panic!("{other}"),
        }
    };
    let mut dice = oracle::random::Dice(11);
    let mut long = 0;
    for _ in 0..400 {
        let runs = Runs::of(&[
            (dice.below(2000) as i64 - 1000, dice.below(9) as i16 - 4, 1 + dice.below(3000)),
            (dice.word() as i64 / 2, dice.word() as i16, 1 + dice.below(1500)),
            (i64::MIN, 0, 1 + dice.below(3)),
        ]);
        let column = Column::new(&runs);
        let length = column.check().unwrap();
        let (start, end) = (dice.below(length + 1), dice.below(length + 1));
        let elements: Vec<i64> = (start..end).map(|i| column.at(i)).collect();
        let (all, windows) = ask(&column, &[(start, end)]);
        assert_eq!(all, windows[0]);
        assert!(all.low < 1 << 32);
        assert_eq!(worth(&all), elements.iter().map(|e| i128::from(*e)).sum::<i128>());
        assert_eq!(all.count, elements.len() as u64);
        assert_eq!(all.edges, elements.iter().min().copied().zip(elements.iter().max().copied()));
        long += u32::from(elements.len() > 1500);
        if start <= end {
            let middle = start + dice.below(end - start + 1);
            assert_eq!(ask(&column, &[(start, middle), (middle, end)]).0, all);
            let twice = ask(&column, &[(start, end), (start, end)]).0;
            assert_eq!((twice.count, twice.edges, worth(&twice)), (2 * all.count, all.edges, 2 * worth(&all)));
        }
    }
    assert!(long > 20, "{long}");
}

/// The order of refusals: an input that could be refused by several numbers is refused by the one that document 01 tries first.
#[test]
fn order_of_refusals() {
    let said = |runs: &Runs, call: Call| Session::new(&Column::new(runs)).call(&call);
    let d = Runs::of(&[(10, -5, 2), (6, 1, 3)]);
    let long = |n| vec![Bound { value: 1, exclusive: false }; n];
    let list = |from: Vec<u64>, to: Vec<u64>, n: usize, room| Call::List(Listing { from, to, lower: long(n), room, ..Listing::default() });
    // 8 before 5 before 7 before 10
    assert_eq!(said(&d, list(vec![0, 0], vec![9], 1, 0)), Said::Refused(8));
    assert_eq!(said(&d, list(vec![0, 0], vec![5, 9], 17, 0)), Said::Refused(8));
    assert_eq!(said(&d, list(vec![0, 0], vec![5, 9], 16, 0)), Said::Refused(5));
    assert_eq!(said(&d, list(vec![1, 0], vec![5, 5], 1, 0)), Said::Refused(7));
    assert_eq!(said(&d, list(vec![1, 2], vec![5, 5], 1, 0)), Said::Refused(10));
    // 1 before 2 before 3, each over the whole input
    let bad = Runs { starts: vec![i64::MAX, 0], ends: vec![5, 5], steps: vec![1] };
    assert_eq!(said(&bad, Call::Check), Said::Refused(1));
    assert_eq!(said(&Runs { steps: vec![1, 1], ..bad.clone() }, Call::Check), Said::Refused(2));
    assert_eq!(said(&Runs { ends: vec![5, 6], steps: vec![1, 1], ..bad }, Call::Check), Said::Refused(3));
    // a record: 11, 13, 11, 12, 13, 10, 2, 3
    let read = |bytes: &[u8], n| said(&d, Call::Read(bytes.to_vec(), [n; 3]));
    assert_eq!(read(&[1, 0, 0], 0), Said::Refused(11));
    assert_eq!(read(&[1, 0, 0, 0], 0), Said::Refused(13));
    assert_eq!(read(&[3, 0, 0, 0, 2, 0], 0), Said::Refused(11));
    assert_eq!(read(&[3, 0, 0, 0, 2, 0, 0], 0), Said::Refused(12));
    assert_eq!(read(&[3, 0, 0, 0, 1, 0, 0], 0), Said::Refused(13));
    let mut run = vec![16, 0, 0, 0, 1, 0, 255, 255, 255, 255, 255, 255, 255, 127, 1, 0, 0, 0, 0, 0];
    assert_eq!(read(&run, 0), Said::Refused(10));
    assert_eq!(read(&run, 1), Said::Refused(2));
    run[16] = 2;
    assert_eq!(read(&run, 1), Said::Refused(3));
    run[16] = 1;
    assert!(matches!(read(&run, 1), Said::Read { used: 20, .. }));
    assert_eq!(read(&[2, 0, 0, 0, 1, 0, 77], 0), Said::Read { used: 6, runs: Runs::default() });
}
