//! `replay FILE`: plays every case of a corpus. Exit status 0 exactly if all agree, 1 if something differs, 2 if the file can't be read.
use oracle::{compare, corpus, port, replay};

const SHOWN: u64 = 20;

fn main() {
    let Some(file) = std::env::args().nth(1) else {
        eprintln!("replay FILE");
        std::process::exit(2);
    };
    let unreadable = |e: String| -> ! {
        eprintln!("{file}: {e}");
        std::process::exit(2);
    };
    let text = std::fs::read_to_string(&file).unwrap_or_else(|e| unreadable(e.to_string()));
    let cases = corpus::cases(&text).unwrap_or_else(|e| unreadable(e));
    oracle::announce();
    compare::quiet_panics();
    let mut counts = replay::Counts::default();
    let mut shown = 0;
    for case in &cases {
        replay::play(case, &mut counts, &mut |difference| {
            shown += 1;
            if shown <= SHOWN {
                println!("{difference}");
            }
        });
    }
    if !port::PRESENT {
        println!("the port did NOT play");
    }
    println!(
        "{} cases, {} lines: {} answers of the port, {} of the Rust, {} lines with no scan given; {} differences",
        counts.cases, counts.lines, counts.port, counts.rust, counts.stateless, counts.differences
    );
    if counts.cases == 0 {
        unreadable("no case in it".into());
    }
    std::process::exit(i32::from(counts.differences > 0));
}
